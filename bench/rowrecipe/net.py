"""Nets of the nodes that the program has, of which each is a signal of the text: inputs, wires, logic, sums, tables and delays.

An expression is a tree as tools/opgenlib/vhdl.py reads it: ("name", N), ("part", N, HIGH, LOW), ("bits", TEXT), ("not", E) or
("chain", OPERATOR, [E, ..]). Each call that appends a node asks whether its expression is what its class says.
"""
from __future__ import annotations

from collections.abc import Iterator
from dataclasses import dataclass, field

TABLE_INPUTS, MOST_WIDTH = 6, 96


@dataclass(frozen=True)
class Node:
    """A node: `input` and `output` have a port; wires, logic and sums an expression; a table its address and rows; a delay its node.
    `sums` is how many sums are in series up to it."""

    kind: str
    width: int
    tree: tuple | None = None
    port: str = ""
    rows: tuple[int, ...] = ()
    sums: int = 0


@dataclass
class Net:
    """A net, which grows node by node. An expression may be of one node's bits alone where that costs nothing. `wires` keeps what the
    bits of nodes of wires are."""

    nodes: list[Node] = field(default_factory=list)
    outputs: list[tuple[str, int]] = field(default_factory=list)
    known: dict[tuple, int] = field(default_factory=dict)
    wires: dict[int, list[Source]] = field(default_factory=dict)

    def put(self, node: Node) -> int:
        """A node, once where it is asked for again."""
        key = (node.kind, node.width, repr(node.tree), node.port, node.rows)
        if key not in self.known or node.kind == "input":
            self.known[key] = len(self.nodes)
            self.nodes.append(node)
        return self.known[key]

    def input(self, port: str, width: int) -> int:
        return self.put(Node("input", width, port=port))

    def wire(self, tree: tuple) -> int:
        """A node of wires; bits that are a whole node are that node."""
        if tree[0] == "name":
            return number_of(tree[1])
        if tree[0] == "part" and tree[3] == 0 and tree[2] == self.nodes[number_of(tree[1])].width - 1:
            return number_of(tree[1])
        assert is_wire(tree), tree
        return self.cells("wire", tree)

    def logic(self, tree: tuple) -> int:
        assert levels(tree) <= 2 and is_bitwise(tree), tree
        assert all(len(bits) <= TABLE_INPUTS for bits in reads(tree, self.width)), tree
        return self.cells("logic", tree)

    def sum_of(self, first: tuple, second: tuple, sign: str = "+") -> int:
        """The sum of two wires of the same width."""
        assert is_wire(first) and is_wire(second) and self.width(first) == self.width(second)
        return self.cells("add", ("chain", sign, [first, second]))

    def cells(self, kind: str, tree: tuple) -> int:
        sums = max((self.nodes[number_of(name)].sums for name in names_in(tree)), default=0)
        width = self.width(tree)
        assert 1 <= width <= MOST_WIDTH, (width, tree)
        return self.put(Node(kind, width, tree, sums=sums + (kind == "add")))

    def table(self, address: tuple, rows: list[int], width: int) -> int:
        """A row of bits for each address."""
        assert is_wire(address) and self.width(address) <= TABLE_INPUTS and len(rows) == 1 << self.width(address)
        sums = max((self.nodes[number_of(name)].sums for name in names_in(address)), default=0)
        return self.put(Node("table", width, address, rows=tuple(row & (1 << width) - 1 for row in rows), sums=sums))

    def delay(self, of: int) -> int:
        """What the node was a cycle before, and 0 at first."""
        return self.put(Node("delay", self.nodes[of].width, ("name", name_of(of))))

    def output(self, port: str, node: int) -> None:
        self.outputs.append((port, node))

    def width(self, tree: tuple) -> int:
        """The width of an expression."""
        match tree:
            case ("name", name):
                return self.nodes[number_of(name)].width
            case ("part", _, high, low):
                return high + 1 - low
            case ("bits", bits):
                return len(bits)
            case ("not", operand):
                return self.width(operand)
            case ("chain", "&", operands):
                return sum(map(self.width, operands))
            case ("chain", _, operands):
                return self.width(operands[0])

    @property
    def sums(self) -> int:
        """The most sums in series between registers."""
        read = [node for _, node in self.outputs] + [number_of(node.tree[1]) for node in self.nodes if node.kind == "delay"]
        return max((self.nodes[node].sums for node in read), default=0)

    def places(self) -> int:
        """The places of all sums, about the cells that they take on a carry chain of one bit each."""
        return sum(node.width for node in self.nodes if node.kind == "add")


def name_of(node: int) -> str:
    return f"s{node}"


def number_of(name: str) -> int:
    return int(name[1:])


def names_in(tree: tuple) -> Iterator[str]:
    match tree:
        case ("name", name) | ("part", name, _, _):
            yield name
        case ("not", operand):
            yield from names_in(operand)
        case ("chain", _, operands):
            for operand in operands:
                yield from names_in(operand)


def is_wire(tree: tuple) -> bool:
    if tree[0] == "chain":
        return tree[1] == "&" and all(map(is_wire, tree[2]))
    return tree[0] in ("name", "part", "bits")


def is_bitwise(tree: tuple) -> bool:
    if tree[0] == "not":
        return is_bitwise(tree[1])
    return tree[0] != "chain" or tree[1] not in "+-" and all(map(is_bitwise, tree[2]))


def levels(tree: tuple) -> int:
    """The most chains of operators, one in the other, `not` and `&` aside."""
    if tree[0] == "not":
        return levels(tree[1])
    if tree[0] == "chain":
        return (tree[1] != "&") + max(map(levels, tree[2]))
    return 0


def reads(tree: tuple, width_of: object) -> list[set[tuple[str, int]]]:
    """The bits of nodes that each place reads, from the lowest on."""
    match tree:
        case ("name", name):
            return [{(name, at)} for at in range(width_of(tree))]
        case ("part", name, high, low):
            return [{(name, at)} for at in range(low, high + 1)]
        case ("bits", bits):
            return [set() for _ in bits]
        case ("not", operand):
            return reads(operand, width_of)
        case ("chain", "&", operands):
            return [bits for operand in reversed(operands) for bits in reads(operand, width_of)]
        case ("chain", _, operands):
            found = [reads(operand, width_of) for operand in operands]
            return [set().union(*place) for place in zip(*found, strict=True)]


Source = tuple[int, int] | int


def sources(net: Net, tree: tuple) -> list[Source]:
    """Where each place of wires comes from, the lowest first: a bit of a node that is no wire, or a constant."""
    match tree:
        case ("name", name):
            return [bit_of(net, number_of(name), at) for at in range(net.width(tree))]
        case ("part", name, high, low):
            return [bit_of(net, number_of(name), at) for at in range(low, high + 1)]
        case ("bits", bits):
            return [int(bit) for bit in reversed(bits)]
        case ("chain", _, operands):
            return [each for operand in reversed(operands) for each in sources(net, operand)]
    raise ValueError(tree)


def bit_of(net: Net, node: int, at: int) -> Source:
    """A bit of a node, through wires."""
    if net.nodes[node].kind != "wire":
        return node, at
    if node not in net.wires:
        net.wires[node] = sources(net, net.nodes[node].tree)
    return net.wires[node][at]


class Machine:
    """Runs a net over rows of inputs, as Python compiled for it; words are numbers without sign."""

    def __init__(self, net: Net) -> None:
        self.net = net
        self.ports = [node.port for node in net.nodes if node.kind == "input"]
        lines = ["def step(entered, held):"]
        for at, node in enumerate(net.nodes):
            lines.append(f"    {name_of(at)} = {self.value(at, node)}")
        delays = [(at, node) for at, node in enumerate(net.nodes) if node.kind == "delay"]
        lines.append("    return (%s), {%s}" % (
            "".join(f"{name_of(node)}, " for _, node in net.outputs),
            ", ".join(f"{at}: {node.tree[1]}" for at, node in delays)))
        scope: dict[str, object] = {}
        exec("\n".join(lines), scope)
        self.step = scope["step"]
        self.held = {at: 0 for at, _ in delays}

    def value(self, at: int, node: Node) -> str:
        if node.kind == "input":
            return f"entered[{self.ports.index(node.port)}]"
        if node.kind == "delay":
            return f"held[{at}]"
        if node.kind == "table":
            return f"{node.rows}[{self.written(node.tree)}]"
        return self.written(node.tree)

    def written(self, tree: tuple) -> str:
        """An expression over numbers."""
        mask = (1 << self.net.width(tree)) - 1
        match tree:
            case ("name", name):
                return name
            case ("part", name, _, low):
                return f"({name} >> {low} & {mask})"
            case ("bits", bits):
                return str(int(bits, 2))
            case ("not", operand):
                return f"({mask} ^ {self.written(operand)})"
            case ("chain", "&", operands):
                parts, low = [], self.net.width(tree)
                for operand in operands:
                    low -= self.net.width(operand)
                    parts.append(f"{self.written(operand)} << {low}")
                return f"({' | '.join(parts)})"
            case ("chain", operator, operands):
                sign = {"and": "&", "or": "|", "xor": "^"}.get(operator, operator)
                inner = f" {sign} ".join(map(self.written, operands))
                return f"({inner} & {mask})" if operator in "+-" else f"({inner})"

    def run(self, entered: list[int]) -> tuple[int, ...]:
        """The outputs of a cycle."""
        left, self.held = self.step(entered, self.held)
        return left
