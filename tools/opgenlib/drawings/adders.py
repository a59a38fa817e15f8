"""How the adders of a circuit make multiples of its input, found from what they read."""
from dataclasses import dataclass, replace

from opgenlib import vhdl


@dataclass(frozen=True)
class Sum:
    """How two numbers make a third: each has a sign and a shift, and the sum is shifted right."""

    u: int
    u_shift: int
    u_minus: bool
    v: int
    v_minus: bool
    right: int = 0


@dataclass(frozen=True)
class Operand:
    """A word that an adder reads: the node of its bits, none of a constant, how many zeros stand below them, and how many of the
    node's lowest bits are left out."""

    node: str | None
    zeros: int = 0
    dropped: int = 0


def read_place(name: str) -> tuple[str, int]:
    """The node that a signal's name tells of, and how many cycles later the copy is."""
    node, _, copy = name.partition("_")
    return node, int(copy or 0)


def bits_of(expr: tuple) -> Operand | None:
    """The bits that a concatenation, or a piece of one, puts together; none of another expression. The highest bits may be a sign."""
    match expr:
        case ("chain", "&", pieces):
            zeros = 0
            for piece in reversed(pieces):
                found = bits_of(piece)
                if found is None or found.node:
                    return found and replace(found, zeros=zeros)
                zeros += found.zeros
            return Operand(None, zeros)
        case ("name", name):
            return Operand(read_place(name)[0])
        case ("part", name, _, low):
            return Operand(read_place(name)[0], 0, low)
        case ("bits", text):
            return Operand(None, len(text))
    return None


def is_sum(driver: vhdl.Driver) -> bool:
    return driver.kind == "assign" and driver.exprs[0][:2] in (("chain", "+"), ("chain", "-"))


class Multiples:
    """The multiple of the input that each node is, where it is one, and how the sums among them are made."""

    def __init__(self, design: vhdl.Design) -> None:
        self.drivers = {driver.to: driver for driver in design.drivers if driver.kind != "output"}
        self.factors: dict[str, int] = {}
        self.made: dict[int, Sum] = {}
        # The sums that are shifted right are multiples too, but none that the report lists.
        self.sums: dict[str, Sum] = {}
        for driver in design.drivers:
            if driver.kind == "assign" and not read_place(driver.to)[1]:
                self.take(driver)

    def take(self, driver: vhdl.Driver) -> None:
        expr = driver.exprs[0]
        if expr[0] == "port":
            self.factors[driver.to] = 1
        elif is_sum(driver):
            self.take_sum(driver.to, expr)
        elif (found := bits_of(expr)) and found.dropped and found.node in self.sums:
            self.factors[driver.to] = self.factors[found.node] >> found.dropped
            self.made[self.factors[driver.to]] = replace(self.sums[found.node], right=found.dropped)

    def operand(self, name: str) -> Operand:
        """What a word is that an adder reads: a node that is known, or one that puts the bits of another together."""
        node = read_place(name)[0]
        driver = self.drivers[node]
        if node in self.factors or driver.kind != "assign":
            return Operand(node)
        return bits_of(driver.exprs[0]) or Operand(node)

    def take_sum(self, to: str, expr: tuple) -> None:
        one, other = (self.operand(name[1]) for name in expr[2])
        is_minus = expr[1] == "-"
        if other.node not in self.factors or one.node and one.node not in self.factors:
            return
        last = self.factors[other.node] << other.zeros
        if one.node is None:
            # Zeros less a multiple; half a unit is added to one.
            self.factors |= {to: -last} if is_minus else {}
            return
        self.factors[to] = (self.factors[one.node] << one.zeros) + (-last if is_minus else last)
        self.sums[to] = self.sum_of((one, False), (other, is_minus))
        self.made.setdefault(self.factors[to], self.sums[to])

    def sum_of(self, *operands: tuple[Operand, bool]) -> Sum:
        """The sum, its shifted operand first, or else that of the lesser number."""
        (u, u_minus), (v, v_minus) = sorted(operands, key=lambda part: (-part[0].zeros, self.factors[part[0].node]))
        return Sum(self.factors[u.node], u.zeros, u_minus, self.factors[v.node], v_minus)

    def reads_other(self, driver: vhdl.Driver) -> bool:
        """Whether a sum reads a constant or a node that is no multiple, as a delay."""
        return any(self.operand(name).node not in self.factors for name in vhdl.names_in(driver.exprs[0]))


def sums_of(design: vhdl.Design, members: list[int]) -> dict[int, Sum]:
    """How each number of a graph is made, those made of others behind them, of equal depth the lesser first."""
    made = {number: step for number, step in Multiples(design).made.items() if number in set(members)}
    depths = {1: 0}
    for number, step in made.items():
        if step.u in depths and step.v in depths:
            depths[number] = 1 + max(depths[step.u], depths[step.v])
    return {number: made[number] for number in sorted(made, key=lambda number: (depths.get(number, 0), number)) if number in depths}
