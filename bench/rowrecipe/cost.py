"""What a net takes on a device, counted and not mapped: for orders and forms that are compared in thousands.

Places of sums are counted exactly. Of a bit that reads five or six others a table of four inputs is too small; what it takes then is a
mean of what Yosys takes for rows of digits, and of tables.
"""
from __future__ import annotations

from collections import defaultdict
from collections.abc import Iterator

from .net import Net, Source, bit_of, number_of, reads, sources

FOURS = {0: 0.0, 1: 0.0, 2: 1.0, 3: 1.0, 4: 1.0, 5: 1.6, 6: 3.0}


Reads = dict[int, list[list[Source]]]


def reads_of(net: Net) -> Reads:
    """What each place of each node reads, wires aside. A place of a sum reads the place below, whose carry it takes."""
    found: Reads = {}
    for at, node in enumerate(net.nodes):
        if node.kind == "add":
            operands = [sources(net, operand) for operand in node.tree[2]]
            found[at] = [[a, b] + [(at, place - 1)] * (place > 0) for place, (a, b) in enumerate(zip(*operands))]
        elif node.kind == "logic":
            found[at] = [[bit_of(net, number_of(name), bit) for name, bit in bits] for bits in reads(node.tree, net.width)]
        elif node.kind == "table":
            found[at] = [sources(net, node.tree)] * node.width
        elif node.kind == "delay":
            found[at] = [[each] for each in sources(net, node.tree)]
        else:
            found[at] = [[] for _ in range(node.width)]
    return found


def live_bits(net: Net, read: Reads) -> set[tuple[int, int]]:
    """The bits of nodes that outputs read, also through others."""
    found: set[tuple[int, int]] = set()
    left = [each for _, node in net.outputs for each in sources(net, ("name", f"s{node}"))]
    while left:
        each = left.pop()
        if not isinstance(each, int) and each not in found:
            found.add(each)
            left += read[each[0]][each[1]]
    return found


def inputs_of(net: Net) -> dict[tuple[int, int], int]:
    """How many bits each bit of logic or of a table reads that is read itself."""
    read = reads_of(net)
    return {(at, place): len({each for each in read[at][place] if not isinstance(each, int)})
            for at, place in live_bits(net, read) if net.nodes[at].kind in ("logic", "table")}


def sums_of(net: Net) -> Iterator[tuple[str, list[Source], list[Source]]]:
    """The sums of a net up to the highest place that is read: sign and operands."""
    tops: dict[int, int] = defaultdict(int)
    for at, place in live_bits(net, reads_of(net)):
        if net.nodes[at].kind == "add":
            tops[at] = max(tops[at], place + 1)
    for at, top in tops.items():
        first, second = net.nodes[at].tree[2]
        yield net.nodes[at].tree[1], sources(net, first)[:top], sources(net, second)[:top]


def fours(net: Net, inputs: dict[tuple[int, int], int]) -> float:
    """Tables of four inputs for logic and tables."""
    return sum(FOURS[count] for count in inputs.values())


def on_ice40(net: Net) -> float:
    """A cell for each place of a sum, and one more for each bit that is taken off, as the carry reads it as it is; and one for each
    register that no cell drives."""
    inputs, total, inverted, alone = inputs_of(net), 0.0, set(), 0
    for sign, first, second in sums_of(net):
        total += sum(not (isinstance(a, int) and isinstance(b, int)) for a, b in zip(first, second))
        if sign == "-":
            inverted |= {each for each in second if not isinstance(each, int) and each not in inputs}
    for node in net.nodes:
        if node.kind == "delay":
            alone += sum(isinstance(each, int) or net.nodes[each[0]].kind in ("delay", "input") for each in sources(net, node.tree))
    return total + len(inverted) + fours(net, inputs) + alone


def on_ecp5(net: Net) -> float:
    """Two places for each two places of a sum."""
    return sum(len(first) + len(first) % 2 for _, first, _ in sums_of(net)) + fours(net, inputs_of(net))


def on_series7(net: Net) -> float:
    """A table for each place of a sum, which takes in a bit of at most five inputs that is the second operand, and for other bits."""
    inputs, total, taken, kept = inputs_of(net), 0, defaultdict(int), set()
    for _, first, second in sums_of(net):
        for a, b in zip(first, second):
            total += not isinstance(a, int) and not isinstance(b, int) and a != b
            for each, other, may in ((b, a, True), (a, b, False)):
                if each in inputs and may and not isinstance(other, int) and inputs[each] <= 5:
                    taken[each] += 1
                elif each in inputs:
                    kept.add(each)
    read = reads_of(net)
    for at, place in inputs:
        kept |= {bit for bit in read[at][place] if bit in inputs}
    outputs = {each for _, node in net.outputs for each in sources(net, ("name", f"s{node}"))}
    return total + sum(count > 1 and (bit not in taken or bit in kept or bit in outputs) for bit, count in inputs.items())


COSTS = {"ice40": on_ice40, "series7": on_series7, "ecp5": on_ecp5}
