"""The net of a circuit, from the VHDL and the report that the program wrote: nodes without their copies, in cycles."""
import tempfile
from dataclasses import dataclass, field
from pathlib import Path
from typing import Any

from opgen import Program

from .circuits import generated
from .drawings.adders import read_place
from .drawings.example import Example
from .drawings.parts import RANGE_TEST, parts_of
from .drawings.schedule import cell_of, checked_schedule
from .target import delays
from .vhdl import names_in


@dataclass
class Net:
    """Nodes in order, each after what it reads: the width of each, its delay in picoseconds, the nodes that it reads but constants,
    whether it is an input or the delay of a filter, and whether an output reads it; the time of a cycle less the setup time."""

    widths: list[int] = field(default_factory=list)
    delays: list[int] = field(default_factory=list)
    reads: list[list[int]] = field(default_factory=list)
    inputs: set[int] = field(default_factory=set)
    holds: set[int] = field(default_factory=set)
    outputs: set[int] = field(default_factory=set)
    room: int = 0

    @property
    def count(self) -> int:
        return len(self.widths)

    def users(self) -> list[list[int]]:
        """The nodes that read each node."""
        found: list[list[int]] = [[] for _ in self.widths]
        for node, reads in enumerate(self.reads):
            for read in reads:
                found[read].append(node)
        return found


def net_of(example: Example) -> Net:
    """The net of an example whose report its files fit."""
    design, delay = example.design, delays(example.spec)
    parts = parts_of(example)
    slots = checked_schedule(example, parts, delay)
    tests = {node for node, part in parts.items() if part.what == RANGE_TEST}
    widths = {signal.name: signal.width for signal in design.signals}
    net = Net(room=example.report.period - delay("register", 1))
    places: dict[str, int] = {}
    for driver in sorted(design.drivers, key=lambda driver: order_of(driver.to)):
        node, copy = read_place(driver.to)
        if driver.kind == "output" or copy or node not in slots or node in places:
            continue
        places[node] = net.count
        net.widths.append(widths[node])
        cell = ("logic", 1) if node in tests else cell_of(driver, widths) if driver.kind != "register" else None
        net.delays.append(delay(*cell) if cell else 0)
        read = dict.fromkeys(read_place(name)[0] for expr in driver.exprs for name in names_in(expr))
        net.reads.append([places[name] for name in read if name in places])
        if driver.kind == "register":
            net.holds.add(places[node])
        elif driver.exprs[0][0] == "port":
            net.inputs.add(places[node])
    for driver in design.drivers:
        if driver.kind == "output":
            net.outputs |= {places[node] for expr in driver.exprs for node, _ in map(read_place, names_in(expr)) if node in places}
    return net


def order_of(name: str) -> tuple[int, str]:
    """Where a node stands in the net: by the number in its name."""
    node = read_place(name)[0]
    return (int(node[1:]), "") if node[1:].isdigit() else (1 << 30, name)


def net_for(table: dict[str, Any], program: Program) -> Net:
    """The net of the circuit of a specification. One that the program rejects raises `opgen.Rejected`."""
    with tempfile.TemporaryDirectory(prefix="opgen-net-") as name:
        return net_of(Example(generated(table, program, Path(name))))
