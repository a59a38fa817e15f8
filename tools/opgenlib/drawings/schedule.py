"""The schedule of a circuit: its cells in their cycles, and the registers between."""
import re
from collections.abc import Callable
from dataclasses import dataclass

from opgenlib import vhdl
from opgenlib.drawings.adders import read_place
from opgenlib.drawings.example import Example, NotDrawn
from opgenlib.drawings.parts import RANGE_TEST, Part, parts_of, words_of
from opgenlib.report import Report
from opgenlib.svg import LETTER, Picture
from opgenlib.target import delays

COLORS = {"logic": "#7f9f3f", "add": "steelblue", "choice": "#c08030", "table": "#8060a0", "wire": "#909090"}
# The most bars that stand for a cell each, the most bars and the most cycles of a panel.
MOST_CELLS, MOST_ROWS, MOST_CYCLES = 60, 44, 8
WIDE, LEAST_WIDE, ROW, TOP, BELOW = 790, 400, 18, 52, 34


# The words of a digit's cell.
DIGIT = re.compile(r"digit (\d+): (.*)")


@dataclass(frozen=True)
class Slot:
    """Where a node is: its cycle, when it starts and ends, and its cell; none of an input or a delay."""

    cycle: int
    start: int
    end: int
    cell: tuple[str, int] | None


@dataclass(frozen=True)
class Bar:
    """A row of the drawing: one node, or several of the same cell at the same time; of digits that do the same, those of each."""

    words: str
    slot: Slot
    others: tuple[Slot, ...] = ()

    @property
    def slots(self) -> tuple[Slot, ...]:
        return (self.slot, *self.others)


def cell_of(driver: vhdl.Driver, widths: dict[str, int]) -> tuple[str, int] | None:
    """The class of a driver's cell, and its width; None of an input or a constant."""
    match driver.kind, driver.exprs[0]:
        case "table", address:
            return "table", widths[address[1]]
        case "choice", _:
            return "choice", widths[driver.to]
        case _, ("port" | "bits", *_):
            return None
        case _, ("chain", "+" | "-", _):
            return "add", widths[driver.to]
        case _, ("chain", "&", _) | ("part" | "name", *_):
            return "wire", widths[driver.to]
    return "logic", widths[driver.to]


def slot_of(driver: vhdl.Driver, reads: list[tuple[Slot, int]], cell: tuple[str, int] | None, delay: Callable) -> Slot | None:
    """The slot of a node, by those that it reads and how many cycles later it reads them."""
    if driver.kind == "register":
        return Slot(reads[0][0].cycle, 0, 0, None)
    if cell:
        cycle = max((slot.cycle + later for slot, later in reads), default=0)
        start = max((slot.end for slot, later in reads if slot.cycle == cycle and not later), default=0)
        return Slot(cycle, start, start + delay(*cell), cell)
    return Slot(0, 0, 0, None) if driver.exprs[0][0] == "port" else None


def schedule_of(design: vhdl.Design, delay: Callable, tests: set[str]) -> dict[str, Slot]:
    """The slot of each node that is no constant. Of the tests of a range one may be a single bit, which is a gate all the same."""
    widths = {signal.name: signal.width for signal in design.signals}
    slots: dict[str, Slot] = {}
    for driver in design.drivers:
        node, copy = read_place(driver.to)
        if driver.kind == "output" or copy or node in slots:
            continue
        reads = [read_place(name) for expr in driver.exprs for name in vhdl.names_in(expr)]
        cell = ("logic", 1) if node in tests else cell_of(driver, widths)
        if slot := slot_of(driver, [(slots[read], later) for read, later in reads if read in slots], cell, delay):
            slots[node] = slot
    return slots


def registers_by_cycle(design: vhdl.Design, slots: dict[str, Slot]) -> dict[int, int]:
    """How many bits of registers stand before each cycle."""
    bits: dict[int, int] = {}
    for signal in design.signals:
        node, copy = read_place(signal.name)
        if copy and node in slots:
            bits[slots[node].cycle + copy] = bits.get(slots[node].cycle + copy, 0) + signal.width
    return bits


def words_for(nodes: list[str], parts: dict[str, Part], cell: tuple[str, int]) -> str:
    """What a bar is: by what its nodes do, or else by their names."""
    if all(node in parts for node in nodes):
        return words_of([parts[node] for node in nodes])
    return nodes[0] if len(nodes) == 1 else f"{len(nodes)} of {cell[1]} bit"


def bars_of(slots: dict[str, Slot], parts: dict[str, Part]) -> list[Bar]:
    """A bar for each node that takes time; where these are many, for each group of the same cell at the same time."""
    timed = {node: slot for node, slot in slots.items() if slot.cell and slot.end > slot.start}
    groups: dict[tuple, list[str]] = {}
    for node, slot in timed.items():
        groups.setdefault((slot, node if len(timed) <= MOST_CELLS else ""), []).append(node)
    bars = [Bar(words_for(nodes, parts, slot.cell), slot) for (slot, _), nodes in groups.items()]
    return sorted(bars, key=lambda bar: (bar.slot.cycle, bar.slot.start, bar.slot.end))


def ranges_text(numbers: list[int]) -> str:
    """Numbers as ranges from the greatest down: `29..20, 17`."""
    found: list[list[int]] = []
    for number in sorted(numbers, reverse=True):
        if found and found[-1][1] == number + 1:
            found[-1][1] = number
        else:
            found.append([number, number])
    return ", ".join(f"{first}..{last}" if first != last else str(first) for first, last in found)


def merged(bars: list[Bar]) -> list[Bar]:
    """The bars in their order, but digits that do the same in one row: `digit 29..0: subtract`."""
    rows: dict[str, list[Bar]] = {}
    for bar in bars:
        digit = DIGIT.fullmatch(bar.words)
        rows.setdefault(digit[2] if digit else bar.words, []).append(bar)
    found = []
    for what, row in rows.items():
        digits = [int(digit[1]) for bar in row if (digit := DIGIT.fullmatch(bar.words))]
        words = f"digit {ranges_text(digits)}: {what}" if digits else what
        if len(digits) == len(row):
            found.append(Bar(words, row[0].slot, tuple(bar.slot for bar in row[1:])))
        else:
            found += row
    return found


def panels_of(bars: list[Bar], latency: int) -> list[tuple[range, list[Bar]]]:
    """The cycles and the bars of each panel: one for a few cycles, else several of some cycles and some bars each."""
    panels: list[tuple[range, list[Bar]]] = []
    count = -(-(latency + 1) // MOST_CYCLES)
    ends = [(latency + 1) * at // count for at in range(count + 1)]
    for first, end in zip(ends, ends[1:]):
        inside = merged([bar for bar in bars if bar.slot.cycle in range(first, end)])
        parts = -(-len(inside) // MOST_ROWS)
        for at in range(parts):
            part = inside[len(inside) * at // parts : len(inside) * (at + 1) // parts]
            inner = [slot.cycle for bar in part for slot in bar.slots]
            seen = range(first, end) if parts == 1 else range(min(inner), max(inner) + 1)
            panels.append((seen, part))
    return panels or [(range(latency + 1), [])]


def checked_schedule(example: Example, parts: dict[str, Part], delay: Callable) -> dict[str, Slot]:
    """The slots, which have to give the report's slack and registers."""
    facts, design = example.report, example.design
    slots = schedule_of(design, delay, {node for node, part in parts.items() if part.what == RANGE_TEST})
    slack = facts.period - delay("register", 1) - max((slot.end for slot in slots.values()), default=0)
    delayed = sum(signal.width for signal in design.signals if signal.initial and not read_place(signal.name)[1])
    registers = delayed + sum(registers_by_cycle(design, slots).values())
    if (slack, registers, example.spec["period"]) != (facts.slack, facts.cells["register"], facts.period):
        raise NotDrawn(f"{example.path}, its VHDL and its report do not fit together: run `opgen generate` again")
    return slots


@dataclass(frozen=True)
class Axis:
    """A panel of the schedule: where it begins, at which cycle, and how time becomes a place."""

    left: float
    top: float
    bottom: float
    per_cycle: float
    period: int
    cycles: range

    def x(self, cycle: int, time: int = 0) -> float:
        return self.left + (cycle - self.cycles.start + time / self.period) * self.per_cycle


def draw_cycles(picture: Picture, axis: Axis, setup: int, registers: dict[int, int]) -> None:
    """The cycles of a panel, with their numbers and the registers between."""
    if any(map(registers.get, axis.cycles)):
        picture.text(axis.left - 16, axis.bottom + 20, "bits of registers", "end")
    for cycle in axis.cycles:
        x = axis.x(cycle)
        picture.rect(axis.x(cycle, axis.period - setup), axis.top, axis.x(cycle, setup) - x, axis.bottom - axis.top, "#e4e4e4")
        picture.line(x, axis.top - 8, x, axis.bottom + 8, "black")
        picture.text(x + 4, axis.top - 10, f"cycle {cycle}")
        if registers.get(cycle):
            picture.text(x, axis.bottom + 20, str(registers[cycle]), "middle")


def draw_guides(picture: Picture, axis: Axis, bars: list[Bar]) -> None:
    """A light line from each bar's words to the bar."""
    for row, bar in enumerate(bars):
        y = axis.top + (row + 0.5) * ROW + 1
        picture.line(axis.left, y, axis.x(bar.slot.cycle, bar.slot.start), y, "#eeeeee")


def draw_bars(picture: Picture, axis: Axis, bars: list[Bar]) -> None:
    for row, bar in enumerate(bars):
        y = axis.top + row * ROW
        for slot in bar.slots:
            x = axis.x(slot.cycle, slot.start)
            picture.rect(x, y + 3, max(axis.x(slot.cycle, slot.end) - x, 1), ROW - 5, COLORS[slot.cell[0]])
        picture.text(axis.left - 8, y + ROW - 5, bar.words, "end")


class Schedule:
    """The panels of a schedule, each of which is drawn alone or below others."""

    def __init__(self, example: Example) -> None:
        self.example, self.facts, delay = example, example.report, delays(example.spec)
        parts = parts_of(example)
        slots = checked_schedule(example, parts, delay)
        self.setup = delay("register", 1)
        self.bars = bars_of(slots, parts)
        self.registers = registers_by_cycle(example.design, slots)
        self.panels = panels_of(self.bars, self.facts.latency)
        self.margin = 24 + LETTER * max([16, *(len(bar.words) for bar in self.bars)])

    def picture(self, panels: list[tuple[range, list[Bar]]]) -> Picture:
        heights = [TOP + len(rows) * ROW + BELOW for _, rows in panels]
        wide = max(WIDE - self.margin, LEAST_WIDE)
        picture = Picture(self.margin + wide + 20, sum(heights) + 56)
        per_cycle, top = wide / max(len(cycles) for cycles, _ in panels), 8.0
        for (cycles, rows), height in zip(panels, heights):
            axis = Axis(self.margin, top + TOP - 16, top + height - BELOW - 16, per_cycle, self.facts.period, cycles)
            draw_guides(picture, axis, rows)
            draw_cycles(picture, axis, self.setup, self.registers)
            draw_bars(picture, axis, rows)
            top += height
        self.draw_legend(picture, top)
        return picture

    def draw_legend(self, picture: Picture, top: float) -> None:
        x = self.margin
        for kind in sorted({bar.slot.cell[0] for bar in self.bars}):
            picture.rect(x, top, 11, 11, COLORS[kind])
            picture.text(x + 16, top + 10, kind)
            x += 32 + LETTER * len(kind)
        picture.rect(x, top, 11, 11, "#e4e4e4")
        picture.text(x + 16, top + 10, f"setup time, {self.setup} ps")
        latency = f"latency {self.facts.latency}, slack {self.facts.slack} ps"
        picture.text(8, top + 36, f"{self.example.caption}: a cycle has {self.facts.period} ps; {latency}")


def schedule(example: Example) -> Picture:
    found = Schedule(example)
    return found.picture(found.panels)
