"""Delay lines from the periods that small circuits reach.

A circuit has some cells one behind the other. Its period is at least the delay of a register and those of its cells, and the delay of
a cell is a number and, for each bit of its width, another. These numbers are taken so that each period asked of them is enough, and
that all of them together are as small as possible beside the periods: a linear program, which the simplex method solves."""
from collections.abc import Sequence
from dataclasses import dataclass
from math import ceil

# Of each class whether it has a delay for each bit.
CLASSES = {"wire": False, "logic": False, "add": True, "choice": True, "table": True, "register": False}
UNKNOWNS = [(kind, place) for kind in ("register", "logic", "add", "choice", "table") for place in range(1 + CLASSES[kind])]
STEP = 10


@dataclass(frozen=True)
class Chain:
    """A circuit's cells on its longest path, class and width of each, and the period that they need."""

    cells: tuple[tuple[str, int], ...]
    period: float

    def uses(self) -> list[int]:
        """How often the period has each unknown."""
        found = {("register", 0): 1}
        for kind, width in self.cells:
            found[kind, 0] = found.get((kind, 0), 0) + 1
            if CLASSES[kind]:
                found[kind, 1] = found.get((kind, 1), 0) + width
        return [found.get(unknown, 0) for unknown in UNKNOWNS]


Lines = dict[str, tuple[int, int]]


def pivot(rows: list[list[float]], at: int, column: int) -> None:
    """Makes a column the unit of one row."""
    rows[at] = [value / rows[at][column] for value in rows[at]]
    for place, row in enumerate(rows):
        if place != at and row[column]:
            rows[place] = [value - row[column] * unit for value, unit in zip(row, rows[at])]


def leaving(rows: list[list[float]], column: int) -> int:
    """The row that bounds a column first."""
    bounds = [(row[-1] / row[column], at) for at, row in enumerate(rows[:-1]) if row[column] > 1e-9]
    if not bounds:
        raise ValueError("no numbers are enough")
    return min(bounds)[1]


def least(uses: Sequence[Sequence[float]], needs: Sequence[float], prices: Sequence[float]) -> list[float]:
    """Numbers of at least 0 of which each use is at least its need, at the least price: the dual's simplex, by Bland's rule."""
    count = len(uses)
    rows = []
    for at, price in enumerate(prices):
        unit = [float(at == other) for other in range(len(prices))]
        rows.append([*(float(use[at]) for use in uses), *unit, float(price)])
    rows.append([*(-float(need) for need in needs), *(0.0 for _ in prices), 0.0])
    while (column := next((at for at, value in enumerate(rows[-1][:-1]) if value < -1e-9), None)) is not None:
        pivot(rows, leaving(rows, column), column)
    return rows[-1][count:-1]


def fitted(chains: Sequence[Chain]) -> Lines:
    """The lines, rounded up to ten picoseconds, those for each bit to one, under which every chain has its period."""
    uses = [chain.uses() for chain in chains]
    prices = [sum(use[at] / chain.period for use, chain in zip(uses, chains)) for at in range(len(UNKNOWNS))]
    found = least(uses, [chain.period for chain in chains], prices)
    lines = {kind: [0, 0] for kind in CLASSES}
    for (kind, place), value in zip(UNKNOWNS, found):
        lines[kind][place] = ceil(value - 1e-6) if place else STEP * ceil((value - 1e-6) / STEP)
    return {kind: (base, per_bit) for kind, (base, per_bit) in lines.items()}


def asked(cells: Sequence[tuple[str, int]], lines: Lines) -> int:
    """The period that lines ask for these cells."""
    return lines["register"][0] + sum(lines[kind][0] + lines[kind][1] * width for kind, width in cells)


def text_of(lines: Lines) -> str:
    """The lines in TOML."""
    return "\n".join(f'[[delay]]\nclass = "{kind}"\nbase = {base}\nper_bit = {per_bit}\n' for kind, (base, per_bit) in lines.items())
