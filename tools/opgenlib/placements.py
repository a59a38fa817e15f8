"""What bench/place has measured, as a file of rows in CSV, and its plot."""
import csv
from collections.abc import Iterable
from dataclasses import asdict, dataclass, fields
from pathlib import Path

from .placing import Placed
from .svg import Picture

COLORS = {20000: "steelblue", 10000: "#c08030", 6667: "#7f9f3f"}
EXAMPLE = "example"


class NotRows(Exception):
    """A file that has no such rows."""


@dataclass(frozen=True)
class Row:
    """A circuit that was placed: what it is of, who made it, the period that was asked, its latency, how many of the seeds met the
    period, what was reached, and what it takes. Of a circuit that was not placed `note` says why, and the numbers are 0."""

    case: str
    made: str
    asked: int
    latency: int
    met: int = 0
    seeds: int = 0
    median: int = 0
    least: int = 0
    greatest: int = 0
    cells: int = 0
    carries: int = 0
    note: str = ""

    @property
    def key(self) -> tuple[str, str, int]:
        return self.case, self.made, self.asked

    @property
    def caution(self) -> float:
        """How much of the period that was asked is left, in the median."""
        return (self.asked - self.median) / self.asked


def row_of(case: str, made: str, asked: int, latency: int, found: Placed) -> Row:
    reached = found.periods
    met = sum(period <= asked for period in reached)
    numbers = (found.median, min(reached), max(reached), found.cells, found.carries)
    return Row(case, made, asked, latency, met, len(reached) + found.unended, *numbers)


def read_rows(path: Path) -> list[Row]:
    """The rows of a file."""
    names = [field.name for field in fields(Row)]
    with path.open(newline="") as file:
        table = csv.DictReader(file)
        if table.fieldnames != names:
            raise NotRows(f"{path} has not the columns {', '.join(names)}")
        texts = {"case", "made", "note"}
        try:
            return [Row(**{name: row[name] if name in texts else int(row[name]) for name in names}) for row in table]
        except (TypeError, ValueError):
            raise NotRows(f"{path}: line {table.line_num} is no row") from None


def add_row(path: Path, row: Row) -> None:
    """Adds a row to a file, which is made if it is not there."""
    is_new = not path.exists()
    with path.open("a", newline="") as file:
        table = csv.DictWriter(file, [field.name for field in fields(Row)], lineterminator="\n")
        if is_new:
            table.writeheader()
        table.writerow(asdict(row))


def drawn(rows: Iterable[Row], what: str) -> Picture:
    """The period that was asked, a line each, and what each example reached: the median, from the least to the greatest."""
    found = [row for row in rows if row.made == EXAMPLE and row.median]
    names = sorted({row.case for row in found})
    left, width, high = 90, 640, 22
    most = max((max(row.asked, row.greatest) for row in found), default=1)
    picture = Picture(left + width + 50, high * len(names) + 86)
    bottom = 40 + high * len(names)

    def x(period: int) -> float:
        return left + width * period / most

    for asked in sorted({row.asked for row in found}, reverse=True):
        picture.line(x(asked), 28, x(asked), bottom, COLORS.get(asked, "black"), ' stroke-width="2"')
        picture.text(x(asked), 20, f"asked {asked / 1000:g} ns", "middle")
    for row in found:
        y = 44 + high * names.index(row.case) + 4 * sorted(COLORS).index(row.asked) if row.asked in COLORS else 44
        color = COLORS.get(row.asked, "black")
        picture.line(x(row.least), y, x(row.greatest), y, color)
        picture.circle(x(row.median), y, 3, color, color)
    for at, name in enumerate(names):
        picture.text(left - 8, 52 + high * at, name, "end")
    picture.line(left, bottom, left + width, bottom, "black")
    picture.text(left, bottom + 18, "0")
    picture.text(left, bottom + 36, what)
    return picture
