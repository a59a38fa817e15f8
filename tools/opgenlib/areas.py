"""What bench/area has measured, as a file of rows in CSV, and its table."""
import csv
import math
from collections.abc import Iterable, Iterator
from dataclasses import asdict, dataclass, fields
from pathlib import Path

from . import vhdl
from .yosys import Size

BY_HAND = "by hand"
UNKNOWN = -1
WORDS = {
    "tables": "tables of six inputs, no chains: tables",
    "series7": "series 7: tables",
    "ice40": "iCE40: logic cells",
    "ecp5": "ECP5: places of tables",
    "hx8k": "HX8K: logic cells",
}


class NotRows(Exception):
    """A file that has no such rows."""


@dataclass(frozen=True)
class Row:
    """A text on a device: the circuit, who made the text, how many sums are in series or -1 if that is unknown, and what it takes;
    `mhz` is 0 where it was not placed."""

    case: str
    device: str
    made: str
    sums: int
    tables: int
    carries: int
    flops: int
    places: int
    levels: int = 0
    mhz: int = 0

    @property
    def key(self) -> tuple[str, str, str]:
        return self.case, self.device, self.made

    @property
    def is_by_hand(self) -> bool:
        return self.made.startswith(BY_HAND)


def row_of(case: str, device: str, made: str, sums: int, size: Size) -> Row:
    return Row(case, device, made, sums, size.tables, size.carries, size.flops, size.places, size.levels)


def read_rows(path: Path) -> list[Row]:
    """The rows of a file, none where there is no file."""
    if not path.exists():
        return []
    names = [field.name for field in fields(Row)]
    with path.open(newline="") as file:
        table = csv.DictReader(file)
        if table.fieldnames != names:
            raise NotRows(f"{path} has not the columns {', '.join(names)}")
        return [Row(**{name: word if name in ("case", "device", "made") else int(word) for name, word in line.items()}) for line in table]


def add_rows(path: Path, rows: Iterable[Row]) -> None:
    """Adds rows to a file."""
    is_new = not path.exists()
    with path.open("a", newline="") as file:
        table = csv.DictWriter(file, [field.name for field in fields(Row)], lineterminator="\n")
        if is_new:
            table.writeheader()
        table.writerows(map(asdict, rows))


def sums_in_series(design: vhdl.Design) -> int:
    """The most `+` and `-` between registers on a way through a design, each of a chain counted."""
    found: dict[str, int] = {}
    for driver in design.drivers:
        if driver.kind == "register":
            found[driver.to] = 0
    for driver in design.drivers:
        before = max((found.get(name, 0) for expr in driver.exprs for name in vhdl.names_in(expr)), default=0)
        if driver.kind != "register":
            found[driver.to] = before + sum(map(sums_in, driver.exprs))
        else:
            found[f"{driver.to} <="] = before + sum(map(sums_in, driver.exprs))
    return max(found.values(), default=0)


def sums_in(expr: tuple) -> int:
    """The `+` and `-` of an expression, one in the other."""
    match expr:
        case ("not", operand):
            return sums_in(operand)
        case ("chain", operator, operands):
            return max(map(sums_in, operands)) + (len(operands) - 1 if operator in "+-" else 0)
    return 0


@dataclass(frozen=True)
class Line:
    """A case on a device: the circuit with the fewest places, the text by hand with the fewest, and the one of those with no more
    sums in series, if there is one."""

    own: Row
    hand: Row
    level: Row | None


def lines_of(rows: list[Row], device: str) -> Iterator[Line]:
    """The lines of a device, in the order of the rows."""
    for case in dict.fromkeys(row.case for row in rows):
        own = [row for row in rows if (row.case, row.device) == (case, device) and not row.is_by_hand]
        hands = [row for row in rows if (row.case, row.device) == (case, device) and row.is_by_hand]
        if not own or not hands:
            continue
        best = min(own, key=lambda row: row.places)
        level = [row for row in hands if row.sums != UNKNOWN and row.sums <= best.sums]
        yield Line(best, min(hands, key=lambda row: row.places), min(level, key=lambda row: row.places, default=None))


def geometric_mean(numbers: Iterable[float]) -> float:
    logarithms = [math.log(number) for number in numbers]
    return math.exp(sum(logarithms) / len(logarithms))


def cell_of(row: Row | None, own: Row) -> str:
    """A text by hand in the table: its places, beside those of the circuit, and what it is."""
    if row is None:
        return " | | |"
    sums = "" if row.sums == UNKNOWN else str(row.sums)
    return f" {row.places} | {row.places / own.places:.2f} | {sums} | {row.made.removeprefix(BY_HAND + ', ')} |"


def table(rows: list[Row]) -> Iterator[str]:
    """The lines of a table in Markdown for each device."""
    for device, words in WORDS.items():
        lines = list(lines_of(rows, device))
        if not lines:
            continue
        yield f"\n**{words[0].upper()}{words[1:]}**\n"
        yield "| circuit | opgen | sums | as | by hand | of opgen's | sums | as | no more sums in series |"
        yield "|---|---|---|---|---|---|---|---|---|"
        for line in lines:
            level = "" if line.level is None else f"{line.level.places}"
            yield f"| {line.own.case} | {line.own.places} | {line.own.sums} | {line.own.made} |{cell_of(line.hand, line.own)} {level} |"
        mean = geometric_mean(line.hand.places / line.own.places for line in lines)
        yield f"\nBy hand, of opgen's places, geometric mean of {len(lines)} circuits: {mean:.2f}"
        levels = [line.level.places / line.own.places for line in lines if line.level]
        if levels:
            yield f"With no more sums in series, of {len(levels)} circuits: {geometric_mean(levels):.2f}"
