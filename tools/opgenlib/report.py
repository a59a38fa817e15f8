"""Reads a report, NAME.rpt, into values."""
from __future__ import annotations

from dataclasses import dataclass
from fractions import Fraction
from pathlib import Path

# More than any port has.
MOST_WIDTH = 1024
CELLS = ("wire", "logic", "add", "choice", "table", "register")


class NotReport(Exception):
    """A text that is no report, with the number of its line, from 1."""

    def __init__(self, line: int, words: str) -> None:
        super().__init__(f"line {line}: {words}")
        self.line = line


@dataclass(frozen=True)
class Port:
    """An input or output: a whole number times 2^lsb."""

    name: str
    is_input: bool
    is_signed: bool
    width: int
    lsb: int

    @property
    def least(self) -> int:
        """The least number, in units of the last place."""
        return -(1 << (self.width - 1)) if self.is_signed else 0

    @property
    def greatest(self) -> int:
        """The greatest number, in units of the last place."""
        return (1 << (self.width - self.is_signed)) - 1

    @property
    def unit(self) -> Fraction:
        """What one unit in the last place weighs."""
        return Fraction(2) ** self.lsb

    @property
    def sign(self) -> str:
        return "signed" if self.is_signed else "unsigned"


@dataclass(frozen=True)
class Report:
    """What `opgen generate` says of a circuit. `graph` is empty where the kind has none."""

    name: str
    kind: str
    mode: str
    target: str
    period: int
    latency: int
    slack: int
    ports: tuple[Port, ...]
    cells: dict[str, int]
    signals: int
    graph: tuple[int, ...] = ()

    @property
    def is_exact(self) -> bool:
        return self.mode == "exact"

    @property
    def inputs(self) -> tuple[Port, ...]:
        return tuple(port for port in self.ports if port.is_input)

    @property
    def outputs(self) -> tuple[Port, ...]:
        return tuple(port for port in self.ports if not port.is_input)


def number_of(word: str, line: int) -> int:
    """A whole number in decimal."""
    try:
        return int(word)
    except ValueError:
        raise NotReport(line, f"{word[:40]!r} is no whole number") from None


def port_of(words: list[str], line: int) -> Port:
    """The port of a line `input x unsigned 4 0`."""
    if len(words) != 5 or words[2] not in ("signed", "unsigned"):
        raise NotReport(line, "expected a name, signed or unsigned, a width and an lsb")
    width = number_of(words[3], line)
    if width not in range(1, MOST_WIDTH + 1):
        raise NotReport(line, f"a width is {width}; expected 1 to {MOST_WIDTH}")
    return Port(words[1], words[0] == "input", words[2] == "signed", width, number_of(words[4], line))


def cells_of(words: list[str], line: int) -> dict[str, int]:
    """The bits of each class of cells, of a line `cells wire 0 logic 0 ..`."""
    if tuple(words[1::2]) != CELLS or len(words) != 2 * len(CELLS) + 1:
        raise NotReport(line, f"expected a number for each of {', '.join(CELLS)}")
    return {kind: number_of(word, line) for kind, word in zip(CELLS, words[2::2])}


def report_of(text: str) -> Report:
    """The report that a text is."""
    facts: dict = {"ports": ()}
    line = 0
    for line, words in enumerate(map(str.split, text.splitlines()), 1):
        key = words[0] if words else ""
        if key in ("input", "output"):
            facts["ports"] += (port_of(words, line),)
        elif key == "cells":
            facts["cells"] = cells_of(words, line)
        elif key == "graph":
            facts["graph"] = tuple(number_of(word, line) for word in words[1:])
        elif key == "operator" and len(words) == 2:
            facts["name"] = words[1]
        elif key in ("kind", "mode", "target") and len(words) == 2:
            facts[key] = words[1]
        elif key in ("period", "latency", "slack", "signals") and len(words) == 2:
            facts[key] = number_of(words[1], line)
            if facts[key] < 0:
                raise NotReport(line, f"{key} is {facts[key]}, below 0")
        else:
            raise NotReport(line, f"{' '.join(words)!r} is no line of a report")
    try:
        return Report(**facts)
    except TypeError:
        missing = sorted(Report.__dataclass_fields__.keys() - facts.keys() - {"graph"})
        raise NotReport(line + 1, f"the report has no {', '.join(missing)}") from None


def read_report(path: Path) -> Report:
    """The report of a file; a fault names it."""
    try:
        return report_of(path.read_text())
    except NotReport as fault:
        fault.args = (f"{path} is no report: {fault}",)
        raise
    except UnicodeDecodeError:
        raise NotReport(1, f"{path} is no text") from None
