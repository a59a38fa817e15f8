"""Reads and writes files of vectors: rows of inputs, or of inputs and outputs, in hexadecimal; and numbers in a port's format."""
from __future__ import annotations

import re
from collections.abc import Iterator, Sequence
from fractions import Fraction
from typing import List, Optional, Tuple

from .report import Port

Row = Tuple[List[int], Optional[List[int]]]


class BadRow(Exception):
    """A line that is no row, with its number, from 1."""

    def __init__(self, line: int, words: str) -> None:
        super().__init__(f"line {line}: {words}")
        self.line = line


def digits(width: int) -> int:
    """How many hexadecimal digits a word of a port has."""
    return (width + 3) // 4


def word_of(text: str, width: int, line: int) -> int:
    """The word that a text spells, below 2^width."""
    if not re.fullmatch(f"[0-9a-fA-F]{{{digits(width)}}}", text):
        raise BadRow(line, f"{text!r} is no word of {digits(width)} hexadecimal digits")
    if int(text, 16) >> width:
        raise BadRow(line, f"{text!r} does not fit into {width} bits")
    return int(text, 16)


def side_of(text: str, widths: Sequence[int], line: int, side: str) -> list[int]:
    """The words of the inputs or the outputs of a row."""
    words = text.split()
    if len(words) != len(widths):
        raise BadRow(line, f"{len(words)} words of {side} in place of {len(widths)}")
    return [word_of(word, width, line) for word, width in zip(words, widths)]


def read_rows(text: str, ins: Sequence[int], outs: Sequence[int]) -> Iterator[Row]:
    """The words of each row, for ports of these widths; the outputs are None where the line has none."""
    for line, written in enumerate(text.splitlines(), 1):
        left, colon, right = written.partition(" :")
        entered = side_of(left, ins, line, "inputs")
        yield entered, side_of(right, outs, line, "outputs") if colon else None


def row_text(words: Sequence[int], widths: Sequence[int]) -> str:
    """A side of a row, as the program writes it."""
    return " ".join(f"{word:0{digits(width)}x}" for word, width in zip(words, widths))


def unit_count(word: int, port: Port) -> int:
    """The number of a word, in units of the port's last place."""
    return word - (1 << port.width) if port.is_signed and word >> (port.width - 1) else word


def word_in(units: int, port: Port) -> int:
    """The word of a number of units that the port holds."""
    return units % (1 << port.width)


def value_text(units: int, lsb: int) -> str:
    """The decimal text of `units * 2^lsb`, exactly."""
    if lsb >= 0:
        return str(units << lsb)
    whole, part = divmod(abs(units) * 5**-lsb, 10**-lsb)
    written = f"{part:0{-lsb}d}".rstrip("0")
    return ("-" if units < 0 else "") + str(whole) + (f".{written}" if written else "")


def nearest(value: Fraction, port: Port) -> tuple[int, Fraction]:
    """The number of units nearest to a value, halves to the even one, and how much larger the value is."""
    units = round(value / port.unit)
    return units, value - units * port.unit
