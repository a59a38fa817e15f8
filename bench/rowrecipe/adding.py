"""Rows and their sum: each row is a word at a column, added or taken off, and a bit that is still to be added at its column.

Two rows are added by one Add node over the places from the column of the higher one up; what the lower one has below is passed on.
"""
from __future__ import annotations

from collections.abc import Callable
from dataclasses import dataclass, replace

from .net import Net, name_of, sources
from .words import Word, bit, bits_of, cut, joined, width_of

ONE = ("bits", "1")


@dataclass(frozen=True)
class Row:
    """2^column times (the word, or its negative, and the pending bit)."""

    word: Word
    column: int
    pending: tuple | None = None
    is_negative: bool = False

    @property
    def bounds(self) -> tuple[int, int]:
        """The least and the greatest number that the word stands for."""
        if self.is_negative:
            return -self.word.greatest, -self.word.least
        return self.word.least, self.word.greatest

    @property
    def top(self) -> int:
        """The column above the word's highest place."""
        return self.column + self.word.width


def is_sum(net: Net, row: Row) -> bool:
    return net.nodes[row.word.node].sums > 0


def padded(net: Net, row: Row, column: int) -> Row:
    """The row with zeros below, down to a column."""
    if row.column <= column:
        return row
    places = row.column - column
    assert row.pending is None
    tree = joined(cut(row.word, 0, row.word.width), bits_of(0, places))
    return replace(row, word=Word(net.wire(tree), row.word.least << places, row.word.greatest << places), column=column)


def add(net: Net, one: Row, other: Row, width: int) -> Row:
    """The sum of two rows modulo 2^width.

    The Add node covers the places from the column of the higher row up, whose pending bit goes into its carry; of two rows of one
    column with pending bits one stays. A lower row that is no number below 0 and ends below the higher one is beside it, without an
    Add node. A row that is taken off is the second operand of `-`: if it is the lower one, the other one gets zeros below. Two that
    are taken off are added, and their sum is taken off.
    """
    low, high = in_order(net, one, other)
    start, below = high.column, high.column - low.column
    minus, both = high.is_negative and not low.is_negative, high.is_negative and low.is_negative
    if not below and high.pending is None:
        high, low = replace(high, pending=low.pending), replace(low, pending=None)
    assert not (minus or both) or high.pending is None
    if low.word.least >= 0 and low.top <= start and not high.is_negative and high.pending is None:
        return replace(beside(net, low, high), pending=low.pending)
    least, greatest = (-high.word.greatest, -high.word.least) if minus else (high.word.least, high.word.greatest)
    least += low.word.least >> below
    greatest += (low.word.greatest >> below) + (high.pending is not None)
    places = min(width - start, width_of(least, greatest))
    found = whole_word(summed(net, low, high, places, "-" if minus else "+"), places, least < 0)
    if below:
        tree = joined(cut(found, 0, found.width), cut(low.word, 0, below))
        found = Word(net.wire(tree), found.least << below, (found.greatest + 1 << below) - 1)
    return Row(found, low.column, low.pending, both)


def in_order(net: Net, one: Row, other: Row) -> tuple[Row, Row]:
    """The lower and the higher row; if one of them is taken off, that one is the higher or both are at one column."""
    low, high = sorted((one, other), key=lambda row: row.column)
    if low.is_negative and not high.is_negative:
        return padded(net, high, low.column), low
    return low, high


def beside(net: Net, low: Row, high: Row) -> Row:
    """Two rows without a place in common."""
    below = high.column - low.column
    tree = joined(cut(high.word, 0, high.word.width), cut(low.word, 0, below))
    return Row(Word(net.wire(tree), high.word.least << below, (high.word.greatest + 1 << below) - 1), low.column)


def whole_word(node: int, places: int, is_signed: bool) -> Word:
    """A word of so many bits that may be any number: the range of a sum is not kept."""
    return Word(node, -(1 << places - 1), (1 << places - 1) - 1) if is_signed else Word(node, 0, (1 << places) - 1)


def summed(net: Net, low: Row, high: Row, places: int, sign: str) -> int:
    """The Add node over so many places from the column of the higher row up, with its pending bit. The first operand is a sum if one
    is, as a device's tables take the second one in.

    Yosys joins a sum that another sum alone reads, and reads as a whole, with that one into carry-save adders. So then the operands of
    `+` exchange their bits of the lowest place, which changes no sum; those of `-` get the same bit below.
    """
    below = high.column - low.column
    first, second = cut(low.word, below, below + places), cut(high.word, 0, places)
    if sign == "+" and is_sum(net, high) and not is_sum(net, low):
        first, second = second, first
    carry = high.pending
    if carry is None and (is_joined(net, first) or is_joined(net, second)):
        if sign == "+":
            return net.sum_of(*exchanged(net, first, second))
        carry = lowest(net, first)
    if carry is None:
        return net.sum_of(first, second, sign)
    node = net.sum_of(joined(first, carry), joined(second, carry), sign)
    return net.wire(("part", name_of(node), places, 1))


def is_joined(net: Net, tree: tuple) -> bool:
    """Whether an operand is a whole sum, with zeros above or without."""
    found = sources(net, tree)
    while found and found[-1] == 0:
        found.pop()
    if not found or isinstance(found[0], int) or net.nodes[found[0][0]].kind != "add":
        return False
    return found == [(found[0][0], at) for at in range(net.nodes[found[0][0]].width)]


def lowest(net: Net, tree: tuple) -> tuple:
    """The lowest bit of wires."""
    found = sources(net, tree)[0]
    return bits_of(found, 1) if isinstance(found, int) else bit(*found)


def exchanged(net: Net, first: tuple, second: tuple) -> tuple[tuple, tuple]:
    """Two operands, each with the lowest bit of the other."""
    one, other = (net.wire(tree) for tree in (first, second))
    width = net.nodes[one].width
    if width == 1:
        return second, first
    parts = [("part", name_of(node), width - 1, 1) for node in (one, other)]
    return joined(parts[0], lowest(net, second)), joined(parts[1], lowest(net, first))


def by_top(rows: list[Row]) -> list[Row]:
    """In the order of their highest places: a row that reaches far up is added late, where sums are wide anyway."""
    return sorted(rows, key=lambda row: (row.top, row.column))


def in_neighbours(net: Net, rows: list[Row], width: int) -> Row:
    """Level by level, each row and the next."""
    left = list(rows)
    while len(left) > 1:
        pairs = [add(net, *left[at : at + 2], width) for at in range(0, len(left) - 1, 2)]
        left = pairs + left[len(left) - len(left) % 2 :]
    return left[0]


def in_halves(net: Net, rows: list[Row], width: int) -> Row:
    """The first half and the other half of the rows, each in the same way, no deeper than a balanced tree. Rows for which that depth has
    room in a line are added so: then each sum but the first takes a row in that no other sum made."""

    def of(some: list[Row], depth: int) -> Row:
        if len(some) <= depth + 1:
            return in_line(net, some, width)
        half = (len(some) + 1) // 2
        return add(net, of(some[:half], depth - 1), of(some[half:], depth - 1), width)

    return of(rows, depth_of(len(rows)))


def by_tops(net: Net, rows: list[Row], width: int) -> Row:
    """In halves, by their highest places."""
    return in_halves(net, by_top(rows), width)


def in_even_halves(net: Net, rows: list[Row], width: int) -> Row:
    """The same without lines."""

    def of(some: list[Row]) -> Row:
        if len(some) == 1:
            return some[0]
        half = (len(some) + 1) // 2
        return add(net, of(some[:half]), of(some[half:]), width)

    return of(rows)


def depth_of(count: int) -> int:
    """The depth of a balanced tree."""
    return (count - 1).bit_length()


def in_line(net: Net, rows: list[Row], width: int) -> Row:
    """One after the other."""
    total = rows[0]
    for row in rows[1:]:
        total = add(net, total, row, width)
    return total


def in_cheapest(net: Net, rows: list[Row], width: int) -> Row:
    """Always the two rows whose Add node has the fewest places, as long as the tree is no deeper than a balanced one."""
    room = 1 << depth_of(len(rows))
    left = [(row, 0) for row in by_top(rows)]
    while len(left) > 1:
        sizes = sum(1 << depth for _, depth in left)
        pairs = [(places_of(one[0], other[0]), max(one[1], other[1]), at, beside)
                 for beside, other in enumerate(left) for at, one in enumerate(left[:beside])
                 if sizes - (1 << one[1]) - (1 << other[1]) + (2 << max(one[1], other[1])) <= room]
        _, depth, at, beside = min(pairs)
        joined_row = add(net, left[at][0], left[beside][0], width)
        left = [each for number, each in enumerate(left) if number not in (at, beside)] + [(joined_row, depth + 1)]
        left.sort(key=lambda each: (each[0].column, each[0].top))
    return left[0][0]


def places_of(one: Row, other: Row) -> int:
    return max(one.top, other.top) + 1 - max(one.column, other.column)


ORDERS: dict[str, Callable[[Net, list[Row], int], Row]] = {
    "neighbours": in_neighbours, "halves": in_halves, "tops": by_tops, "even": in_even_halves, "line": in_line, "cheapest": in_cheapest}


def spared(net: Net, rows: list[Row]) -> list[Row]:
    """Where each row of the lowest column has a pending bit, the first one's as a row by itself: in any tree each row but one of the
    lowest column is the higher one of one sum, which takes its pending bit."""
    least = min(row.column for row in rows)
    lowest = [at for at, row in enumerate(rows) if row.column == least]
    if any(rows[at].pending is None for at in lowest):
        return rows
    first = rows[lowest[0]]
    alone = Row(Word(net.wire(first.pending), 0, 1), least)
    return [*rows[: lowest[0]], alone, replace(first, pending=None), *rows[lowest[0] + 1 :]]


def constant_row(net: Net, number: int) -> Row:
    """A number above 0 as a row."""
    column = (number & -number).bit_length() - 1
    number >>= column
    return Row(Word(net.wire(bits_of(number, width_of(number, number))), number, number), column)


def with_constant(net: Net, rows: list[Row], constant: int) -> list[Row]:
    """Rows and a number, which is 0 or more: its bits are above the last of the rows that end highest below it; if none does they are a
    row by themselves."""
    if not constant:
        return rows
    alone = constant_row(net, constant)
    below = [at for at, row in enumerate(rows) if row.word.least >= 0 and not row.is_negative and row.top <= alone.column]
    if not below:
        return [*rows, alone]
    at = max(below, key=lambda at: (rows[at].top, at))
    word, high = rows[at].word, constant >> rows[at].top
    tree = joined(bits_of(high, width_of(0, high)), cut(word, 0, word.width))
    wide = Word(net.wire(tree), 0, (high + 1 << word.width) - 1)
    return [*rows[:at], replace(rows[at], word=wide), *rows[at + 1 :]]


def total(net: Net, rows: list[Row], width: int, order: str, constant: int = 0) -> Word:
    """The sum of rows and a constant modulo 2^width, from column 0 up."""
    row = ORDERS[order](net, spared(net, with_constant(net, rows, constant % (1 << width))), width)
    assert row.pending is None
    if row.is_negative:
        row = add(net, Row(Word(net.wire(bits_of(0, 1)), 0, 0), row.column), row, width)
    return padded(net, row, 0).word
