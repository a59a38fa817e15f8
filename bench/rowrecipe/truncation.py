"""Rows without what they have below a column, and the constant that makes up for it.

A row that is cut at a column loses at most one unit of it together with its pending bit, and less than one unit without one. If all
lose less than n + 1 units, n units are added. Then the sum is at most n units too high, and less than one unit too low, before the
output cuts off all places below its last one; so it is good if n units are less than one of the output.
"""
from __future__ import annotations

from dataclasses import replace

from .adding import ONE, Row
from .net import Net
from .words import high_part


def is_dropped(row: Row, column: int) -> bool:
    """Whether nothing is left of a row."""
    return row.top <= column and row.word.least >= 0


def loss(row: Row, column: int) -> int:
    """The most by which a row is less without what it has below a column."""
    if row.column >= column:
        return 0
    pending = 1 << row.column if row.pending else 0
    if is_dropped(row, column):
        return (row.word.greatest << row.column) + pending
    return (1 << column) - (1 << row.column) + pending


def units_of(rows: list[Row], column: int) -> int:
    """The units of a column that are added."""
    return sum(loss(row, column) for row in rows) >> column


def cut_column(rows: list[Row], dropped: int) -> int:
    """The highest column below which rows may lose what they have, for an output without so many places."""

    def is_good(column: int) -> bool:
        units = units_of(rows, column)
        return units << column < 1 << dropped and units <= sum(row.column < column and not is_dropped(row, column) for row in rows)

    return next(column for column in range(dropped, -1, -1) if is_good(column))


def cut_rows(net: Net, rows: list[Row], dropped: int) -> list[Row]:
    """Rows whose sum, without so many places, is less than one unit off; the units that are added are pending bits of rows that are
    cut, from the last one on."""
    column = cut_column(rows, dropped)
    units, left = units_of(rows, column), []
    for row in rows:
        if row.column >= column:
            left.append(row)
        elif not is_dropped(row, column):
            left.append(Row(high_part(net, row.word, column - row.column), column))
    for at in reversed(range(len(left))):
        if units and left[at].column == column and left[at].pending is None:
            left[at], units = replace(left[at], pending=ONE), units - 1
    assert not units
    return left
