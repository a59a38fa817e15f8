"""Inputs times constants as rows: by tables, by shifted sums on a graph of adders, and by differences where constants add up."""
from __future__ import annotations

from collections.abc import Sequence
from dataclasses import dataclass, replace
from fractions import Fraction

from byhand.filters import Adder, adders_by, graph_of, odd_part

from .adding import ONE, ORDERS, Row, add, constant_row
from .net import Net
from .words import Word, bits_of, cut, high_part, joined, width_of

Terms = Sequence[tuple[Word, Fraction]]


def nearest(number: Fraction) -> int:
    return (2 * number.numerator + number.denominator) // (2 * number.denominator)


# By tables.


def chunks_of(word: Word, most: int) -> list[tuple[int, int]]:
    """The places of a word in as few pieces of at most so many bits as there may be, each as long as the others or one bit longer."""
    count = -(-word.width // most)
    ends = [word.width * at // count for at in range(count + 1)]
    return list(zip(ends, ends[1:]))


def values_of(word: Word, factor: Fraction, low: int, high: int, guard: int) -> list[int]:
    """What a piece of a word times a factor is, in units of 2^-guard."""
    values = []
    for number in range(1 << high - low):
        is_below = word.is_signed and high == word.width and number >> high - low - 1
        values.append(nearest(factor * (number - (is_below << high - low) << low) * (1 << guard)))
    return values


def table_rows(net: Net, terms: Terms, guard: int, constant: int, lut: int, width: int) -> list[Row]:
    """Tables of multiples in units of 2^-guard of the output, modulo 2^width, with a constant of such units in the widest one."""
    wanted = [(cut(word, low, high), values_of(word, factor, low, high, guard)) for word, factor in terms for low, high in chunks_of(word, lut)]
    wanted.sort(key=lambda each: max(each[1]) - min(each[1]))
    rows = []
    for address, values in wanted[:-1]:
        constant += min(values)
        rows.append(row_of_table(net, address, [value - min(values) for value in values], width))
    address, values = wanted[-1]
    return [*rows, row_of_table(net, address, [value + constant for value in values], width)]


def row_of_table(net: Net, address: tuple, values: list[int], width: int) -> Row:
    least, greatest = min(values), max(values)
    if width_of(least, greatest) > width:
        least, greatest = -(1 << width - 1), (1 << width - 1) - 1
    return Row(Word(net.table(address, values, width_of(least, greatest)), least, greatest), 0)


def by_tables(net: Net, terms: Terms, offset: Fraction, lut: int, width: int) -> tuple[list[Row], int]:
    """Rows whose sum is in units of 2^-guard, which is cut off, less than one unit of the output off."""
    count = sum(len(chunks_of(word, lut)) for word, _ in terms)
    guard = (count + (offset.denominator > 1)).bit_length()
    constant = nearest(offset * (1 << guard)) + (1 << guard - 1)
    return table_rows(net, terms, guard, constant, lut, width + guard), guard


# Factors as whole numbers over a power of two.


@dataclass(frozen=True)
class Rounded:
    """Factors as whole numbers over 2^places, and the most by which their sum is off, in units of 2^-places."""

    factors: tuple[int, ...]
    places: int
    off: Fraction


def rounded(terms: Terms, is_kept: bool) -> Rounded:
    """The fewest places with which the factors are less than half a unit off, all together; if asked for, with the same sum."""
    for places in range(40):
        exact = [factor * (1 << places) for _, factor in terms]
        factors = [nearest(factor) for factor in exact]
        if is_kept and sum(exact).denominator > 1:
            continue
        if is_kept:
            repair(factors, exact)
        corners = [sorted(((whole - each) * word.least, (whole - each) * word.greatest)) for whole, each, (word, _) in zip(factors, exact, terms)]
        off = max(-sum(corner[0] for corner in corners), sum(corner[1] for corner in corners))
        if 2 * off < 1 << places:
            return Rounded(tuple(factors), places, Fraction(off))
    raise ValueError("no factors")


def repair(factors: list[int], exact: list[Fraction]) -> None:
    """Moves factors by one, those first that are then the least off, until their sum is that of the exact ones."""
    while sum(factors) != sum(exact):
        step = 1 if sum(factors) < sum(exact) else -1
        at = min(range(len(factors)), key=lambda at: abs(factors[at] + step - exact[at]))
        factors[at] += step


# On a graph of adders.

FEW = 4


def adder_of(number: int, there: set[int]) -> Adder | None:
    """An adder that makes a number from two of those that are there, if one does."""
    for one in sorted(there):
        for adder in adders_by(number, one):
            if odd_part(adder.second) in there:
                return adder
    return None


def completed(odds: Sequence[int], extra: int) -> list[Adder] | None:
    """Adders that make all odd numbers from 1 and one more, without any other."""
    there, made, left = {1}, [], [extra, *odds]
    while left:
        found = next((adder for number in left if (adder := adder_of(number, there))), None)
        if found is None:
            return None
        made.append(found)
        there.add(found.made)
        left = [number for number in left if number not in there]
    return made


def adders_of(odds: Sequence[int]) -> list[Adder]:
    """Adders that make odd numbers: of few numbers with no other one, or with one that is a power of two and one, or less one, if that
    is enough; otherwise by the rule of texts by hand."""
    odds = sorted(set(odds) - {1})
    if not odds:
        return []
    if len(odds) <= FEW:
        extras = sorted({(1 << place) + sign for place in range(2, 16) for sign in (1, -1)})
        found = [made for extra in odds[:1] + extras if (made := completed(odds, extra)) is not None]
        if found:
            return min(found, key=len)
    return graph_of(odds)


@dataclass
class Flow:
    """A graph of adders the other way round: rows that are still to be multiplied by each odd number of the graph. Each row that is
    put there may lose places: no more than its share of what is left of the budget, among so many rows that are still to come."""

    net: Net
    width: int
    order: str
    budget: Fraction
    count: int
    rows: dict[int, list[Row]]

    def put(self, number: int, row: Row) -> None:
        """A row times a number, which is a power of two times an odd one, with its sign."""
        odd = odd_part(number)
        shift = (abs(number) // odd).bit_length() - 1
        moved = replace(row, column=row.column + shift, is_negative=row.is_negative != (number < 0))
        self.rows.setdefault(odd, []).append(self.shortened(moved, odd))

    def shortened(self, row: Row, odd: int) -> Row:
        """A row without its lowest places, as many as its share of the budget allows."""
        places, share = 0, self.budget / self.count
        self.count -= 1
        while (((2 << places) - 1) << row.column) * odd <= share and places < row.word.width - 1:
            places += 1
        if row.pending or not places:
            return row
        self.budget -= ((1 << places) - 1 << row.column) * odd
        return Row(high_part(self.net, row.word, places), row.column + places, None, row.is_negative)

    def gathered(self, odd: int) -> Row:
        return ORDERS[self.order](self.net, self.rows.pop(odd), self.width)


def on_graph(net: Net, terms: Sequence[tuple[Word, int]], width: int, order: str, budget: Fraction) -> list[Row]:
    """Rows whose sum is that of the terms, but for the budget at most: for each adder of the graph, from the last one on, the rows that
    it multiplies are added, and the sum is a row of both numbers of which the adder makes its own."""
    graph = adders_of([odd_part(factor) for _, factor in terms if factor])
    flow = Flow(net, width, order, budget, sum(factor != 0 for _, factor in terms) + 2 * len(graph), {})
    for word, factor in terms:
        if factor:
            flow.put(factor, Row(word, 0))
    for adder in reversed(graph):
        if adder.made in flow.rows:
            row = flow.gathered(adder.made)
            flow.put(adder.first * (1 << adder.shift), row)
            flow.put(adder.second, row)
    return flow.rows.get(1, [])


def halved(net: Net, rows: list[Row], places: int, constant: int) -> list[Row]:
    """Rows and a constant, so that their sum without so many places is rounded: where one row alone has places below, its highest bit
    below is its pending bit."""
    below = [row for row in rows if row.column < places]
    if not constant and len(below) == 1 and not below[0].is_negative and below[0].word.width > places - below[0].column:
        row = below[0]
        half = cut(row.word, places - 1 - row.column, places - row.column)
        high = Row(high_part(net, row.word, places - row.column), places, half)
        return [each for each in rows if each.column >= places] + [high]
    constant += 1 << places - 1
    return [*rows, constant_row(net, constant)] if constant else rows


def by_graph(net: Net, terms: Terms, offset: Fraction, order: str, is_cut: bool, width: int) -> tuple[list[Row], int]:
    """Rows of shifted sums, in units of 2^-places."""
    found = rounded(terms, False)
    budget = Fraction((1 << found.places) - 1, 2) - found.off if is_cut else Fraction(0)
    rows = on_graph(net, [(word, factor) for (word, _), factor in zip(terms, found.factors)], width + found.places, order, budget)
    return halved(net, rows, found.places, nearest(offset * (1 << found.places))), found.places


def by_differences(net: Net, terms: Terms, order: str, is_cut: bool, width: int) -> tuple[list[Row], int]:
    """Factors with a sum of a power of two: one input, and the others less it times theirs."""
    found = rounded(terms, True)
    middle = max(range(len(terms)), key=lambda at: (abs(found.factors[at]), -at))
    base = terms[middle][0]
    budget = Fraction((1 << found.places) - 1, 2) - found.off if is_cut else Fraction(0)
    others = []
    for at, (word, _) in enumerate(terms):
        if at != middle:
            others.append((add(net, Row(word, 0), Row(base, 0, None, True), 96).word, found.factors[at]))
    rows = on_graph(net, others, width + found.places, order, budget)
    column = sum(found.factors).bit_length() - 1
    assert sum(found.factors) == 1 << column
    return halved(net, [*rows, Row(base, column)], found.places, 0), found.places


# A filter as a chain of registers.


def multiples(net: Net, word: Word, taps: Sequence[int], order: str) -> dict[int, Word]:
    """A word times each odd part of the taps."""
    found = {1: word}
    for adder in adders_of([odd_part(tap) for tap in taps if tap]):
        rows = []
        for number in (adder.first * (1 << adder.shift), adder.second):
            odd = odd_part(number)
            rows.append(Row(found[odd], (abs(number) // odd).bit_length() - 1, None, number < 0))
        row = add(net, *rows, 96)
        assert not row.is_negative and row.column == 0
        least, greatest = sorted((adder.made * word.least, adder.made * word.greatest))
        found[adder.made] = Word(row.word.node, least, greatest)
    return found


def chained(net: Net, word: Word, taps: Sequence[int], dropped: int, out: int, order: str) -> Word:
    """The sum of taps times a word, each a cycle later than the one before, without so many places: from the last tap on each product,
    cut at a column, is added to the sum before, a cycle later. What is cut off is made up for by a one in the carry of each sum."""
    found = multiples(net, word, taps, order)
    count = sum(tap != 0 for tap in taps)
    column = max((place for place in range(dropped + 1) if (count - 1) << place < 1 << dropped), default=0)
    total, width = None, out + dropped - column
    for at in range(len(taps) - 1, -1, -1):
        if taps[at]:
            row = product_row(net, found[odd_part(taps[at])], taps[at], column, total is None)
            total = row if total is None else add(net, replace(total, column=0), row, width)
            total = Row(bounded(total.word, bounds(taps[at:], word, column), width), 0, None, total.is_negative)
        if at and total is not None:
            total = replace(total, word=Word(net.delay(net.wire(cut(total.word, 0, total.word.width))), total.word.least, total.word.greatest))
    assert total is not None and not total.is_negative
    return high_part(net, total.word, dropped - column)


def bounded(word: Word, limits: tuple[int, int], width: int) -> Word:
    """A word that is known to be within limits too; its node may have copies of its sign above."""
    least, greatest = max(word.least, limits[0]), min(word.greatest, limits[1])
    return Word(word.node, least, greatest) if width_of(least, greatest) < width else word


def bounds(taps: Sequence[int], word: Word, column: int) -> tuple[int, int]:
    """What a sum of products may be in units of a column, at which each was cut."""
    ends = [sorted((tap * word.least, tap * word.greatest)) for tap in taps]
    loss = sum(tap != 0 for tap in taps)
    return (sum(end[0] for end in ends) >> column) - loss, (sum(end[1] for end in ends) >> column) + loss + 1


def product_row(net: Net, word: Word, tap: int, column: int, is_first: bool) -> Row:
    """The product of a tap, cut at a column, with what makes up for it. The first one, which no sum adds, is a complement if it is
    taken off."""
    shift = (tap & -tap).bit_length() - 1
    if shift < column:
        word = high_part(net, word, column - shift)
    elif shift > column:
        places = shift - column
        tree = joined(cut(word, 0, word.width), bits_of(0, places))
        word = Word(net.wire(tree), word.least << places, word.greatest << places)
    if is_first and tap < 0 and shift < column:
        node = net.logic(("not", cut(word, 0, word.width)))
        return Row(Word(node, -word.greatest - 1, -word.least - 1), 0)
    return Row(word, 0, None if is_first or tap < 0 or shift >= column else ONE, tap < 0)
