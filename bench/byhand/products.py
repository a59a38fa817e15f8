"""Products, squares and their sums from rows of digits of radix 4."""
from dataclasses import replace

from .rows import ORDERS, RECODINGS, Row, cut_row, repeated, row_of
from .writer import Text, Word


def product_rows(text: Text, a: Word, b: Word, recoding: str, is_even: bool, is_negative: bool = False) -> list[Row]:
    """The rows of a times b, or of its negative: one for each digit of b."""
    return [row_of(text, a, digit, is_negative) for digit in RECODINGS[recoding](text, b, is_even)]


def square_rows(text: Text, word: Word, column: int = 0) -> list[Row]:
    """The rows of a word times itself: a digit times what is above it, twice, and the digit's square below.

    With d the digit at a place and U the bits above its two, d times all higher digits is |d| times U, or times its complement where
    d is negative or 0 with its highest bit set. The highest digit, of three bits, is squared by itself.
    """
    width = word.width if word.least < 0 else word.width - 1
    bits = [f"{word.name}[{at}]" for at in range(width)]
    rows = []
    for place in range(0, width - 2, 2):
        top, middle, low = bits[place + 1], bits[place], bits[place - 1] if place else "1'b0"
        one, two = f"({middle} ^ {low})", f"(({top} & ~{middle} & ~{low}) | (~{top} & {middle} & {low}))"
        above = text.high(word, place + 2)
        least, greatest = min(4 * above.least, -4 * above.greatest - 4), 4 * max(above.greatest, -above.least) + 3
        size = Word("", 2 * least, 2 * greatest)
        wide = text.put(above.name, least, greatest).name
        flipped = text.put(f"{wide} ^ {repeated(top, size.width - 1)}", least, greatest)
        bound = 2 * max(above.greatest + 1, -above.least)
        times = text.put(f"({repeated(one, size.width)} & {flipped.name}) | ({repeated(two, size.width)} & {{{flipped.name}, 1'b0}})", -bound, bound)
        made = text.put(f"$signed({{{times.name}, {two}, 1'b0, {one}}})", -8 * bound, 8 * bound + 5)
        rows.append(Row(made, column + 2 * place, "", part_of(made, column + 2 * place)))
    return [*rows, square_of_top(text, bits, word.least < 0, column)]


def part_of(word: Word, column: int) -> tuple:
    weights = {f"{word.name} whole": (word.greatest - word.least) << column}
    return ((Word("1", 1, 1), weights, word.least << column),)


def square_of_top(text: Text, bits: list[str], is_signed: bool, column: int) -> Row:
    """The square of the highest digit, 0 to 4, or -2 to 2 of a word with a sign."""
    place = len(bits) - 2 + len(bits) % 2
    if place == len(bits) - 1:
        top, middle = ("1'b0", bits[-1]) if not is_signed else (bits[-1], bits[-1])
    else:
        top, middle = bits[-1], bits[-2]
    low = bits[place - 1] if place else "1'b0"
    one = f"({middle} ^ {low})"
    if is_signed:
        two = f"(({top} & ~{middle} & ~{low}) | (~{top} & {middle} & {low}))"
        made = text.put(f"$signed({{2'b0, {two}, 1'b0, {one}}})", 0, 5)
    else:
        both = f"({middle} & {low})"
        four, two = f"({top} & {both})", f"(({top} & ~{middle} & ~{low}) | (~{top} & {both}))"
        three = f"({top} & {one})"
        made = text.put(f"$signed({{1'b0, {four}, {three}, {two}, 1'b0, {one}}})", 0, 16)
    return Row(made, column + 2 * place, "", part_of(made, column + 2 * place))


def summed(text: Text, rows: list[Row], order: str, width: int) -> Word:
    """The sum of rows modulo 2^width."""
    total = ORDERS[order](text, rows, width)
    return text.shifted(total.word, total.column)


def cut_sum(text: Text, rows: list[Row], order: str, width: int, dropped: int) -> Word:
    """The sum of rows less what they have below a column, so that it is less than one unit at the place `dropped` off.

    All rows that reach below the column lose at most one unit of it each, and the output's floor less than one unit of its own.
    A constant in the carries makes up for it.
    """
    column = next(column for column in range(dropped, -1, -1) if fits(rows, column, dropped))
    cut, is_first = [], True
    for row in rows:
        left = cut_row(text, row, column)
        if row.column < column:
            # A unit for each sum of two rows that were cut, by its carry.
            left, is_first = replace(left, pending="" if is_first else "1'b1"), False
        cut.append(left)
    return summed(text, cut, order, width)


def fits(rows: list[Row], column: int, dropped: int) -> bool:
    """Whether rows cut at a column, with a unit added for all but one of them, are good."""
    count = sum(row.column < column for row in rows)
    lost = sum((1 << column) - (0 if row.pending else 1 << row.column) for row in rows if row.column < column)
    added = max(count - 1, 0) << column
    return added < 1 << dropped and added - lost - (1 << dropped) + (1 << column) > -(1 << dropped)
