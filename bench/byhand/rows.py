"""Products as rows of digits, and sums of rows: each row is a word at a column, added by carry chains in a line or in a tree.

A digit of radix 4 is a sum of bits with weights. A row of a negative digit is the complement of the multiple, and one more, a bit
that is added by the carry into the lowest place of a later sum. Two recodings:

    booth    -2, -1, 0, 1, 2 from three bits of the multiplier (MacSorley); a bit of the row reads five bits
    offset   -1, 0, 1, 2: with 1 added to each digit beforehand, by one sum, a digit is its two bits less one; a bit of the row
             reads four bits, so it is one table of four inputs

The lowest digit is one bit of the multiplier, or two where `is_even`. Where it is one, its row has no such bit.
"""
from collections.abc import Callable, Iterable
from dataclasses import dataclass, field, replace

from .writer import Text, Word


@dataclass(frozen=True)
class Digit:
    """A digit at a place: what its bits weigh, a constant beside them, the values it has, its row's bits and its negative sign."""

    place: int
    weights: dict[str, int]
    values: tuple[int, ...]
    row: Callable[[str, str, int, bool], str]
    minus: Callable[[bool], str]
    constant: int = 0


@dataclass(frozen=True)
class Row:
    """A word at a column, and a bit that is still to be added there. Its value is the sum of the parts: whole numbers times words."""

    word: Word
    column: int
    pending: str = ""
    parts: tuple = field(default=())

    @property
    def bounds(self) -> tuple[int, int]:
        """The least and the greatest value in units of the column, with what is pending."""
        least = greatest = 0
        groups: dict[Word, list] = {}
        for word, weights, constant in self.parts:
            groups.setdefault(word, []).append((weights, constant))
        for word, terms in groups.items():
            low, high = factor_bounds(terms)
            corners = [factor * number for factor in (low, high) for number in (word.least, word.greatest)]
            least, greatest = least + min(corners), greatest + max(corners)
        return least >> self.column, -(-greatest >> self.column)


def factor_bounds(terms: Iterable[tuple[dict[str, int], int]]) -> tuple[int, int]:
    """The least and the greatest sum of weighted bits and constants."""
    total: dict[str, int] = {}
    constant = 0
    for weights, beside in terms:
        constant += beside
        for bit, weight in weights.items():
            total[bit] = total.get(bit, 0) + weight
    negative = sum(weight for weight in total.values() if weight < 0)
    return constant + negative, constant + sum(total.values()) - negative


def repeated(bit: str, width: int) -> str:
    return f"{{{width}{{{bit}}}}}"


def bit_digit(place: int, bit: str) -> Digit:
    """A digit that is one bit."""

    def row(once: str, twice: str, width: int, is_negative: bool) -> str:
        inner = f"({once} & {repeated(bit, width)})"
        return f"~{inner}" if is_negative else inner

    return Digit(place, {bit: 1 << place}, (0, 1), row, lambda is_negative: "1'b1" if is_negative else "")


def booth_digit(place: int, bits: tuple[str, str, str]) -> Digit:
    """-2 times the highest bit, and the other two."""
    top, middle, low = bits

    def row(once: str, twice: str, width: int, is_negative: bool) -> str:
        one = repeated(f"({middle} ^ {low})", width)
        two = repeated(f"(({top} & ~{middle} & ~{low}) | (~{top} & {middle} & {low}))", width)
        sign = repeated(f"({'~' if is_negative else ''}{top})", width)
        return f"((({one} & {once}) | ({two} & {twice})) ^ {sign})"

    def minus(is_negative: bool) -> str:
        return f"{'~' if is_negative else ''}{top}" if top != "1'b0" else "1'b1" if is_negative else ""

    weights: dict[str, int] = {}
    for bit, weight in ((top, -2), (middle, 1), (low, 1)):
        if bit != "1'b0":
            weights[bit] = weights.get(bit, 0) + (weight << place)
    return Digit(place, weights, values_of(weights, place), row, minus)


def values_of(weights: dict[str, int], place: int) -> tuple[int, ...]:
    """All sums of some of the weights, in units of the place."""
    found = {0}
    for weight in weights.values():
        found |= {value + (weight >> place) for value in found}
    return tuple(sorted(found))


def offset_digit(place: int, high: str, low: str, is_positive: bool) -> Digit:
    """Two bits less one; `is_positive` where both are never 0."""

    def row(once: str, twice: str, width: int, is_negative: bool) -> str:
        one, two, other = (repeated(f"({bits})", width) for bits in (f"{high} & ~{low}", f"{high} & {low}", f"~{high} & ~{low}"))
        plain, inverted = ("~", "") if is_negative else ("", "~")
        found = f"({one} & {plain}{once}) | ({two} & {plain}{twice})"
        return f"({found})" if is_positive else f"({found} | ({other} & {inverted}{once}))"

    def minus(is_negative: bool) -> str:
        if is_negative:
            return high
        return "" if is_positive else f"(~{high} & ~{low})"

    weights = {high: 2 << place, low: 1 << place}
    return Digit(place, weights, (0, 1, 2) if is_positive else (-1, 0, 1, 2), row, minus, -1 << place)


def booth(text: Text, word: Word, is_even: bool) -> list[Digit]:
    """The digits of a word; if it has a sign that may be 1, its highest bit weighs less than nothing."""
    width = word.width if word.least < 0 else word.width - 1
    bits = [f"{word.name}[{at}]" for at in range(width)]
    top = bits[-1] if word.least < 0 else "1'b0"
    digits = [] if is_even else [bit_digit(0, bits[0])]
    for place in range(0 if is_even else 1, width, 2):
        if place == width - 1 and word.least >= 0 and not place:
            return [bit_digit(0, bits[0])]
        middle = bits[place]
        high = bits[place + 1] if place + 1 < width else top
        low = bits[place - 1] if place > (0 if is_even else 1) else "1'b0"
        digits.append(booth_digit(place, (high, middle, low)))
    if word.least >= 0 and (width - (not is_even)) % 2 == 0:
        digits.append(bit_digit(width, bits[-1]))
    return digits


def offset(text: Text, word: Word, is_even: bool) -> list[Digit]:
    """The digits of a word from two bits each; the highest of a word with a sign is made of three."""
    width = word.width if word.least < 0 else word.width - 1
    start = 0 if is_even else 1
    end = width if word.least >= 0 else width - 2 + (width - start) % 2
    digits = [] if is_even else [bit_digit(0, f"{word.name}[0]")]
    pairs = range(start, end, 2)
    ones = sum(1 << place for place in pairs)
    span = end - start + (1 if word.least < 0 else 2)
    whole = text.put(f"$signed({{1'b0, {word.name}[{end - 1}:0]}})", 0, (1 << end) - 1)
    moved = text.high(whole, start)
    total = text.add(moved, text.put(f"{moved.width}'sd{ones >> start}", 0, ones >> start))
    padded = text.put(total.name, -(1 << span), (1 << span) - 1, total.sums)
    for place in pairs:
        low, high = (f"{padded.name}[{place - start + at}]" for at in (0, 1))
        digits.append(offset_digit(place, high, low, word.least >= 0 and place == width - 1))
    if word.least < 0:
        carry = f"{padded.name}[{pairs[-1] + 2 - start}]" if pairs else "1'b0"
        place = pairs[-1] + 2 if pairs else start
        top = f"{word.name}[{width - 1}]"
        middle = f"{word.name}[{place}]"
        digits.append(booth_digit(place, (top, middle, carry)))
    elif place_after(pairs, start) <= width:
        digits.append(bit_digit(place_after(pairs, start), f"{padded.name}[{place_after(pairs, start) - start}]"))
    return digits


def place_after(pairs: range, start: int) -> int:
    return pairs[-1] + 2 if pairs else start


def row_of(text: Text, word: Word, digit: Digit, is_negative: bool) -> Row:
    """The row of a digit of a product, or of its negative."""
    minus = digit.minus(is_negative)
    numbers = []
    for value in digit.values:
        for number in (word.least, word.greatest):
            product = value * number * (-1 if is_negative else 1)
            numbers += [product, product - 1] if minus else [product]
    least, greatest = min(numbers), max(numbers)
    shape = Word("", least, greatest)
    once = text.put(word.name, least, greatest, word.sums).name
    twice = text.put(f"$signed({{{word.name}, 1'b0}})", least, greatest, word.sums).name
    sums = 1 if any("[" in bit for bit in digit.weights) and digit.constant else 0
    made = text.put(digit.row(once, twice, shape.width, is_negative), least, greatest, sums)
    sign = -1 if is_negative else 1
    weights = {bit: sign * weight for bit, weight in digit.weights.items()}
    return Row(made, digit.place, minus, ((word, weights, sign * digit.constant),))


def plain_row(word: Word, column: int = 0) -> Row:
    """A word as a row."""
    return Row(word, column, "", ((Word("1", 1, 1), {f"{word.name} whole": (word.greatest - word.least) << column}, word.least << column),))


def add_rows(text: Text, one: Row, other: Row, width: int) -> Row:
    """The sum of two rows modulo 2^width; a pending bit of the one at the higher column is added too."""
    low, high = sorted((one, other), key=lambda row: row.column)
    carry, left = high.pending, low.pending
    if not carry and low.column == high.column:
        carry, left = low.pending, ""
    start = high.column
    joined = Row(low.word, low.column, "", one.parts + other.parts)
    base = text.cut(text.high(low.word, start - low.column), width - start)
    top = text.cut(high.word, width - start)
    sums = max(base.sums, top.sums) + 1
    least, greatest = replace(joined, column=start).bounds
    least, greatest = max(least - 1, base.least + top.least), min(greatest + 1, base.greatest + top.greatest + bool(carry))
    room = width - start
    if width_over(least, greatest, room):
        least, greatest = -(1 << room - 1), (1 << room - 1) - 1
    first, second = (base, top) if base.sums or not top.sums else (top, base)
    if carry:
        first, second = (text.put(f"$signed({{{word.name}, {carry}}})", 2 * word.least, 2 * word.greatest + 1, word.sums) for word in (first, second))
        total = text.sum_of(f"{first.name} + {second.name}", 2 * least, 2 * greatest + 1, sums)
        total = text.put(f"$signed({total.name}[{total.width - 1}:1])", least, greatest, sums)
    else:
        total = text.sum_of(f"{first.name} + {second.name}", least, greatest, sums)
    if start > low.column:
        below = start - low.column
        total = text.put(f"$signed({{{total.name}, {text.low(low.word, below)}}})", least << below, (greatest + 1 << below) - 1, sums)
    return replace(joined, word=total, pending=left)


def cut_row(text: Text, row: Row, column: int) -> Row:
    """A row without what it has below a column, which is less than or equal to one unit there."""
    if row.column >= column:
        return row
    lost = (Word("1", 1, 1), {text.name(): -(1 << column)}, 0)
    return Row(text.high(row.word, column - row.column), column, "", (*row.parts, lost))


def width_over(least: int, greatest: int, room: int) -> bool:
    """Whether numbers of this range have more bits than there is room."""
    return Word("", least, greatest).width > room


def settled(text: Text, row: Row, width: int) -> Row:
    """A row whose pending bit is added by a sum of its own."""
    if not row.pending:
        return row
    zero = Row(text.put("1'sb0", -1, 0), row.column, row.pending)
    return add_rows(text, zero, replace(row, pending=""), width)


def in_line(text: Text, rows: list[Row], width: int) -> Row:
    """The sum of rows, one after the other from the lowest column on."""
    ordered = sorted(rows, key=lambda row: row.column)
    total = ordered[0]
    for row in ordered[1:]:
        total = add_rows(text, total, row, width)
    return settled(text, total, width)


def in_tree(text: Text, rows: list[Row], width: int) -> Row:
    """The sum of rows by a balanced tree of neighbours."""
    left = sorted(rows, key=lambda row: row.column)
    while len(left) > 1:
        pairs = [add_rows(text, *left[at : at + 2], width) for at in range(0, len(left) - 1, 2)]
        left = pairs + left[len(left) - len(left) % 2 :]
    return settled(text, left[0], width)


def in_lines(text: Text, rows: list[Row], width: int) -> Row:
    """The rows of each product in a line, and a balanced tree of these."""
    products: dict[Word, list[Row]] = {}
    for row in rows:
        products.setdefault(row.parts[0][0], []).append(row)
    return in_tree(text, [in_line(text, each, width) for each in products.values()], width)


RECODINGS = {"booth": booth, "offset": offset}
ORDERS = {"line": in_line, "tree": in_tree, "lines": in_lines}
