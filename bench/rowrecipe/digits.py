"""Products and squares as rows of digits of radix 4.

A row of a negative digit is the complement of the multiple, and its pending bit is the one that makes it the negative. Two recodings:

    booth    -2, -1, 0, 1, 2 from three bits of the multiplier (MacSorley): a bit of the row reads five bits
    offset   -1, 0, 1, 2: two bits, less one, of the multiplier plus 0101..01, which is one sum: a bit of the row reads four

The lowest digit is one bit, 0 or 1, where that makes no row more: then one row has no pending bit.
"""
from __future__ import annotations

from collections.abc import Callable
from dataclasses import dataclass

from .adding import ONE, Row
from .net import Net, name_of
from .words import Word, bit, bits_of, copies, cut, high_part, joined, width_of

ZERO = ("bits", "0")


@dataclass(frozen=True)
class Digit:
    """A digit at a place: -2 times the top bit, plus the other two; of `offset` twice the top bit and the middle one, less one."""

    place: int
    top: tuple
    middle: tuple
    low: tuple
    values: tuple[int, ...]
    is_offset: bool = False


def constant(tree: tuple) -> int | None:
    return int(tree[1], 2) if tree[0] == "bits" else None


def booth_digit(place: int, top: tuple, middle: tuple, low: tuple) -> Digit:
    """A digit of three bits, some of which are 0 or the same."""
    found = set()
    for number in range(8):
        bits = {tree: number >> at & 1 for at, tree in enumerate((low, middle, top))}
        if all(constant(tree) in (None, value) for tree, value in bits.items()):
            found.add(-2 * bits[top] + bits[middle] + bits[low])
    return Digit(place, top, middle, low, tuple(sorted(found)))


def is_even(word: Word) -> bool:
    """Whether the lowest digit is as the others, and not one bit: where there is one digit fewer so."""
    return word.width % 2 == (not word.is_signed) or word.width == 1


def booth(net: Net, word: Word) -> list[Digit]:
    """The digits of a word."""
    width = word.width
    above = bit(word.node, width - 1) if word.is_signed else ZERO

    def at(place: int) -> tuple:
        return bit(word.node, place) if place < width else above

    digits, start = [], 0
    if not is_even(word):
        digits, start = [booth_digit(0, ZERO, ZERO, at(0))], 1
    for place in range(start, width + (not word.is_signed), 2):
        digits.append(booth_digit(place, at(place + 1), at(place), at(place - 1) if place > start else ZERO))
    return [digit for digit in digits if digit.values != (0,)]


def offset(net: Net, word: Word) -> list[Digit]:
    """The digits of a word from two bits each of its sum with a one for each digit; the highest of a signed word is one of `booth`."""
    width, start = word.width, 0 if is_even(word) else 1
    end = width if not word.is_signed else width - 2 + (width - start) % 2
    pairs = range(start, end, 2)
    if len(pairs) < 2:
        return booth(net, word)
    digits = [booth_digit(0, ZERO, ZERO, bit(word.node, 0))] if start else []
    after = pairs[-1] + 2
    span = after - start + 1
    node = net.sum_of(joined(bits_of(0, span - (end - start)), cut(word, start, end)), bits_of(sum(1 << place - start for place in pairs), span))
    for place in pairs:
        values = (0, 1, 2) if not word.is_signed and place == width - 1 else (-1, 0, 1, 2)
        digits.append(Digit(place, bit(node, place - start + 1), bit(node, place - start), ZERO, values, True))
    if word.is_signed:
        digits.append(booth_digit(after, bit(word.node, width - 1), bit(word.node, min(after, width - 1)), bit(node, after - start)))
    elif after <= width:
        digits.append(booth_digit(after, ZERO, ZERO, bit(node, after - start)))
    return digits


def inverse(tree: tuple) -> tuple:
    if constant(tree) is not None:
        return ("bits", "".join("10"[int(one)] for one in tree[1]))
    return tree[1] if tree[0] == "not" else ("not", tree)


def chosen(terms: list[tuple[list[tuple], tuple]], width: int) -> tuple:
    """The words of terms: each where all its bits are 1; at most one term has them all."""
    found = []
    for bits, word in terms:
        if any(constant(each) == 0 for each in bits) or contradicts(bits):
            continue
        wide = [copies(each, width) for each in dict.fromkeys(bits) if constant(each) is None]
        wide += [word] if constant(word) != (1 << width) - 1 or not wide else []
        found.append(wide[0] if len(wide) == 1 else ("chain", "and", wide))
    return found[0] if len(found) == 1 else ("chain", "or", found) if found else bits_of(0, width)


def contradicts(bits: list[tuple]) -> bool:
    return any(inverse(each) in bits for each in bits)


def booth_terms(digit: Digit, once: tuple, twice: tuple, is_negative: bool, is_filled: bool) -> list[tuple[list[tuple], tuple]]:
    """The multiple, or its complement where the top bit is 1; of the digit 0 with all bits 1 the complement of 0 if `is_filled`."""
    top, middle, low = digit.top, digit.middle, digit.low
    terms = []
    for number in range(8):
        signs = [number >> 2 & 1, number >> 1 & 1, number & 1]
        value = abs(-2 * signs[0] + signs[1] + signs[2])
        bits = [tree if sign else inverse(tree) for sign, tree in zip(signs, (top, middle, low))]
        word = {1: once, 2: twice}.get(value)
        if word is not None:
            terms.append((bits, inverse(word) if signs[0] != is_negative else word))
        elif is_filled and signs[0] != is_negative:
            terms.append((bits, inverse(bits_of(0, width_of_tree(once)))))
    return terms


def width_of_tree(tree: tuple) -> int:
    """The width of wires that are slices, constants and such beside each other."""
    match tree:
        case ("part", _, high, low):
            return high + 1 - low
        case ("bits", bits):
            return len(bits)
        case ("chain", "&", operands):
            return sum(map(width_of_tree, operands))
    raise ValueError(tree)


def offset_terms(digit: Digit, once: tuple, twice: tuple, is_negative: bool) -> list[tuple[list[tuple], tuple]]:
    high, low = digit.top, digit.middle
    plain = [([high, inverse(low)], once), ([high, low], twice)]
    terms = [(bits, inverse(word) if is_negative else word) for bits, word in plain]
    if digit.values[0] < 0:
        terms.append(([inverse(high), inverse(low)], once if is_negative else inverse(once)))
    return terms


def pending_of(net: Net, digit: Digit, is_negative: bool) -> tuple | None:
    """The bit that makes a complement the negative."""
    if digit.is_offset:
        if is_negative:
            return digit.top
        return None if digit.values[0] >= 0 else whole(net, ("chain", "and", [inverse(digit.top), inverse(digit.middle)]))
    if constant(digit.top) == 0:
        return ONE if is_negative else None
    return whole(net, inverse(digit.top)) if is_negative else digit.top


def whole(net: Net, tree: tuple) -> tuple:
    """A bit of logic as one of a node."""
    return bit(net.logic(tree), 0)


def multiple_of(digit: Digit, number: int, is_negative: bool, is_filled: bool) -> tuple[int, bool]:
    """The size of a digit whose bits are these three, and whether its row is a complement; of a Booth digit 0 only if `is_filled`."""
    top, middle, low = number >> 2 & 1, number >> 1 & 1, number & 1
    if digit.is_offset:
        value = 2 * top + middle - 1
        return abs(value), bool(top) if is_negative else value < 0
    return abs(middle + low - 2 * top), bool(top) != is_negative and is_filled


def square_multiple(digit: Digit, number: int, is_negative: bool) -> tuple[int, bool]:
    """The same for a row of a square."""
    size, is_complement = multiple_of(digit, number, False, True)
    return size, (is_complement and size > 0) != is_negative


def top_of_row(net: Net, word: Word, digit: Digit, multiple: Callable[[int], tuple[int, bool]], place: int, units: int, width: int) -> Word:
    """The places of a row from `place` on, as many as asked for, with so many units of it added: a table that reads the bits of the
    digit and the highest two of the word."""
    size = min(2, word.width)
    signals = [tree for tree in dict.fromkeys((digit.top, digit.middle, digit.low)) if constant(tree) is None]
    rows = []
    for number in range(1 << len(signals) + size):
        values = {tree: number >> size + at & 1 for at, tree in enumerate(reversed(signals))}
        bits = [values.get(tree, constant(tree)) for tree in (digit.top, digit.middle, digit.low)]
        factor, is_complement = multiple(4 * bits[0] + 2 * bits[1] + bits[2])
        high = number & (1 << size) - 1
        high -= (high >> size - 1 << size) if word.is_signed else 0
        found = factor * high >> place - word.width + size
        rows.append((~found if is_complement else found) + units & (1 << width) - 1)
    greatest = max(rows)
    if greatest == min(rows):
        return Word(net.wire(bits_of(greatest, width_of(0, greatest))), 0, greatest)
    made = net.table(joined(*signals, cut(word, word.width - size, word.width)), rows, width_of(0, greatest))
    return Word(made, 0, greatest)


def row_of(net: Net, word: Word, digit: Digit, is_negative: bool, place: int, units: int, room: int) -> Row:
    """The row of a digit, or its negative, of a product, with so many units of a place added, so that it is no number below 0: bits of
    logic below the place, and a table from there on. Places from `room` on are left out."""
    pending = pending_of(net, digit, is_negative)
    low = min(place, room)
    below = None
    if low:
        once, twice = cut(word, 0, low), joined(cut(word, 0, low - 1), ZERO)
        if digit.is_offset:
            tree = chosen(offset_terms(digit, once, twice, is_negative), low)
        else:
            tree = chosen(booth_terms(digit, once, twice, is_negative, pending is not None), low)
        below = ("name", name_of(net.logic(tree)))
    if room <= place:
        return Row(Word(net.wire(below), 0, (1 << low) - 1), digit.place, pending)

    def multiple(number: int) -> tuple[int, bool]:
        return multiple_of(digit, number, is_negative, pending is not None)

    return Row(topped(net, top_of_row(net, word, digit, multiple, place, units, min(3, room - place)), below), digit.place, pending)


def topped(net: Net, top: Word, below: tuple | None) -> Word:
    """The word of a top and of wires below it."""
    if below is None:
        return top
    places = net.width(below)
    return Word(net.wire(joined(cut(top, 0, top.width), below)), 0, (1 << top.width + places) - 1)


def product_rows(net: Net, a: Word, b: Word, width: int, recoding: str = "booth", is_negative: bool = False) -> tuple[list[Row], int]:
    """The rows of a product modulo 2^width, and a constant that belongs to them: of the word with fewer digits, each times the other
    word; of the second if they are as many.

    Each row has 3 units of a place added so that it is no number below 0, the first one 1 more; a first one of a single bit only 1
    unit of the next one's. As each row is two columns above the one before, all that is added is one power of two. The unit is what
    the row's sign weighs; of offset digits and a word without sign, a quarter of it.
    """
    rows_of = {"booth": booth, "offset": offset}[recoding]
    if len(booth(net, a)) < len(booth(net, b)):
        a, b = b, a
    digits = rows_of(net, b)
    is_single = len(digits) > 1 and digits[1].place == digits[0].place + 1
    place = a.width + (not a.is_signed) - 2 * (not a.is_signed and any(digit.is_offset for digit in digits) and not is_negative)
    rows = []
    for at, digit in enumerate(digits):
        units = 3 if at else 2 if is_single else 4
        rows.append(row_of(net, a, digit, is_negative, place, units, width - digit.place))
    return rows, -1 << digits[-1].place + place + 2


def square_rows(net: Net, word: Word, width: int, is_negative: bool = False, lut: int = 6) -> list[Row]:
    """The rows of a word times itself, or of its negative, modulo 2^width: each digit times what is above it, twice, and the digit's
    square below. What is added to them so that they are no numbers below 0, as to those of a product, is taken off in the last one, a
    table.

    With U the bits above a digit's two and t its top bit, all digits above it are U + t. So where t is 1 the digit times these is
    its size times the complement of U. The highest digit, of `lut` bits at most, is squared by a table.
    """
    rows, last = [], 0
    while word.width - last + (last > 0) > lut:
        rows.append(square_row(net, word, digit_at(word, last), is_negative))
        last += 2
    added = 1 << word.width + 2 - word.is_signed + 2 * len(rows) if rows else 0
    return [*rows, square_of_top(net, word, last, is_negative, -added, width)]


def digit_at(word: Word, place: int) -> Digit:
    """The digit of three bits at a place below the highest."""
    low = bit(word.node, place - 1) if place else ZERO
    return booth_digit(place, bit(word.node, place + 1), bit(word.node, place), low)


def square_row(net: Net, word: Word, digit: Digit, is_negative: bool) -> Row:
    """A digit times what is above it, and its square."""
    above = high_part(net, word, digit.place + 2)
    place = above.width + (not above.is_signed)

    def multiple(number: int) -> tuple[int, bool]:
        return square_multiple(digit, number, is_negative)

    top = top_of_row(net, above, digit, multiple, place, 3 + (not digit.place), 3)
    twice = joined(cut(above, 0, place - 1), digit.top)
    trees = [chosen(booth_terms(digit, cut(above, 0, place), twice, False, False), place)] if place else []
    trees += [chosen([(bits, ONE) for bits, _ in sized(digit, size)], 1) for size in (2, 1)]
    *times, four, unit = (("name", name_of(net.logic(inverse(tree) if is_negative else tree))) for tree in trees)
    return Row(topped(net, top, joined(*times, four, bits_of(-is_negative, 1), unit)), 2 * digit.place, ONE if is_negative else None)


def sized(digit: Digit, size: int) -> list[tuple[list[tuple], tuple]]:
    """The terms of a digit whose size is 1, or 2."""
    words = {1: (ONE, ZERO), 2: (ZERO, ONE)}[size]
    terms = booth_terms(digit, *words, False, False)
    return [(bits, word) for bits, word in terms if number_of_size(bits, digit) == size]


def number_of_size(bits: list[tuple], digit: Digit) -> int:
    """The size of the digit whose bits are these, each as it is or inverted."""
    top, middle, low = (tree == own for tree, own in zip(bits, (digit.top, digit.middle, digit.low)))
    return abs(-2 * top + middle + low)


def square_of_top(net: Net, word: Word, place: int, is_negative: bool, constant: int, width: int) -> Row:
    """The square of the highest digit, which is the bits from a place up and the bit below, and a constant by a table."""
    low, room = max(place - 1, 0), width - 2 * place
    size = word.width - low
    rows = []
    for number in range(1 << size):
        value = number - (1 << size) if word.is_signed and number >> size - 1 else number
        digit = (value >> 1) + (value & 1) if place else value
        rows.append((-digit * digit if is_negative else digit * digit) + (constant >> 2 * place) & (1 << room) - 1)
    made = net.table(cut(word, low, word.width), rows, width_of(0, max(rows)))
    return Row(Word(made, 0, max(rows)), 2 * place)
