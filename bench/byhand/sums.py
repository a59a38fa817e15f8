"""Sums of inputs, and inputs times constants, as differences and shifted sums."""
from .rows import Row, add_rows, plain_row
from .writer import Text, Word, named_ports, tree


def sum_of_inputs(count: int, width: int, out: int) -> Text:
    """Signed inputs `a`, `b` and so on, by a balanced tree."""
    names = [chr(ord("a") + at) * 2 for at in range(count)]
    text = Text(named_ports(" ".join(names), width, True))
    total = tree(text, [text.input(name, width, True) for name in names])
    text.output("y", out, total)
    return text


def sum_in_line(count: int, width: int, out: int) -> Text:
    """The same, one input after the other."""
    names = [chr(ord("a") + at) * 2 for at in range(count)]
    text = Text(named_ports(" ".join(names), width, True))
    total = text.input(names[0], width, True)
    for name in names[1:]:
        total = text.add(total, text.input(name, width, True))
    text.output("y", out, total)
    return text


def rounded(text: Text, high: Word, low: Word, place: int) -> Word:
    """`high` and `low` over a power of two, to the nearest: the bit below goes into the carry."""
    base = text.high(low, place)
    total = add_rows(text, plain_row(base), Row(high, 0, f"{low.name}[{place - 1}]", plain_row(high).parts), 96)
    return total.word


def differences(text: Text, names: str, width: int) -> tuple[Word, Word, Word]:
    """Red and blue less green, and green."""
    red, green, blue = (text.input(name, width, False) for name in names.split())
    return text.subtract(red, green), text.subtract(blue, green), green


def weighted(text: Text, red: Word, blue: Word) -> Word:
    """(306 red + 117 blue) / 16, less than one unit off: 9 (17 (2 red + blue) - 4 blue), cut before the 9."""
    both = text.plus_shifted(blue, red, 1)
    part = text.add(both, text.high(both, 4))
    return nine(text, text.subtract(part, text.high(blue, 2)))


def nine(text: Text, word: Word) -> Word:
    return text.plus_shifted(word, word, 3)


def luma(width: int) -> Text:
    """0.299 red + 0.587 green + 0.114 blue as green + (306 (red - green) + 117 (blue - green)) / 1024."""
    text = Text(named_ports("red green blue", width))
    red, blue, green = differences(text, "red green blue", width)
    text.output("y", width, rounded(text, green, weighted(text, red, blue), 6))
    return text


def matrix(width: int) -> Text:
    """Red, green and blue to a luma and two differences of colour, of which half the range is 0."""
    text = Text(named_ports("red green blue", width))
    red, blue, green = differences(text, "red green blue", width)
    part = weighted(text, red, blue)
    text.output("y", width, rounded(text, green, part, 6))
    # Blue less luma, with four places below, times 289 / 512.
    rest = text.subtract(text.shifted(blue, 4), text.high(part, 2))
    once = text.plus_shifted(rest, rest, 4)
    cut = text.high(once, 3)
    twice = text.add(cut, text.high(cut, 4))
    text.output("z", width + 1, half_range(text, twice, width, 6))
    # Half of red, less blue times 21 / 256.
    five = text.plus_shifted(blue, blue, 2)
    many = text.plus_shifted(five, blue, 4)
    cut = text.high(many, 3)
    less = text.subtract(text.shifted(red, 4), cut)
    text.output("v", width + 1, half_range(text, less, width, 5))
    return text


def half_range(text: Text, word: Word, width: int, places: int) -> Word:
    """A word over a power of two, to the nearest, and half the range."""
    value = (1 << width + places - 1) + (1 << places - 1)
    constant = text.put(f"{width + places + 2}'sd{value}", value, value)
    return text.high(text.add(word, constant), places)
