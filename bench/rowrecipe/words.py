"""Wires of a net: bits of nodes, extended by copies of the sign or by zeros, and words that are numbers of a known range."""
from dataclasses import dataclass

from .net import Net, name_of


def width_of(least: int, greatest: int) -> int:
    """The bits of all numbers of a range: in two's complement where one is below 0."""
    if least < 0:
        return max(greatest.bit_length(), (-least - 1).bit_length()) + 1
    return max(1, greatest.bit_length())


@dataclass(frozen=True)
class Word:
    """A node that is a number of a range, in two's complement where the range has numbers below 0."""

    node: int
    least: int
    greatest: int

    @property
    def width(self) -> int:
        return width_of(self.least, self.greatest)

    @property
    def is_signed(self) -> bool:
        return self.least < 0


def bit(node: int, at: int) -> tuple:
    return ("part", name_of(node), at, at)


def bits_of(value: int, width: int) -> tuple:
    return ("bits", f"{value & (1 << width) - 1:0{width}b}")


def joined(*trees: tuple | None) -> tuple:
    """Wires beside each other, the highest first; those that are None are none."""
    found = [tree for tree in trees if tree is not None]
    return found[0] if len(found) == 1 else ("chain", "&", found)


def copies(tree: tuple, count: int) -> tuple | None:
    """A bit as often as asked for."""
    return joined(*[tree] * count) if count else None


def cut(word: Word, low: int, high: int) -> tuple | None:
    """The bits of a word from a place up to below another one, beyond its highest as its sign or 0; None where there are none."""
    if high <= low:
        return None
    inside = min(high, word.width)
    top = bit(word.node, word.width - 1)
    above = high - max(low, word.width)
    extension = (copies(top, above) if word.is_signed else bits_of(0, above)) if above > 0 else None
    within = ("part", name_of(word.node), inside - 1, low) if low < inside else None
    return joined(*(part for part in (extension, within) if part is not None))


def high_part(net: Net, word: Word, place: int) -> Word:
    """A word without its bits below a place."""
    if not place:
        return word
    least, greatest = word.least >> place, word.greatest >> place
    return Word(net.wire(cut(word, place, place + width_of(least, greatest))), least, greatest)


def input_word(net: Net, port: str, width: int, is_signed: bool) -> Word:
    node = net.input(port, width)
    if is_signed:
        return Word(node, -(1 << width - 1), (1 << width - 1) - 1)
    return Word(node, 0, (1 << width) - 1)
