"""Filters in transposed form: products on a graph of adders, cut to what the output needs before they enter the chain."""
from dataclasses import dataclass, field

from .writer import Text, Word


def odd_part(number: int) -> int:
    size = abs(number)
    return size // (size & -size)


def digit_count(number: int) -> int:
    """The digits other than 0 of a number in canonical signed digits."""
    size = abs(number)
    return (size ^ 3 * size).bit_count()


@dataclass(frozen=True)
class Adder:
    """`made` is the first number times a power of two, and the second, with their signs."""

    made: int
    first: int
    shift: int
    second: int


def adders_by(target: int, there: int) -> list[Adder]:
    """Adders that make a number from one that is there and a rest, shifted or not."""
    found = []
    for shift in range(target.bit_length() + 1):
        for sign in (1, -1):
            rest = target - sign * (there << shift)
            if rest and (shift or rest % 2 == 0):
                found.append(Adder(target, sign * there, shift, rest))
    return found


def graph_of(odds: list[int]) -> list[Adder]:
    """Adders that make all odd numbers from 1, each from one that is there and the rest with the fewest digits."""
    depths, made = {1: 0}, []

    def cost(adder: Adder) -> tuple[int, int, int]:
        rest = odd_part(adder.second)
        ahead = 0 if rest in depths else digit_count(rest)
        depth = max(depths[abs(adder.first)], depths.get(rest, ahead))
        return ahead, depth, abs(adder.second)

    def make(target: int) -> None:
        best = min((adder for there in depths for adder in adders_by(target, there)), key=cost)
        if odd_part(best.second) not in depths:
            make(odd_part(best.second))
        depths[target] = max(depths[abs(best.first)], depths[odd_part(best.second)]) + 1
        made.append(best)

    for odd in sorted(odds):
        if odd not in depths:
            make(odd)
    return made


def times(text: Text, adder: Adder, words: dict[int, Word]) -> Word:
    """The product of an adder: the operand with fewer zeros below passes its lowest places on."""
    first, second = words[abs(adder.first)], words[odd_part(adder.second)]
    shift = (adder.second & -adder.second).bit_length() - 1
    operands = [(first, adder.shift, adder.first > 0), (second, shift, adder.second > 0)]
    (low, _, low_is_added), (high, places, high_is_added) = sorted(operands, key=lambda operand: operand[1])
    if low_is_added:
        found = text.plus_shifted(low, high, places, "+" if high_is_added else "-")
    else:
        found = text.shifted_minus(high, places, low)
    least, greatest = sorted((adder.made * words[1].least, adder.made * words[1].greatest))
    return text.put(found.name, least, greatest, found.sums)


def products(text: Text, taps: list[int], sample: Word) -> dict[int, Word]:
    """The sample times each odd part of the taps."""
    words = {1: sample}
    for adder in graph_of(sorted({odd_part(tap) for tap in taps if tap})):
        words[adder.made] = times(text, adder, words)
    return words


def cut_place(taps: list[int], dropped: int) -> int:
    """The place at which products may be cut: all taps but one lose up to a unit there, in all less than one of the output."""
    count = sum(tap != 0 for tap in taps)
    return max((place for place in range(dropped + 1) if (count - 1) << place < 1 << dropped), default=0)


def part_of(text: Text, tap: int, words: dict[int, Word], place: int) -> Word:
    """The size of a tap times the sample, without its bits below a place."""
    shift = (tap & -tap).bit_length() - 1
    word = words[odd_part(tap)]
    return text.high(word, place - shift) if shift <= place else text.shifted(word, shift - place)


@dataclass
class Chain:
    """A chain of registers from the last tap to the first: the sum so far, none before the first product, and the constant in it.
    Products are cut at a place, or whole where it is 0; then there is no constant."""

    text: Text
    words: dict[int, Word]
    place: int
    room: int
    word: Word | None = None
    added: int = 0
    moves: list[str] = field(default_factory=list)

    def add(self, tap: int, least: int, greatest: int) -> None:
        """Adds a tap, whose sum is in this range. To add a product and one is to take its complement off, by the same cells."""
        if not tap:
            return
        part = part_of(self.text, tap, self.words, self.place)
        inverse = self.text.put(f"~{part.name}", -part.greatest - 1, -part.least - 1, part.sums)
        if self.word is None:
            zero = Word("1'sb0", -1, 0)
            self.word = part if tap > 0 else inverse if self.place else self.text.subtract(zero, part)
            self.added = -(tap < 0 and self.place > 0)
            return
        if Word("", least, greatest).width > self.room:
            least, greatest = -(1 << self.room - 1), (1 << self.room - 1) - 1
        takes = f"- {part.name}" if tap < 0 else f"- {inverse.name}" if self.place else f"+ {part.name}"
        self.word = self.text.sum_of(f"{self.word.name} {takes}", least, greatest, part.sums + 1)
        self.added += tap > 0 and self.place > 0

    def hold(self) -> None:
        """A cycle of delay; at first the sum is the constant alone."""
        if self.word is not None:
            name = self.text.name()
            self.text.declared.append(f"  reg signed [{self.word.width - 1}:0] {name} = {self.added};")
            self.moves.append(f"    {name} <= {self.word.name};")
            self.word = Word(name, self.word.least, self.word.greatest)


def bounds(taps: list[int], sample: Word, place: int) -> tuple[int, int]:
    """What a sum of products may be in units of a place, at which each was cut."""
    ends = [sorted((tap * sample.least, tap * sample.greatest)) for tap in taps]
    loss = sum(tap != 0 for tap in taps)
    return (sum(end[0] for end in ends) >> place) - loss, (sum(end[1] for end in ends) >> place) + loss + 1


def transposed(taps: list[int], width: int, dropped: int, out: int) -> Text:
    """A filter of signed samples; each register holds its sum so far. What the cuts lose in the mean is in carries of the sums."""
    text = Text(f"input signed [{width - 1}:0] x")
    sample = text.input("x", width, True)
    place = cut_place(taps, dropped)
    chain = Chain(text, products(text, taps, sample), place, out + dropped - place)
    for at in range(len(taps) - 1, -1, -1):
        chain.add(taps[at], *bounds(taps[at:], sample, place))
        if at:
            chain.hold()
    text.drives += ["  always @(posedge clk) begin", *chain.moves, "  end"]
    text.output("y", out, chain.word, dropped - place)
    return text
