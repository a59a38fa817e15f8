"""Writes Verilog whose signals are signed words of known range, so that each is as wide as its values ask for.

A sum is `+` of two words. Yosys joins a `+` whose operand is another `+` into rows of carry-save gates before one chain; behind
`~(~(x + y))` each stays a chain of its own.
"""
from collections.abc import Sequence
from dataclasses import dataclass


def width_of(least: int, greatest: int) -> int:
    """The bits of the two's complement of all numbers from one to another."""
    return max(greatest.bit_length(), (-least - 1).bit_length() if least < 0 else 0) + 1


@dataclass(frozen=True)
class Word:
    """A signed signal, its least and its greatest number, and how many sums are in series up to it."""

    name: str
    least: int
    greatest: int
    sums: int = 0

    @property
    def width(self) -> int:
        return width_of(self.least, self.greatest)


def named_ports(names: str, width: int, is_signed: bool = False) -> str:
    """Ports of one width, the inputs of a module."""
    return ", ".join(f"input {'signed ' if is_signed else ''}[{width - 1}:0] {name}" for name in names.split())


class Text:
    """A module that is written step by step, in one process, which a simulator runs once for each row of inputs. With `are_kept` each
    sum keeps a chain of its own."""

    def __init__(self, ports: str, are_kept: bool = True) -> None:
        self.ports = ports
        self.are_kept = are_kept
        self.declared: list[str] = []
        self.steps: list[str] = []
        self.drives: list[str] = []
        self.count = 0
        self.most_sums = 0

    def name(self) -> str:
        self.count += 1
        return f"n{self.count}"

    def put(self, expression: str, least: int, greatest: int, sums: int = 0) -> Word:
        """A word of an expression, whose value it holds or, if it is wider, its lowest bits."""
        word = Word(self.name(), least, greatest, sums)
        self.declared.append(f"  reg signed [{word.width - 1}:0] {word.name};")
        self.steps.append(f"    {word.name} = {expression};")
        return word

    def bit(self, expression: str) -> str:
        """A signal of one bit."""
        name = self.name()
        self.declared.append(f"  reg {name};")
        self.steps.append(f"    {name} = {expression};")
        return name

    def bits(self, expression: str, width: int) -> str:
        """A signal of bits that is no number."""
        name = self.name()
        self.declared.append(f"  reg [{width - 1}:0] {name};")
        self.steps.append(f"    {name} = {expression};")
        return name

    def input(self, name: str, width: int, is_signed: bool) -> Word:
        """The word of an input port."""
        if is_signed:
            return self.put(f"$signed({name})", -(1 << width - 1), (1 << width - 1) - 1)
        return self.put(f"$signed({{1'b0, {name}}})", 0, (1 << width) - 1)

    def sum_of(self, expression: str, least: int, greatest: int, sums: int) -> Word:
        """A word of one `+` or `-`, by a chain of its own."""
        self.most_sums = max(self.most_sums, sums)
        if not self.are_kept:
            return self.put(expression, least, greatest, sums)
        inner = self.put(expression, least, greatest, sums)
        outer = self.put(f"~{inner.name}", least, greatest, sums)
        return self.put(f"~{outer.name}", least, greatest, sums)

    def add(self, one: Word, other: Word) -> Word:
        sums = max(one.sums, other.sums) + 1
        return self.sum_of(f"{one.name} + {other.name}", one.least + other.least, one.greatest + other.greatest, sums)

    def subtract(self, one: Word, other: Word) -> Word:
        sums = max(one.sums, other.sums) + 1
        return self.sum_of(f"{one.name} - {other.name}", one.least - other.greatest, one.greatest - other.least, sums)

    def high(self, word: Word, place: int) -> Word:
        """A word without its bits below a place."""
        if not place:
            return word
        least, greatest = word.least >> place, word.greatest >> place
        if place >= word.width:
            return self.put(f"$signed({{{word.name}[{word.width - 1}]}})", -1, 0, word.sums)
        expression = f"$signed({word.name}[{word.width - 1}:{place}])"
        return self.put(expression, least, greatest, word.sums)

    def low(self, word: Word, place: int) -> str:
        """The bits of a word below a place, also beyond its sign."""
        if place <= word.width:
            return f"{word.name}[{place - 1}:0]"
        return f"{{{{{place - word.width}{{{word.name}[{word.width - 1}]}}}}, {word.name}}}"

    def shifted(self, word: Word, places: int, below: str = "") -> Word:
        """A word times a power of two, or with these bits, as many as places, below it."""
        if not places:
            return word
        below = below or f"{places}'b0"
        greatest = (word.greatest + 1 << places) - 1 if below != f"{places}'b0" else word.greatest << places
        return self.put(f"$signed({{{word.name}, {below}}})", word.least << places, greatest, word.sums)

    def plus_shifted(self, low: Word, high: Word, places: int, sign: str = "+") -> Word:
        """`low + high * 2^places`, or with a minus sign: the bits of `low` below are passed on."""
        base = self.high(low, places)
        total = self.add(base, high) if sign == "+" else self.subtract(base, high)
        return self.shifted(total, places, self.low(low, places)) if places else total

    def shifted_minus(self, high: Word, places: int, low: Word) -> Word:
        """`high * 2^places - low`."""
        return self.subtract(self.shifted(high, places), low)

    def cut(self, word: Word, width: int) -> Word:
        """The lowest bits of a word, as many as asked for, as a signed word."""
        if word.width <= width:
            return word
        return self.put(f"$signed({word.name}[{width - 1}:0])", -(1 << width - 1), (1 << width - 1) - 1, word.sums)

    def output(self, name: str, width: int, word: Word, low: int = 0) -> None:
        """Drives an output by the bits of a word from a place on, or by copies of its sign."""
        self.ports += f", output [{width - 1}:0] {name}"
        shifted = self.high(word, low)
        drives = f"{shifted.name}[{width - 1}:0]" if shifted.width >= width else shifted.name
        self.drives.append(f"  assign {name} = {drives};")

    def written(self, name: str = "circuit") -> str:
        head = f"module {name}(input clk, {self.ports});"
        return "\n".join([head, *self.declared, "  always @* begin", *self.steps, "  end", *self.drives, "endmodule"]) + "\n"


def tree(text: Text, words: Sequence[Word]) -> Word:
    """The sum of words by a balanced tree."""
    left = list(words)
    while len(left) > 1:
        pairs = [text.add(*left[at : at + 2]) for at in range(0, len(left) - 1, 2)]
        left = pairs + left[len(left) - len(left) % 2 :]
    return left[0]
