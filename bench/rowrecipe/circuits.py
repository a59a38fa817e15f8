"""The circuits of bench/area as nets of rows, in each form of the recipe."""
from __future__ import annotations

import math
from collections.abc import Callable, Sequence
from dataclasses import dataclass
from fractions import Fraction

from .adding import Row, total
from .digits import product_rows, square_rows
from .net import Net
from .scaled import by_differences, by_graph, by_tables, chained
from .truncation import cut_rows
from .words import Word, cut, input_word


@dataclass(frozen=True)
class Form:
    """A form of the recipe: the digits, the order of sums, the inputs of a table, how constants are multiplied (by `tables`, on a
    `graph`, by `differences`, or of a filter on a graph before a `chain` of registers), and whether words on a graph lose places."""

    recoding: str = "booth"
    order: str = "halves"
    lut: int = 6
    constants: str = "tables"
    is_cut: bool = False


Port = tuple[str, int, bool]
Words = dict[str, Word]
Outputs = dict[str, tuple[Word, int]]


@dataclass(frozen=True)
class Circuit:
    """A circuit: its inputs and outputs (name, width, whether signed), what appends it to a net for given words, and the exact values
    of its outputs after rows of inputs, the latest last. Outputs are those, or less than one unit off."""

    inputs: tuple[Port, ...]
    outputs: tuple[Port, ...]
    build: Callable[[Net, Words, Form], Outputs]
    exact: Callable[[list[list[int]]], list[Fraction]]


def net_of(circuit: Circuit, form: Form) -> Net:
    """The net of a circuit: an output is the bits of a word from a place up."""
    net = Net()
    words = {name: input_word(net, name, width, is_signed) for name, width, is_signed in circuit.inputs}
    found = circuit.build(net, words, form)
    for name, width, _ in circuit.outputs:
        word, low = found[name]
        net.output(name, net.wire(cut(word, low, low + width)))
    return net


def summed(net: Net, rows: list[Row], width: int, form: Form, constant: int = 0) -> Word:
    return total(net, rows, width, form.order, constant)


def products_of(net: Net, words: Words, terms: Sequence[tuple[str, str, bool]], width: int, form: Form) -> tuple[list[Row], int]:
    """The rows of products modulo 2^width, each of two inputs and with its sign, and their constant."""
    found = [product_rows(net, words[a], words[b], width, form.recoding, is_negative) for a, b, is_negative in terms]
    return [row for rows, _ in found for row in rows], sum(constant for _, constant in found)


def product(widths: tuple[int, int], is_signed: bool, dropped: int = 0) -> Circuit:
    width = sum(widths)

    def build(net: Net, words: Words, form: Form) -> Outputs:
        rows, constant = products_of(net, words, [("a", "b", False)], width, form)
        return {"y": (summed(net, cut_rows(net, rows, dropped) if dropped else rows, width, form, constant), dropped)}

    inputs = tuple((name, each, is_signed) for name, each in zip("ab", widths))
    return Circuit(inputs, (("y", width - dropped, is_signed),), build, lambda rows: [Fraction(rows[-1][0] * rows[-1][1], 1 << dropped)])


def squares(names: str, width: int, is_signed: bool) -> Circuit:
    """The sum of the squares of inputs."""

    def build(net: Net, words: Words, form: Form) -> Outputs:
        rows = [row for name in names for row in square_rows(net, words[name], 2 * width, False, form.lut)]
        return {"y": (summed(net, rows, 2 * width, form), 0)}

    inputs = tuple((name, width, is_signed) for name in names)
    return Circuit(inputs, (("y", 2 * width, False),), build, lambda rows: [Fraction(sum(value * value for value in rows[-1]))])


def dot(pairs: int, width: int = 8) -> Circuit:
    names = [letter + digit for digit in "012345678"[:pairs] for letter in "gh"]
    out = 2 * width + (pairs - 1).bit_length()

    def build(net: Net, words: Words, form: Form) -> Outputs:
        rows, constant = products_of(net, words, [(a, b, False) for a, b in zip(names[::2], names[1::2])], out, form)
        return {"y": (summed(net, rows, out, form, constant), 0)}

    def exact(rows: list[list[int]]) -> list[Fraction]:
        return [Fraction(sum(a * b for a, b in zip(rows[-1][::2], rows[-1][1::2])))]

    return Circuit(tuple((name, width, False) for name in names), (("y", out, False),), build, exact)


def mac(width: int = 16) -> Circuit:
    def build(net: Net, words: Words, form: Form) -> Outputs:
        rows, constant = products_of(net, words, [("a", "b", False)], 2 * width + 1, form)
        return {"y": (summed(net, [*rows, Row(words["c"], 0)], 2 * width + 1, form, constant), 0)}

    inputs = (("a", width, False), ("b", width, False), ("c", 2 * width, False))
    return Circuit(inputs, (("y", 2 * width + 1, False),), build, lambda rows: [Fraction(rows[-1][0] * rows[-1][1] + rows[-1][2])])


def complex_product(width: int = 16, dropped: int = 16) -> Circuit:
    def build(net: Net, words: Words, form: Form) -> Outputs:
        found = {}
        for name, terms in (("y", (("a", "c", False), ("b", "d", True))), ("z", (("a", "d", False), ("b", "c", False)))):
            rows, constant = products_of(net, words, terms, 2 * width + 1, form)
            found[name] = (summed(net, cut_rows(net, rows, dropped), 2 * width + 1, form, constant), dropped)
        return found

    def exact(rows: list[list[int]]) -> list[Fraction]:
        a, b, c, d = rows[-1]
        return [Fraction(a * c - b * d, 1 << dropped), Fraction(a * d + b * c, 1 << dropped)]

    out = 2 * width + 1 - dropped
    return Circuit(tuple((name, width, True) for name in "abcd"), (("y", out, True), ("z", out, True)), build, exact)


def sum_of(count: int, width: int = 12) -> Circuit:
    names = [chr(ord("a") + at) * 2 for at in range(count)]
    out = width + (count - 1).bit_length()

    def build(net: Net, words: Words, form: Form) -> Outputs:
        return {"y": (summed(net, [Row(words[name], 0) for name in names], out, form), 0)}

    return Circuit(tuple((name, width, True) for name in names), (("y", out, True),), build, lambda rows: [Fraction(sum(rows[-1]))])


def weighted(net: Net, terms: list[tuple[Word, Fraction]], offset: Fraction, width: int, form: Form) -> tuple[Word, int]:
    """A weighted sum of inputs, less than one unit off."""
    if form.constants == "differences" and not offset and sum(factor for _, factor in terms) == 1:
        rows, places = by_differences(net, terms, form.order, form.is_cut, width)
    elif form.constants in ("graph", "differences"):
        rows, places = by_graph(net, terms, offset, form.order, form.is_cut, width)
    else:
        rows, places = by_tables(net, terms, offset, form.lut, width)
    return summed(net, rows, width + places, form), places


COLOURS = ("red", "green", "blue")
Lines = dict[str, tuple[tuple[int, int, int], int, int]]


def colours(width: int, lines: Lines, outputs: tuple[Port, ...]) -> Circuit:
    """Weighted sums of three colours: of each output the weights, the denominator and the offset."""

    def build(net: Net, words: Words, form: Form) -> Outputs:
        found = {}
        for name, each, _ in outputs:
            weights, denominator, offset = lines[name]
            terms = [(words[colour], Fraction(weight, denominator)) for colour, weight in zip(COLOURS, weights)]
            found[name] = weighted(net, terms, Fraction(offset), each, form)
        return found

    def exact(rows: list[list[int]]) -> list[Fraction]:
        return [Fraction(sum(weight * value for weight, value in zip(lines[name][0], rows[-1])), lines[name][1]) + lines[name][2]
                for name, _, _ in outputs]

    return Circuit(tuple((name, width, False) for name in COLOURS), outputs, build, exact)


def luma(width: int) -> Circuit:
    return colours(width, {"y": ((299, 587, 114), 1000, 0)}, (("y", width, False),))


def matrix() -> Circuit:
    lines = {"y": ((299000, 587000, 114000), 10**6, 0), "z": ((-168736, -331264, 500000), 10**6, 128),
             "v": ((500000, -418688, -81312), 10**6, 128)}
    return colours(8, lines, (("y", 8, False), ("z", 9, False), ("v", 9, False)))


def fir(taps: Sequence[int], width: int, dropped: int, out: int) -> Circuit:
    """A filter of signed samples, which are delayed."""

    def build(net: Net, words: Words, form: Form) -> Outputs:
        word, terms = words["x"], []
        if form.constants == "chain":
            return {"y": (chained(net, word, taps, dropped, out, form.order), 0)}
        for tap in taps:
            terms.append((word, Fraction(tap, 1 << dropped)))
            word = Word(net.delay(word.node), word.least, word.greatest)
        return {"y": weighted(net, terms, Fraction(0), out, form)}

    def exact(rows: list[list[int]]) -> list[Fraction]:
        return [Fraction(sum(tap * row[0] for tap, row in zip(taps, reversed(rows))), 1 << dropped)]

    return Circuit((("x", width, True),), (("y", out, True),), build, exact)


def lowpass(taps: int, bits: int, cut_at: float) -> list[int]:
    """The coefficients of a low pass by a Hamming window, whole numbers over 2^bits, as those of bench/area."""
    middle = (taps - 1) / 2
    wave = [cut_at if at == middle else math.sin(math.pi * cut_at * (at - middle)) / (math.pi * (at - middle)) for at in range(taps)]
    shape = [value * (0.54 - 0.46 * math.cos(2 * math.pi * at / (taps - 1))) for at, value in enumerate(wave)]
    return [round(value / sum(shape) * 2**bits) for value in shape]


CIRCUITS: dict[str, Circuit] = {
    "product8": product((8, 8), False), "product12": product((12, 12), True), "product16": product((16, 16), False, 16),
    "multiply": product((18, 18), True, 17), "product24": product((24, 24), False), "product32": product((32, 32), False),
    "square": squares("a", 16, False), "power": squares("iq", 16, True), "complex": complex_product(), "dot4": dot(4), "dot8": dot(8),
    "mac": mac(), "sum3": sum_of(3), "sum8": sum_of(8), "sum16": sum_of(16), "luma10": luma(10), "luma": luma(8), "matrix": matrix(),
    "fir": fir(lowpass(31, 15, 0.2), 12, 15, 13),
}
