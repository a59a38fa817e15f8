"""The circuits for which texts by hand use carry chains: products, sums, colours, quotients and filters."""
from collections.abc import Callable
from fractions import Fraction

from . import filters, products, quotients, sums
from .case import COUNTERS, Case, module
from .rows import RECODINGS
from .writer import Text, named_ports

SUM = 'kind = "sop"\nexact = {exact}\nout_lsb = {out_lsb}\n'
# The forms of rows: the recoding, and the order of sums.
WAYS = ("line", "tree")
FORMS = [(recoding, order) for recoding in RECODINGS for order in WAYS]


def table_of(name: str, rows: list[dict[str, object]]) -> str:
    """An array of tables of a document, each on a line."""
    lines = [", ".join(f"{key} = {str(value).lower() if isinstance(value, bool) else repr(value)}" for key, value in row.items()) for row in rows]
    return f"{name} = [{', '.join(f'{{{line}}}' for line in lines)}]\n".replace("'", '"')


def inputs_of(names: list[str], is_signed: bool, widths: list[int]) -> str:
    return table_of("input", [{"name": name, "signed": is_signed, "width": width, "lsb": 0} for name, width in zip(names, widths)])


def by_rows(build: Callable[[str, str], Text], are_several: bool = False) -> tuple[dict[str, str], dict[str, int]]:
    """A text of each form of rows, of several products also each in a line, and how many sums of each are in series."""
    hands, series = {}, {}
    for recoding, order in FORMS + [(recoding, "lines") for recoding in RECODINGS if are_several]:
        text = build(recoding, order)
        label = f"by hand, {recoding} digits, in {'lines and a tree' if order == 'lines' else f'a {order}'}"
        hands[label], series[label] = text.written(), text.most_sums
    return hands, series


def product_case(name: str, widths: tuple[int, int], is_signed: bool, dropped: int = 0) -> Case:
    """A product, exact, or without so many places."""
    a_width, b_width = widths
    out = a_width + b_width - dropped

    def build(recoding: str, order: str) -> Text:
        text = Text(f"input [{a_width - 1}:0] a, input [{b_width - 1}:0] b")
        a, b = (text.input(port, width, is_signed) for port, width in zip("ab", widths))
        rows = products.product_rows(text, a, b, recoding, False)
        summed = products.cut_sum(text, rows, order, a_width + b_width, dropped) if dropped else products.summed(text, rows, order, out)
        text.output("y", out, summed, dropped)
        return text

    def good(entered: list[list[int]], left: list[int]) -> bool:
        return abs(left[0] - Fraction(entered[-1][0] * entered[-1][1], 1 << dropped)) < (1 if dropped else Fraction(1, 1 << 99))

    sign = "signed " if is_signed else ""
    hands, series = by_rows(build)
    body = f"  wire {sign}[{a_width + b_width - 1}:0] p = a * b;\n  assign y = p[{a_width + b_width - 1}:{dropped}];\n"
    hands["by hand, `a * b`"] = module(f"input {sign}[{a_width - 1}:0] a, input {sign}[{b_width - 1}:0] b, output [{out - 1}:0] y", body)
    keys = f'kind = "multiply"\nexact = {"false" if dropped else "true"}\nsigned = {str(is_signed).lower()}\n'
    keys += f"width_a = {a_width}\nlsb_a = 0\nwidth_b = {b_width}\nlsb_b = 0\nout_lsb = {dropped}\n"
    words = f"{a_width} by {b_width} {sign}bits" + (f", cut to {out}" if dropped else ", exact")
    return Case(name, words, keys, hands, good, {"`multiply`, counters": keys + COUNTERS}, sums=series)


def square_case() -> Case:
    """A number of 16 bits times itself."""

    def folded(order: str) -> Text:
        text = Text("input [15:0] a")
        text.output("y", 32, products.summed(text, products.square_rows(text, text.input("a", 16, False)), order, 32))
        return text

    texts = {f"by hand, each pair of digits once, in a {order}": folded(order) for order in WAYS}
    hands = {label: text.written() for label, text in texts.items()}
    hands["by hand, `a * a`"] = module("input [15:0] a, output [31:0] y", "  assign y = a * a;\n")
    keys = SUM.format(exact="true", out_lsb=0) + inputs_of(["a"], False, [16]) + table_of("product", [{"a": "a", "b": "a"}])
    return Case("square", "square of 16 bits, exact", keys, hands, lambda entered, left: left[0] == entered[-1][0] ** 2,
                {"`sop`, counters": keys + COUNTERS}, sums={label: text.most_sums for label, text in texts.items()})


def dot_case(pairs: int) -> Case:
    """A sum of products of 8 bits."""
    names = [letter + digit for digit in "012345678"[:pairs] for letter in "gh"]
    out = 16 + (pairs - 1).bit_length()

    def build(recoding: str, order: str) -> Text:
        text = Text(named_ports(" ".join(names), 8))
        words = [text.input(name, 8, False) for name in names]
        rows = [row for a, b in zip(words[::2], words[1::2]) for row in products.product_rows(text, a, b, recoding, False)]
        text.output("y", out, products.summed(text, rows, order, out))
        return text

    def good(entered: list[list[int]], left: list[int]) -> bool:
        return left[0] == sum(a * b for a, b in zip(entered[-1][::2], entered[-1][1::2]))

    hands, series = by_rows(build, True)
    terms = " + ".join(f"{a} * {b}" for a, b in zip(names[::2], names[1::2]))
    hands["by hand, `*`"] = module(f"{named_ports(' '.join(names), 8)}, output [{out - 1}:0] y", f"  assign y = {terms};\n")
    keys = SUM.format(exact="true", out_lsb=0) + inputs_of(names, False, [8] * len(names))
    keys += table_of("product", [{"a": a, "b": b} for a, b in zip(names[::2], names[1::2])])
    return Case(f"dot{pairs}", f"dot product of {pairs} pairs of 8 bits, exact", keys, hands, good, {"`sop`, counters": keys + COUNTERS}, sums=series)


def mac_case() -> Case:
    """A product and a number."""

    def build(recoding: str, order: str) -> Text:
        text = Text("input [15:0] a, input [15:0] b, input [31:0] c")
        a, b, c = (text.input(name, width, False) for name, width in zip("abc", (16, 16, 32)))
        total = products.summed(text, products.product_rows(text, a, b, recoding, False), order, 32)
        text.output("y", 33, text.add(text.put(f"$signed({{1'b0, {total.name}[31:0]}})", 0, (1 << 32) - 1, total.sums), c))
        return text

    hands, series = by_rows(build)
    ports = "input [15:0] a, input [15:0] b, input [31:0] c, output [32:0] y"
    hands["by hand, `a * b + c`"] = module(ports, "  assign y = a * b + c;\n")
    keys = SUM.format(exact="true", out_lsb=0) + inputs_of(["a", "b", "c"], False, [16, 16, 32])
    keys += table_of("scaled", [{"input": "c", "coefficient": 1}]) + table_of("product", [{"a": "a", "b": "b"}])

    def good(entered: list[list[int]], left: list[int]) -> bool:
        a, b, c = entered[-1]
        return left[0] == a * b + c

    return Case("mac", "16 by 16 plus 32 bits, exact", keys, hands, good, {"`sop`, counters": keys + COUNTERS}, sums=series)


def sum_case(count: int) -> Case:
    """A sum of signed inputs."""
    names = [chr(ord("a") + at) * 2 for at in range(count)]
    out = 12 + (count - 1).bit_length()
    texts = {"by hand, a tree": sums.sum_of_inputs(count, 12, out), "by hand, in a line": sums.sum_in_line(count, 12, out)}
    hands = {label: text.written() for label, text in texts.items()}
    hands["by hand, `+`"] = module(f"{named_ports(' '.join(names), 12, True)}, output [{out - 1}:0] y", f"  assign y = {' + '.join(names)};\n")
    keys = SUM.format(exact="true", out_lsb=0) + inputs_of(names, True, [12] * count)
    keys += table_of("scaled", [{"input": name, "coefficient": 1} for name in names])
    return Case(f"sum{count}", f"sum of {count} inputs of 12 bits, exact", keys, hands, lambda entered, left: left[0] == sum(entered[-1]),
                {"`sop`, counters": keys + COUNTERS}, sums={label: text.most_sums for label, text in texts.items()})


COLOURS = "red green blue"
LUMA10 = """  wire [20:0] sum = 306 * red + 601 * green + 117 * blue + 512;
  assign y = sum[19:10];
"""
MATRIX = """  wire [18:0] sum = 306 * red + 601 * green + 117 * blue + 512;
  wire signed [19:0] cb = 512 * $signed({1'b0, blue}) - 173 * $signed({1'b0, red}) - 339 * $signed({1'b0, green}) + 131584;
  wire signed [19:0] cr = 512 * $signed({1'b0, red}) - 429 * $signed({1'b0, green}) - 83 * $signed({1'b0, blue}) + 131584;
  assign y = sum[17:10];
  assign z = cb[18:10];
  assign v = cr[18:10];
"""


def weights_of(weights: tuple[int, int, int], denominator: int, offset: int, width: int) -> str:
    """The keys of a weighted sum of three colours."""
    names = COLOURS.split()
    keys = SUM.format(exact="false", out_lsb=0) + f"denominator = {denominator}\n" + (f"offset = {offset}\n" if offset else "")
    scaled = [{"input": name, "coefficient": weight} for name, weight in zip(names, weights)]
    return keys + inputs_of(names, False, [width] * 3) + table_of("scaled", scaled)


def luma10_case() -> Case:
    def good(entered: list[list[int]], left: list[int]) -> bool:
        return abs(left[0] - Fraction(sum(weight * colour for weight, colour in zip((299, 587, 114), entered[-1])), 1000)) < 1

    text = sums.luma(10)
    label = "by hand, differences"
    hands = {label: text.written(), "by hand, over 1024, `*`": module(f"{named_ports(COLOURS, 10)}, output [9:0] y", LUMA10)}
    keys = weights_of((299, 587, 114), 1000, 0, 10)
    return Case("luma10", "brightness of three 10-bit colours", keys, hands, good, {"`sop`, counters": keys + COUNTERS}, sums={label: text.most_sums})


def matrix_case() -> Case:
    """Three colours to luma and two differences."""
    lines = ((299000, 587000, 114000), (-168736, -331264, 500000), (500000, -418688, -81312))

    def good(entered: list[list[int]], left: list[int]) -> bool:
        exact = [Fraction(sum(weight * colour for weight, colour in zip(line, entered[-1])), 10**6) for line in lines]
        return all(abs(found - value - half) < 1 for found, value, half in zip(left, exact, (0, 128, 128)))

    text = sums.matrix(8)
    label = "by hand, differences"
    ports = f"{named_ports(COLOURS, 8)}, output [7:0] y, output [8:0] z, output [8:0] v"
    hands = {label: text.written(), "by hand, over 1024, `*`": module(ports, MATRIX)}
    first, *beside = (weights_of(line, 10**6, half * 10**6, 8) for line, half in zip(lines, (0, 128, 128)))
    return Case("matrix", "a matrix of three 8-bit colours", first, hands, good, {}, tuple(beside), {label: text.most_sums})


def quotient_case(number: int, width: int) -> Case:
    texts = {"by hand, adds or subtracts": quotients.nonrestoring(number, width)}
    texts["by hand, subtracts and chooses"] = quotients.restoring(number, width)
    keys = f'kind = "divide"\nexact = true\nwidth_a = {number}\nlsb_a = 0\nwidth_b = {width}\nlsb_b = 0\nout_lsb = 0\n'
    return Case(f"quotient{number}", f"{number} by {width} bits, exact", keys, {label: text.written() for label, text in texts.items()},
                lambda entered, left: tuple(left) == divmod(*entered[-1]), sums={label: text.most_sums for label, text in texts.items()})


def signed_quotient_case() -> Case:
    def good(entered: list[list[int]], left: list[int]) -> bool:
        a, b = entered[-1]
        size = abs(a) // abs(b)
        digits = size if (a < 0) == (b < 0) else -size
        return left == [digits, a - digits * b]

    text = quotients.signed_nonrestoring(16, 12)
    label = "by hand, adds or subtracts between sizes"
    keys = 'kind = "divide"\nexact = true\nsigned = true\nwidth_a = 16\nlsb_a = 0\nwidth_b = 12\nlsb_b = 0\nout_lsb = 0\n'
    return Case("quotient_signed", "16 by 12 signed bits, exact", keys, {label: text.written()}, good, sums={label: text.most_sums})


def reciprocal_case() -> Case:
    """One, or nothing, by 12 bits, with 16 places below."""
    texts = {"by hand, adds or subtracts": quotients.faithful(1, 12, 16), "by hand, subtracts and chooses": quotients.restoring(1, 12, 16, True)}
    keys = 'kind = "divide"\nexact = false\nwidth_a = 1\nlsb_a = 0\nwidth_b = 12\nlsb_b = 0\nout_lsb = -16\n'
    return Case("reciprocal", "1 by 12 bits, 16 places", keys, {label: text.written() for label, text in texts.items()},
                lambda entered, left: abs(left[0] - Fraction(entered[-1][0] << 16, entered[-1][1])) < 1,
                sums={label: text.most_sums for label, text in texts.items()})


def complex_hand(width: int, dropped: int) -> tuple[dict[str, str], dict[str, int]]:
    """Both parts of a complex product, as `y` and `z`, without so many places."""

    def build(recoding: str, order: str) -> Text:
        text = Text(named_ports("a b c d", width))
        a, b, c, d = (text.input(name, width, True) for name in "abcd")
        for name, terms in (("y", ((a, c, False), (b, d, True))), ("z", ((a, d, False), (b, c, False)))):
            rows = [row for first, second, is_negative in terms for row in products.product_rows(text, first, second, recoding, False, is_negative)]
            text.output(name, 2 * width + 1 - dropped, products.cut_sum(text, rows, order, 2 * width + 1, dropped), dropped)
        return text

    return by_rows(build, True)


def power_hand(width: int) -> tuple[dict[str, str], dict[str, int]]:
    """The squared magnitude of two signed numbers, exact."""
    hands, series = {}, {}
    for order in WAYS:
        text = Text(named_ports("i q", width))
        rows = [row for name in "iq" for row in products.square_rows(text, text.input(name, width, True))]
        text.output("y", 2 * width, products.summed(text, rows, order, 2 * width))
        label = f"by hand, each pair of digits once, in a {order}"
        hands[label], series[label] = text.written(), text.most_sums
    return hands, series


def filter_hand(taps: list[int], width: int, dropped: int, out: int) -> tuple[dict[str, str], dict[str, int]]:
    text = filters.transposed(taps, width, dropped, out)
    label = "by hand, transposed, cut before the chain" if dropped else "by hand, transposed, each product once"
    return {label: text.written()}, {label: text.most_sums}


def cases() -> list[Case]:
    """The circuits but filters."""
    made = [product_case("product8", (8, 8), False), product_case("product12", (12, 12), True), product_case("product16", (16, 16), False, 16)]
    made += [product_case("product24", (24, 24), False), product_case("product32", (32, 32), False)]
    made += [square_case(), dot_case(4), dot_case(8), mac_case(), *(sum_case(count) for count in (3, 8, 16)), luma10_case(), matrix_case()]
    return [*made, quotient_case(24, 12), reciprocal_case()]
