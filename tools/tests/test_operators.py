"""The ports of reports hold the good outputs by exact fractions, which agree with the verdicts that cases/judged has."""
import tomllib
import unittest
from collections.abc import Sequence
from dataclasses import replace
from fractions import Fraction
from functools import cache
from typing import Any

from opgenlib import asking, drawing, exact, operators, program, rows, specification, words
from opgenlib.operators import Operator
from opgenlib.report import Port, read_report
from opgenlib.writing import document
from tests.loading import EXAMPLES, module_of
from tests.test_explain import NO_PROGRAM, PROGRAM

JUDGED = module_of(EXAMPLES.parent / ".ci/judged")
# The kinds whose outputs are no wider than their values need.
LEAST = ("scale", "fir", "tfir", "multiply", "mcm", "sop")


COMMON = {"version": 3, "name": "worked", "exact": True, "target": "plain", "period": 1000000}
QUOTIENT = COMMON | {"kind": "divide", "signed": True, "width_a": 4, "lsb_a": 0, "width_b": 3, "lsb_b": 0, "out_lsb": 0}
SCALE = COMMON | {"kind": "scale", "signed": False, "width": 4, "lsb": 0, "out_lsb": 0, "coefficients": [3]}
CONSTANTS = COMMON | {"kind": "mcm", "signed": True, "width": 4, "lsb": 0, "constants": [2049, -5, 0]}
FILTER = COMMON | {"kind": "tfir", "signed": True, "width": 4, "lsb": 0, "taps": [4, 8, -12], "extra": 0}


SUM = COMMON | {"kind": "sop", "out_lsb": 0}


def inputs(names, is_signed, width, lsb=0):
    return [{"name": name, "signed": is_signed, "width": width, "lsb": lsb} for name in names.split()]


def drawn_ends():
    """The ends of four signed bits, and what is beside them."""
    return (-8, -7, -1, 0, 1, 6, 7)


def numbers(text, ports):
    return tuple(rows.unit_count(int(word, 16), port) for word, port in zip(text.split(), ports, strict=True))


@cache
def asked(text: str) -> tuple[Port, ...]:
    """The ports of a document, by the program's report."""
    return program.ports_by(program.program_of(PROGRAM), tomllib.loads(text))


def ports_of(spec: dict[str, Any]) -> tuple[Port, ...]:
    return asked(document(spec))


def operator_of(spec: dict[str, Any]) -> Operator:
    return operators.operator_of(spec, ports_of(spec))


def fits(port: Port, number: int) -> bool:
    return port.least <= number <= port.greatest


def good_at_ends(operator: Operator) -> list[Sequence[Sequence[int]]]:
    """The good outputs for each row of inputs at the ends of their ranges of which something is claimed."""
    entered = list(drawing.end_rows(operator))
    found = (operator.good(entered, at) for at in range(len(entered)))
    return [good for good in found if good is not None]


class Held(unittest.TestCase):
    """Whether ports hold the exact values of their operator, by its values at the ends of its inputs' ranges."""

    def check_held(self, operator: Operator) -> None:
        """Each row has good outputs that the ports hold."""
        for good in good_at_ends(operator):
            self.assertTrue(any(all(map(fits, operator.outputs, numbers)) for numbers in good), operator.spec)

    def check_least(self, operator: Operator) -> None:
        """The ports hold all good outputs, and with a bit less or another sign they would not."""
        good = [numbers for row in good_at_ends(operator) for numbers in row]
        for port, column in zip(operator.outputs, zip(*good), strict=True):
            self.assertTrue(all(fits(port, number) for number in column), operator.spec)
            self.assertEqual(port.is_signed, min(column) < 0, operator.spec)
            narrower = replace(port, width=port.width - 1)
            if narrower.width > port.is_signed:
                self.assertFalse(all(fits(narrower, number) for number in column), operator.spec)

    def ports(self, spec: dict[str, Any]) -> tuple[Port, ...]:
        """The ports of a specification, which have to hold its values."""
        operator = operator_of(spec)
        self.check_held(operator)
        if spec["kind"] in LEAST and "out_width" not in spec:
            self.check_least(operator)
        return operator.ports


@unittest.skipUnless(PROGRAM.exists(), NO_PROGRAM)
class Ports(Held):
    def test_examples(self):
        """Whatever target and period are, the ports are those of the report."""
        for path in sorted(EXAMPLES.glob("*.rpt")):
            spec = specification.load(path.with_suffix(".toml")).table
            self.assertEqual(self.ports(spec), read_report(path).ports, path.name)

    def test_a_constant_of_nothing(self):
        """A sum that is always 0 has one bit, and one that is below 0 two or more."""
        spec = specification.load(EXAMPLES / "times3.toml").table
        for coefficient, is_signed, width in ((0, False, 1), (-1, True, 5), (3, False, 6)):
            y = self.ports(spec | {"coefficients": [coefficient]})[-1]
            self.assertEqual((y.is_signed, y.width), (is_signed, width))

    def test_a_polynomial(self):
        """The numbers of docs/SPECIFICATION.md: 1/2 x + 1/2 x^2 with out_lsb -2 has three bits."""
        spec = {"version": 2, "name": "half", "kind": "poly", "exact": False, "target": "plain", "period": 1000, "width": 4,
                "out_lsb": -2, "coefficients": [0, 1, 1], "denominator": 2}
        y = self.ports(spec)[-1]
        self.assertEqual((y.is_signed, y.width), (False, 3))
        # At 15/16 it is 465/512, in quarters 465/128: below 4, and above 3, which two bits would hold.
        self.assertEqual(operator_of(spec).exact([(15,)], 0), [Fraction(465, 128)])

    def test_signed_quotients(self):
        """The quotient has a bit more, since -8 by -1 is 8, and one for each place of the shift; the remainder is as wide as the divisor."""
        for shift in (0, 2):
            _, _, q, r = self.ports(QUOTIENT | {"out_lsb": -shift})
            self.assertEqual([(q.is_signed, q.width, q.lsb), (r.is_signed, r.width, r.lsb)], [(True, 5 + shift, -shift), (True, 3, -shift)])
        self.assertEqual(len(self.ports(QUOTIENT | {"exact": False})), 3)

    def test_sums(self):
        """Ranges of terms add up; those of a square begin at 0."""
        pairs = {"real": [{"a": "a", "b": "c"}, {"a": "b", "b": "d", "negative": True}], "imaginary": [{"a": "a", "b": "d"}, {"a": "b", "b": "c"}]}
        spec = SUM | {"input": inputs("a b c d", True, 4)}
        for part, width in (("real", 8), ("imaginary", 9)):
            y = self.ports(spec | {"product": pairs[part]})[-1]
            self.assertEqual((y.is_signed, y.width), (True, width))
        square = SUM | {"out_lsb": -6, "offset": -1, "input": inputs("v", True, 4, -3), "product": [{"a": "v", "b": "v"}]}
        self.assertEqual([(port.name, port.width, port.is_signed) for port in self.ports(square)], [("v", 4, True), ("y", 7, True)])
        y = self.ports(square | {"offset": -64, "out_lsb": 0, "exact": False})[-1]
        self.assertEqual((y.is_signed, y.width), (True, 7))
        y = self.ports(square | {"offset": 1})[-1]
        self.assertEqual((y.is_signed, y.width), (False, 8))

    def test_ends_of_many_inputs(self):
        """All combinations of the ends of four inputs, and of sixteen all pairs, with the others at the ends of their ranges."""
        for names, count in (("a b c d", 7**4), (" ".join(f"p{at}" for at in range(16)), 2 * 120 * 7**2)):
            first, *others = inputs(names, True, 4)
            spec = SUM | {"input": [first, *others], "product": [{"a": first["name"], "b": others[-1]["name"]}]}
            found = list(drawing.end_rows(operator_of(spec)))
            self.assertEqual(len(found), count)
            self.assertEqual({(row[0], row[-1]) for row in found}, {(left, right) for left in drawn_ends() for right in drawn_ends()})

    def test_rows_of_sums(self):
        """Rows that were worked out by hand."""
        real = SUM | {"input": inputs("a b c d", True, 4), "product": [{"a": "a", "b": "c"}, {"a": "b", "b": "d", "negative": True}]}
        luma = SUM | {"exact": False, "denominator": 1000, "input": inputs("red green blue", False, 8)}
        luma |= {"scaled": [{"input": name, "coefficient": c} for name, c in (("red", 299), ("green", 587), ("blue", 114))]}
        square = SUM | {"out_lsb": -6, "offset": -1, "input": inputs("v", True, 4, -3), "product": [{"a": "v", "b": "v"}]}
        for spec, entered, good in ((real, "8 7 7 7", ["97"]), (real, "8 8 8 7", ["78"]), (real, "1 2 3 4", ["fb"]), (luma, "ff ff ff", ["ff"]),
                                    (luma, "ff 00 00", ["4c", "4d"]), (luma, "01 02 03", ["01", "02"]), (square, "8", ["00"]), (square, "4", ["50"])):
            operator = operator_of(spec)
            found = operator.good([numbers(entered, operator.inputs)], 0)
            self.assertEqual([rows.row_text([rows.word_in(one[0], operator.outputs[0])], [operator.outputs[0].width]) for one in found], good)
        with self.assertRaises(asking.NoPorts):
            operator_of(real | {"product": [{"a": "a", "b": "e"}]})
        self.assertEqual(words.formula(real), "y = a * c - b * d")
        self.assertEqual(words.formula(square), "y = v * v - 1")
        self.assertEqual(words.formula(luma), "y = 299/1000 * red + 587/1000 * green + 114/1000 * blue")

    def test_chosen_widths(self):
        """The sign is that of the output without the key, if no other is asked for."""
        for more, sign, width in (({}, False, 6), ({"out_width": 4}, False, 4), ({"out_width": 4, "out_signed": True}, True, 4),
                                  ({"out_width": 96, "signed": True}, True, 96),
                                  ({"out_width": 2, "signed": True, "out_signed": False}, False, 2)):
            y = self.ports(SCALE | more)[-1]
            self.assertEqual((y.is_signed, y.width, y.lsb), (sign, width, 0))

    def test_cut_filters(self):
        """Each place that is cut is a bit less; values are rounded to the side away from 0."""
        for out_lsb, width in ((0, 9), (1, 8), (2, 7), (3, 6), (7, 3)):
            y = self.ports(FILTER | {"out_lsb": out_lsb, "exact": False})[-1]
            self.assertEqual((y.is_signed, y.width, y.lsb), (True, width, out_lsb))
        self.assertEqual(self.ports(FILTER)[-1].lsb, 0)

    def test_without_a_search(self):
        """Without `extra` there are more numbers, and larger ones; the widest outputs have 69 and 77 bits."""
        self.assertEqual([(y.is_signed, y.width) for y in self.ports(CONSTANTS)[1:]], [(True, 16), (True, 7), (False, 1)])
        widest = {"signed": False, "width": 48}
        self.assertEqual(self.ports(CONSTANTS | widest | {"constants": [-1048575]})[-1].width, 69)
        many = {key: value for key, value in FILTER.items() if key != "extra"} | widest | {"taps": [-1048575] * 256}
        self.assertEqual(self.ports(many)[-1].width, 77)

    def test_refusals(self):
        without = {key: value for key, value in FILTER.items() if key != "extra"}
        for spec in ({"version": 1}, CONSTANTS | {"extra": 0}, CONSTANTS | {"constants": [1048576]}, CONSTANTS | {"version": 2},
                     without | {"taps": [1] * 257}, FILTER | {"taps": [1] * 33}, without | {"taps": [-1048576]}, without | {"version": 2}):
            with self.assertRaises(asking.NoPorts):
                operator_of(spec)


@unittest.skipUnless(PROGRAM.exists(), NO_PROGRAM)
class Worked(unittest.TestCase):
    """Rows that were worked out by hand."""

    def check(self, spec, rows_of):
        operator = operator_of(spec)
        for row in rows_of:
            entered, outs = row.split(" : ")
            good = operator.good([numbers(entered, operator.inputs)], 0)
            self.assertEqual(good, [numbers(one, operator.outputs) for one in outs.split(" or ")], row)

    def test_signed_quotients(self):
        self.check(QUOTIENT, ("9 2 : 1d 7", "7 6 : 1d 1", "8 7 : 08 0", "8 3 : 1e 6", "5 4 : 1f 1", "f 3 : 00 7"))
        self.check(QUOTIENT | {"exact": False}, ("9 2 : 1c or 1d", "8 7 : 08", "f 3 : 1f or 00"))
        self.assertIsNone(operator_of(QUOTIENT).good([(-8, 0)], 0))

    def test_constants_without_a_search(self):
        self.check(CONSTANTS, ("1 : 0801 7b 0", "8 : bff8 28 0"))

    def test_saturation(self):
        self.check(SCALE | {"out_width": 4}, ("1 : 3", "5 : f", "6 : f", "f : f"))
        self.check(SCALE | {"out_width": 8}, ("f : 2d",))
        self.check(SCALE | {"out_width": 4, "signed": True}, ("8 : 8", "d : 8", "e : a", "2 : 6", "3 : 7", "7 : 7"))
        self.check(SCALE | {"out_width": 4, "out_signed": True}, ("2 : 6", "3 : 7", "f : 7"))
        self.check(SCALE | {"out_width": 4, "signed": True, "out_signed": False}, ("8 : 0", "f : 0", "2 : 6", "5 : f", "7 : f"))

    def test_faithful_saturation(self):
        """15/4 is cut to 3, the greatest number of three signed bits, and 30/4 to 7, that of three unsigned ones."""
        spec = SCALE | {"exact": False, "denominator": 4, "out_width": 3}
        self.check(spec | {"out_signed": True}, ("3 : 2 or 3", "5 : 3", "f : 3"))
        self.check(spec, ("3 : 2 or 3", "5 : 3 or 4", "9 : 6 or 7", "a : 7", "f : 7"))

    def test_wrapping(self):
        """3 x modulo 16; 21/8 x modulo 8, where 63/8 may be 7 or 8, which is 0, and 21 is 5."""
        scale = SCALE | {"version": 4, "compressor": "dadda", "overflow": "wrap", "out_width": 4}
        self.check(scale, ("5 : f", "6 : 2", "f : d"))
        self.check(scale | {"signed": True}, ("8 : 8", "d : 7", "3 : 9"))
        self.check(scale | {"signed": True, "out_signed": False}, ("f : d", "8 : 8"))
        self.check(scale | {"out_width": 8, "signed": True, "out_signed": False}, ("f : fd", "7 : 15"))
        self.check(scale | {"exact": False, "coefficients": [21], "denominator": 8, "out_width": 3}, ("3 : 0 or 7", "1 : 2 or 3", "8 : 5"))
        self.assertEqual(exact.error_of(scale, 0, Fraction(63, 4)), Fraction(1, 4))
        self.assertEqual(exact.error_of(scale, 3, Fraction(5, 2)), Fraction(1, 2))
        self.assertEqual(exact.error_of(SCALE, 0, Fraction(63, 4)), Fraction(-63, 4))

    def check_in_turn(self, spec, rows_of):
        """The rows of successive cycles, the first of them cycle 0."""
        operator = operator_of(spec)
        parts = [row.split(" : ") for row in rows_of]
        inputs = [numbers(entered, operator.inputs) for entered, _ in parts]
        for at, (_, outs) in enumerate(parts):
            self.assertEqual(operator.good(inputs, at), [numbers(one, operator.outputs) for one in outs.split(" or ")], rows_of[at])

    def test_cut_filters(self):
        """Of taps 1, 2, -3 and inputs 1, -1, 7, 0 a quarter of the sum is 1/4, 1/4, 1/2 and 17/4."""
        cut = FILTER | {"out_lsb": 2}
        self.check_in_turn(cut, ("1 : 01", "f : 01", "7 : 02", "0 : 11"))
        self.check_in_turn(cut | {"exact": False}, ("1 : 01", "f : 01", "7 : 02", "0 : 11"))
        faithful = cut | {"exact": False, "taps": [1, 2, -3]}
        self.check_in_turn(faithful, ("1 : 00 or 01", "f : 00 or 01", "7 : 00 or 01", "0 : 04 or 05"))
        self.check_in_turn(faithful | {"out_width": 3}, ("1 : 0 or 1", "f : 0 or 1", "7 : 0 or 1", "0 : 3"))
        self.assertFalse(operator_of(faithful).is_exact)
        self.assertTrue(operator_of(faithful | {"out_lsb": 0}).is_exact)

    def test_draws(self):
        """A divisor that is drawn as 0 becomes 1, and the ends of a signed one are those of its range and those about 0."""
        operator = operator_of(QUOTIENT)
        self.assertEqual(drawing.ends_of(operator, operator.inputs[1]), [-4, -3, -2, -1, 1, 2, 3])
        self.assertEqual(drawing.ends_of(operator, operator.inputs[0]), [-8, -7, -1, 0, 1, 6, 7])
        self.assertEqual({row[1] for row in drawing.drawn_rows(operator, 1, 500)}, {-4, -3, -2, -1, 1, 2, 3})

    def test_words(self):
        self.assertEqual(words.formula(QUOTIENT), "q = a / b, rounded towards 0, and r = a - q b; b must not be 0")
        self.assertEqual(words.formula(QUOTIENT | {"signed": False, "exact": False}), "q = a / b; b must not be 0")
        self.assertEqual(words.formula(SCALE | {"out_width": 4}), "y = x * 3, saturated to 4 bits")
        self.assertEqual(words.formula(SCALE | {"out_width": 4, "overflow": "wrap"}), "y = x * 3, wrapped to 4 bits")
        self.assertEqual(words.formula(FILTER), "y(t) = c0 x(t) + .. + c2 x(t - 2), c0 to c2 the taps below")
        self.assertEqual(words.formula(FILTER | {"taps": [5]}), "y = x * 5")


@unittest.skipUnless(PROGRAM.exists(), NO_PROGRAM)
class Good(Held):
    def test_ports(self):
        """The ports of each specification there, which are at the limits of all versions, hold its good outputs."""
        for group in JUDGED.groups_of(JUDGED.TABLE):
            self.ports(tomllib.loads(group.document))

    def test_judged(self):
        """Each line of cases/judged/rows.txt."""
        lines = 0
        for group in JUDGED.groups_of(JUDGED.TABLE):
            operator = operator_of(tomllib.loads(group.document))
            for line in group.lines:
                entered = [(numbers(row, operator.inputs), ()) for row in line.rows]
                entered[-1] = (entered[-1][0], numbers(" ".join(line.outputs), operator.outputs))
                is_bad = len(entered) - 1 in operator.bad_rows(entered, 0)
                self.assertEqual(not is_bad, line.is_good, f"{group.name}, line {line.number}")
                lines += 1
        self.assertGreater(lines, 500)

    def test_exact_values(self):
        """A good output is less than one from the exact value, of one that wraps by a turn, in each line of cases/judged/rows.txt."""
        for group in JUDGED.groups_of(JUDGED.TABLE):
            operator = operator_of(tomllib.loads(group.document))
            for line in group.lines:
                entered = [numbers(row, operator.inputs) for row in line.rows]
                for good in operator.good(entered, len(entered) - 1) or []:
                    for one, value in zip(good, operator.exact(entered, len(entered) - 1), strict=True):
                        self.assertLess(abs(exact.error_of(operator.spec, one, value)), Fraction(1))


if __name__ == "__main__":
    unittest.main()
