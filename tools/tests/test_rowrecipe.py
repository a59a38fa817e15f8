"""The model of circuits as rows: what its nets compute, how deep they are, and that no node is what its class is not."""
import unittest
from fractions import Fraction

from tests import loading

BENCH = loading.tool_of("../bench/rows")
from rowrecipe import adding, checking, circuits, cost, digits, net, scaled, words  # noqa: E402

Form = circuits.Form


def all_good(circuit: "circuits.Circuit", form: Form, is_exact: bool) -> str:
    return checking.fault(circuit, circuits.net_of(circuit, form), checking.all_inputs(circuit), is_exact)


class Products(unittest.TestCase):
    def test_all_inputs(self):
        """Products of two widths, with signs and without, in both recodings."""
        for widths in ((3, 4), (5, 3), (1, 2)):
            for is_signed in (False, True):
                for recoding in ("booth", "offset"):
                    with self.subTest(widths=widths, is_signed=is_signed, recoding=recoding):
                        self.assertEqual(all_good(circuits.product(widths, is_signed), Form(recoding), True), "")

    def test_cut(self):
        """A product without its lowest places is less than one unit off."""
        for widths, is_signed in (((4, 4), True), ((4, 4), False), ((5, 3), True)):
            for dropped in (1, 3, 4):
                with self.subTest(widths=widths, is_signed=is_signed, dropped=dropped):
                    self.assertEqual(all_good(circuits.product(widths, is_signed, dropped), Form(), False), "")

    def test_negative(self):
        """A product that is taken off, beside one that is added."""
        self.assertEqual(all_good(circuits.complex_product(2, 1), Form(), False), "")

    def test_squares(self):
        for is_signed in (False, True):
            for lut in (4, 6):
                self.assertEqual(all_good(circuits.squares("a", 7, is_signed), Form(lut=lut), True), "")

    def test_with_a_number(self):
        self.assertEqual(all_good(circuits.mac(3), Form(), True), "")


class Sums(unittest.TestCase):
    def test_depth(self):
        """Each order but a line is no deeper than a balanced tree."""
        for order in ("halves", "even", "neighbours", "cheapest"):
            for count in (3, 5, 9, 12):
                made = circuits.net_of(circuits.sum_of(count, 2), Form(order=order))
                self.assertLessEqual(made.sums, adding.depth_of(count), (order, count))

    def test_rows_taken_off(self):
        """Rows at several columns, with signs and without, some of them taken off."""
        for signs in range(8):
            made = net.Net()
            rows, values = [], []
            for at, (width, column, is_signed) in enumerate(((3, 0, False), (2, 1, True), (2, 2, False))):
                word = words.input_word(made, f"x{at}", width, is_signed)
                rows.append(adding.Row(word, column, None, bool(signs >> at & 1)))
                values.append((width, column, is_signed))
            made.output("y", made.wire(words.cut(adding.total(made, rows, 8, "halves"), 0, 8)))
            machine = net.Machine(made)
            for number in range(128):
                entered = [number & 7, number >> 3 & 3, number >> 5]
                wanted = sum((-1 if signs >> at & 1 else 1) * checking.signed(word, width, is_signed) << column
                             for at, (word, (width, column, is_signed)) in enumerate(zip(entered, values)))
                self.assertEqual(machine.run(entered), (wanted & 255,), (signs, entered))

    def test_a_whole_sum_is_not_read_as_such(self):
        """Of a sum that the next one would read as a whole, the lowest bits are exchanged."""
        made = net.Net()
        rows = [adding.Row(words.input_word(made, name, 4, False), 0) for name in "abcd"]
        made.output("y", adding.total(made, rows, 6, "halves").node)
        last = made.nodes[-1].tree[2]
        self.assertFalse(any(adding.is_joined(made, operand) for operand in last))


class Constants(unittest.TestCase):
    def test_weights(self):
        """Weighted sums by tables, on a graph and by differences are less than one unit off."""
        made = circuits.colours(3, {"y": ((3, 5, 2), 10, 0), "z": ((-3, 9, 4), 7, 2)}, (("y", 3, False), ("z", 5, True)))
        for form in (Form(), Form(lut=4), Form(constants="graph"), Form(constants="graph", is_cut=True), Form(constants="differences", is_cut=True)):
            with self.subTest(form=form):
                self.assertEqual(all_good(made, form, False), "")

    def test_filter(self):
        """A filter by tables, on a graph and as a chain of registers, from its first cycle on."""
        made = circuits.fir([-1, 3, 6, 3, -1], 4, 2, 6)
        for constants in ("tables", "graph", "chain"):
            found = checking.fault(made, circuits.net_of(made, Form(constants=constants)), checking.drawn_inputs(made, 60), False)
            self.assertEqual(found, "", constants)

    def test_rounded_with_its_sum(self):
        one = words.Word(0, 0, 255)
        found = scaled.rounded([(one, Fraction(299, 1000)), (one, Fraction(587, 1000)), (one, Fraction(114, 1000))], True)
        self.assertEqual(sum(found.factors), 1 << found.places)


class Nodes(unittest.TestCase):
    def test_classes(self):
        """Logic of seven bits and a sum of logic are refused; a digit's bit reads at most five bits."""
        made = net.Net()
        node = made.input("a", 8)
        bits = [words.bit(node, at) for at in range(7)]
        self.assertRaises(AssertionError, made.logic, ("chain", "and", bits))
        self.assertRaises(AssertionError, made.sum_of, ("not", bits[0]), bits[1])
        word = words.Word(node, 0, 255)
        digits.product_rows(made, word, word, 16)
        for each in made.nodes:
            if each.kind == "logic":
                self.assertTrue(all(len(bits) <= 5 for bits in net.reads(each.tree, made.width)))
            elif each.kind == "table":
                self.assertLessEqual(len(each.rows), 32)

    def test_cost(self):
        """A sum of two words of three bits is a cell for each place."""
        made = circuits.net_of(circuits.sum_of(2, 3), Form())
        self.assertEqual([count(made) for count in cost.COSTS.values()], [4, 4, 4])


if __name__ == "__main__":
    unittest.main()
