"""Pictures of long runs, of many stages and of many cells; graphs as DOT; refusals."""
import math
import re
import shutil
import tempfile
import unittest
from fractions import Fraction
from pathlib import Path

from tests import loading
from tests.loading import EXAMPLES

from opgenlib import vhdl
from opgenlib.drawings import adders, error, graph, parts, response, schedule
from opgenlib.drawings.example import Example

TOOL = loading.tool_of("pictures")
SCALE = """version = 1
name = "same"
kind = "scale"
exact = true
target = "plain"
period = 1000
signed = false
width = 4
lsb = 0
out_lsb = 0
coefficients = [1]
"""
SCALE_REPORT = """operator same
kind scale
mode exact
target plain
period 1000
latency 0
slack 900
input x unsigned 4 0
output y unsigned 4 0
cells wire 0 logic 0 add 0 choice 0 table 0 register 0
signals 1
"""


SIGNALS = "".join(f"  signal s{at} : unsigned(7 downto 0);\n" for at in range(1, 8))
SUMS = f"""library ieee;
use ieee.std_logic_1164.all;
use ieee.numeric_std.all;
entity e is
  port (
    clk : in std_logic;
    x : in std_logic_vector(3 downto 0)
  );
end entity;
architecture rtl of e is
  signal s0 : unsigned(3 downto 0);
{SIGNALS}begin
  s0 <= unsigned(x);
  BODY
end architecture;
"""


def run(*words):
    return loading.run(TOOL, *words)


class Pictures(unittest.TestCase):
    def setUp(self):
        self.folder = Path(tempfile.mkdtemp())
        self.addCleanup(shutil.rmtree, self.folder)

    def scale(self, rows):
        """A scale by 1 with these rows of outputs."""
        (self.folder / "same.toml").write_text(SCALE)
        (self.folder / "same.rpt").write_text(SCALE_REPORT)
        (self.folder / "same.out").write_text(rows)
        return run("error", self.folder / "same.toml")

    def test_long_run(self):
        """20,000 cycles are bars that can be seen, of the least and greatest error of each group."""
        (self.folder / "third.toml").write_text((EXAMPLES / "third.toml").read_text())
        (self.folder / "third.rpt").write_text((EXAMPLES / "third.rpt").read_text())
        rows = [f"{cycle % 16:x} : {((cycle - 1) % 16 + 1) // 3 if cycle else 0:x}" for cycle in range(20_000)]
        (self.folder / "third.out").write_text("\n".join(rows) + "\n")
        status, out, _ = run("error", self.folder / "third.toml")
        self.assertEqual(status, 0)
        bars = re.findall(r'<rect .* width="([\d.]+)" height="([\d.]+)" fill="steelblue"', out)
        self.assertTrue(300 <= len(bars) <= error.MOST_BARS)
        self.assertTrue(all(float(width) >= 1 and float(height) > 60 for width, height in bars))
        self.assertIn("each 59 outputs, from the exact value of x times the constant", out)
        self.assertIn("(19999 cycles)", out)
        self.assertIn("From -0.333 to 0.333 ulp", out)

    def test_error_of_none(self):
        self.assertIn("(2 cycles)", self.scale("1 : 1\n2 : 2\n")[1])
        self.assertIn("From 0.000 to 0.000 ulp", self.scale("1 : 1\n2 : 2\n")[1])

    def test_error_of_a_saturated_output(self):
        """It is taken from the value that was brought into the output's range."""
        chosen = SCALE.replace("version = 1", "version = 3") + "out_width = 3\n"
        (self.folder / "same.toml").write_text(chosen)
        (self.folder / "same.rpt").write_text(SCALE_REPORT.replace("output y unsigned 4", "output y unsigned 3"))
        (self.folder / "same.out").write_text("7 : 7\n8 : 7\nf : 7\n")
        out = run("error", self.folder / "same.toml")[1]
        self.assertIn("From 0.000 to 0.000 ulp", out)
        self.assertIn("from the saturated value of x times the constant", out)

    def test_error_of_a_polynomial(self):
        """It is that of the polynomial, and not of the function that it stands for."""
        self.assertIn("polynomial (not of the function", run("error", EXAMPLES / "sine.toml")[1])

    def test_errors_of_each_kind(self):
        for name in ("inches", "lowpass", "halfband", "gain", "duty", "magnitude", "transform", "weeks", "sine", "held", "share", "clip"):
            found = error.found_errors(Example(EXAMPLES / f"{name}.toml"))
            self.assertTrue(found, name)
            self.assertEqual(any(found), name in ("inches", "lowpass", "gain", "sine", "held", "clip"), name)

    def test_errors_of_sums(self):
        for name, is_exact in (("luma", False), ("mac", False), ("mixer_re", False), ("mixer_im", False), ("power", True)):
            found = error.found_errors(Example(EXAMPLES / f"{name}.toml"))
            self.assertEqual(any(found), not is_exact, name)
            self.assertTrue(all(abs(one) < 1 for one in found), name)

    def test_heap_of_a_sum(self):
        """Each term has its own colour; of a square each pair of two bits comes once, and each bit alone."""
        for name, counts in (("power", {"i * i": 78, "q * q": 78}), ("mac", {"c": 14})):
            out = run("heap", EXAMPLES / f"{name}.toml")[1]
            for words, count in counts.items():
                self.assertIn(f">{words}: {count} bits<", out)
        self.assertIn(">- b * d: ", run("heap", EXAMPLES / "mixer_re.toml")[1])

    def test_error_refusals(self):
        for rows, words in (
            ("", "no row"),
            ("1\n", "rows without outputs"),
            ("1 : 2\n", "output 0 is off by 1 units"),
            ("1 : 1\n1 : 3\n", "output 1 is off by 2 units"),
            ("1 : 1 1\n", "2 words of outputs"),
        ):
            status, out, said = self.scale(rows)
            self.assertEqual((status, out), (1, ""), rows)
            self.assertIn(words, said)

    def test_panels(self):
        """Of 36 cycles with three bars each there are five panels, each with its own cycles."""
        bars = [schedule.Bar(f"s{at}", schedule.Slot(at // 3, at % 3, at % 3 + 1, ("add", 8))) for at in range(108)]
        panels = schedule.panels_of(bars, 35)
        found = [(cycles.start, cycles.stop, len(rows)) for cycles, rows in panels]
        self.assertEqual(found, [(0, 7, 21), (7, 14, 21), (14, 21, 21), (21, 28, 21), (28, 36, 24)])

    def test_tall(self):
        bars = [schedule.Bar(f"s{at}", schedule.Slot(at // 40, 0, 1, ("add", at))) for at in range(80)]
        panels = schedule.panels_of(bars, 1)
        self.assertEqual([(list(cycles), len(rows)) for cycles, rows in panels], [([0], 40), ([1], 40)])

    def test_groups(self):
        """A hundred cells of one kind and time are one bar."""
        slots = {f"s{at}": schedule.Slot(0, 0, 400, ("logic", 1)) for at in range(100)} | {"s100": schedule.Slot(0, 400, 900, ("add", 8))}
        self.assertEqual([bar.words for bar in schedule.bars_of(slots, {})], ["100 of 1 bit", "s100"])
        found = {f"s{at}": parts.Part("column", at // 20, "carry" if at % 2 else "sum") for at in range(100)}
        self.assertEqual(schedule.bars_of(slots, found)[0].words, "columns 0 to 4: sum, carry (100 cells)")

    def test_saturation(self):
        """The cells that bring an output into its range are named."""
        out = run("schedule", EXAMPLES / "clip.toml")[1]
        for words in ("test of the range", "least or greatest", "saturate", "last sum, of all columns"):
            self.assertIn(f">{words}<", out)

    def test_digits_in_one_row(self):
        """Digits that do the same are one row, with a bar for each; those that are missing are left out of its words."""
        slots = [schedule.Slot(at, 0, 1, ("add", 8)) for at in range(5)]
        words = ["digit 4: subtract", "digit 3: subtract", "digit 3: sign", "negate q", "digit 0: subtract"]
        found = schedule.merged([schedule.Bar(*one) for one in zip(words, slots)])
        self.assertEqual([(bar.words, [slot.cycle for slot in bar.slots]) for bar in found],
                         [("digit 4..3, 0: subtract", [0, 1, 4]), ("digit 3: sign", [2]), ("negate q", [3])])

    def test_error_texts(self):
        """Three places, or as many as tell an error from one unit."""
        for value, text in ((Fraction(1, 2), "0.500"), (Fraction(99998, 100000), "0.99998"), (Fraction(-9999996, 10**7), "-0.9999996"),
                            (Fraction(0), "0.000"), (Fraction(-2, 3), "-0.667")):
            self.assertEqual(error.ulp_text(value), text)

    def test_response(self):
        """The mean of two samples lets frequency 0 through, and of half the sample rate nothing; between, half the power at a quarter."""
        half = [Fraction(1, 2)] * 2
        self.assertAlmostEqual(response.gain_at(half, 0.0), 0.0)
        self.assertAlmostEqual(response.gain_at(half, 0.25), 10 * math.log10(0.5))
        self.assertEqual(response.gain_at(half, 0.5), -math.inf)
        spec = {"kind": "fir", "coefficients": [1, 1], "denominator": 2}
        self.assertIn("at frequency 0 0.00, at half the sample rate nothing, at most 0.00", response.response(spec).text_of())

    def test_wrong_files(self):
        """A negative latency and rows of another operator get one line with the file's name."""
        for old, new, words in (("latency 1", "latency -1", "/lowpass.rpt is no report: line 6: latency is -1, below 0"),
                                ("signed 12 -11", "signed 0 -11", "a width is 0; expected 1 to 1024")):
            with tempfile.TemporaryDirectory() as folder:
                for ending in ("toml", "rpt", "out"):
                    shutil.copy(EXAMPLES / f"lowpass.{ending}", folder)
                report = Path(folder) / "lowpass.rpt"
                report.write_text(report.read_text().replace(old, new, 1))
                status, out, said = loading.run(TOOL, "error", Path(folder) / "lowpass.toml")
            self.assertEqual((status, out, said.count("\n"), said.count("line ")), (1, "", 1, 1))
            self.assertIn(words, said)
        with tempfile.TemporaryDirectory() as folder:
            for ending in ("toml", "rpt"):
                shutil.copy(EXAMPLES / f"lowpass.{ending}", folder)
            shutil.copy(EXAMPLES / "duty.out", Path(folder) / "lowpass.out")
            status, out, said = loading.run(TOOL, "error", Path(folder) / "lowpass.toml")
        self.assertEqual((status, out), (1, ""))
        self.assertRegex(said, r"\Apictures: .*/lowpass\.out, line 1: .*: these are no rows of lowpass\.toml\n\Z")

    def test_signs(self):
        """The cells that take the signs off, and put them to the results, are named beside the digits."""
        out = run("schedule", EXAMPLES / "share.toml")[1]
        for words in ("absolute value of a", "absolute value of b", "digit 11..0: subtract", "digit 11..0: select", "whether q is below 0",
                      "negate q", "sign of q", "negate r", "sign of r"):
            self.assertIn(f">{words}<", out)

    def test_stacked(self):
        """The panels of a long schedule lie below each other, and each bar says what it is."""
        out = run("schedule", EXAMPLES / "magnitude.toml")[1]
        for words in ("digit 7..0: subtract", "digit 7..0: select", "cycle 2", "setup time, 80 ps"):
            self.assertIn(f">{words}</text>", out)
        drawing = schedule.Schedule(Example(EXAMPLES / "duty.toml"))
        one, three = drawing.picture(drawing.panels), drawing.picture(drawing.panels * 3)
        self.assertEqual(one.width, three.width)
        self.assertGreater(three.height, 2 * one.height)

    def test_parts(self):
        """What cells are, in circuits of which it was worked out by hand."""
        for name, node, words in (
            ("inches", "s5", "column 1: sum"),
            ("inches", "s6", "column 1: carry"),
            ("inches", "s25", "last sum, of all columns"),
            ("inches", "s4", "table of x(9..6)"),
            ("lowpass", "s23", "tap 1: table of x(11..6)"),
            ("product", "s2", "column 0: product of bits"),
            ("halfband", "s9", "2047 x"),
            ("halfband", "s21", "tap 14: sum"),
            ("halfband", "s51", "tap 0: sum"),
            ("magnitude", "s18", "digit 4: subtract"),
            ("weeks", "s4", "table of x(14..12)"),
        ):
            self.assertEqual(parts.parts_of(Example(EXAMPLES / f"{name}.toml"))[node].words, words, (name, node))

    def test_parts_of_a_last_tap_above_0(self):
        """The product of the last tap is no sum."""
        found = parts.parts_of(Example(EXAMPLES.parent / "cases/tfir/tf13.toml"))
        self.assertEqual({node: part.words for node, part in found.items()}, {"s3": "2047 x", "s7": "tap 1: sum", "s10": "tap 0: sum"})

    def test_weights(self):
        out = run("heap", EXAMPLES / "volume.toml")[1]
        self.assertIn("weight 2^", out)
        self.assertIn(">-16</text>", out)

    def test_graph(self):
        self.assertEqual(run("graph", EXAMPLES / "transform.toml", "-o", self.folder / "graph.dot"), (0, "", ""))
        out = (self.folder / "graph.dot").read_text()
        self.assertIn('n1 -> n25 [label="+ << 4"];', out)
        self.assertIn('n9 -> n25 [label="+"];', out)
        self.assertIn('n9 -> y2 [label="<< 2"];', out)

    def test_chain(self):
        """36524 = 5217 * 7 + 5, digit by digit of three bits: 1, 0, 7, 2, 5, 4."""
        out = run("chain", EXAMPLES / "weeks.toml")[1]
        for words in ("x(15) = 1", "x(14..12) = 0", "q(14..12) = 1", "x(2..0) = 4", "q(2..0) = 1", "r = 5", "cycle 2",
                      "the first row: 36524 = 5217 * 7 + 5"):
            self.assertIn(f">{words}</text>", out)

    def test_chain_without_a_run(self):
        for ending in ("toml", "vhd", "rpt"):
            shutil.copy(EXAMPLES / f"weeks.{ending}", self.folder)
        status, out, _ = run("chain", self.folder / "weeks.toml")
        self.assertEqual((status, "the first row" in out, ">r</text>" in out), (0, False, True))

    def test_chain_of_other_rows(self):
        """Rows of another operator, of inputs alone and of no row get one line with the file's name; an empty run is none."""
        for ending in ("toml", "vhd", "rpt"):
            shutil.copy(EXAMPLES / f"weeks.{ending}", self.folder)
        for rows, words in ((EXAMPLES.joinpath("duty.out").read_text(), "these are no rows of weeks.toml"), ("8eac\n", "rows without outputs"),
                            (" : 0000 0\n", "these are no rows of weeks.toml"), ("zzzz : 0000 0\n", "these are no rows of weeks.toml")):
            (self.folder / "weeks.out").write_text(rows)
            status, out, said = run("chain", self.folder / "weeks.toml")
            self.assertEqual((status, out, said.count("\n")), (1, "", 1), said)
            self.assertIn("weeks.out", said)
            self.assertIn(words, said)
        (self.folder / "weeks.out").write_text("")
        self.assertEqual(run("chain", self.folder / "weeks.toml")[0], 0)

    def test_graph_of_a_filter(self):
        drawing = run("graph", EXAMPLES / "halfband.toml")[1]
        for words in ("tap 7: 2047 x", "- &lt;&lt; 1", "2 cycles", "103 x"):
            self.assertIn(f">{words}</text>", drawing)
        run("graph", EXAMPLES / "halfband.toml", "-o", self.folder / "graph.dot")
        out = (self.folder / "graph.dot").read_text()
        self.assertIn('z7 [label="tap 7: 2047"', out)
        self.assertIn('n103 -> z4 [label="- << 1"];', out)
        self.assertIn('z2 -> z0 [label="  2 cycles", style=dashed];', out)
        self.assertIn("  z0 -> y;", out)

    def test_words_of_a_cut_filter(self):
        for out_lsb, words in ((-11, ""), (-10, "; in y half a unit is added, and 1 low bit is left out"),
                               (-7, "; in y half a unit is added, and 4 low bits are left out")):
            self.assertEqual(graph.cut_text({"kind": "tfir", "lsb": -11, "out_lsb": out_lsb}), words)
        self.assertEqual(graph.cut_text({"kind": "tfir", "lsb": -11}) + graph.cut_text({"kind": "mcm", "lsb": -11}), "")

    def test_sums(self):
        """How numbers are made, read from circuits: two with a shift, with the lesser taken off, and with bits left out."""
        of = lambda text, *members: adders.sums_of(vhdl.design_of(SUMS.replace("BODY", text)), list(members))
        word = "s1 <= s0(3 downto 3) & s0 & "
        self.assertEqual(of(word + '"000"; s2 <= s0; s3 <= s1 - s2;', 7), {7: adders.Sum(1, 3, False, 1, True)})
        self.assertEqual(of(word + '"000"; s2 <= s0; s3 <= s2 - s1;', 7), {})
        self.assertEqual(of(word + '"00"; s2 <= s0; s3 <= s1 + s2; s4 <= s3 & "0"; s5 <= s3; s6 <= s4 + s5;', 5, 15),
                         {5: adders.Sum(1, 2, False, 1, False), 15: adders.Sum(5, 1, False, 5, False)})
        halved = word + '"00"; s2 <= s0; s3 <= s1 + s2; s4 <= s3; s5 <= s0; s6 <= s4 + s5; s7 <= s6(7 downto 1);'
        self.assertEqual(of(halved, 3, 5), {5: adders.Sum(1, 2, False, 1, False), 3: adders.Sum(1, 0, False, 5, False, 1)})
        self.assertEqual(of(halved, 5), {5: adders.Sum(1, 2, False, 1, False)})

    def test_parts_of_narrow_sums(self):
        """A sum that reads a delay in more bits than the delay has is one of a tap; many multiples are told by their ends."""
        text = ('s1 <= s0(3 downto 3) & s0 & "0"; s2 <= s0; s3 <= s1 + s2; '
                "process (clk) begin if rising_edge(clk) then s4 <= s3; end if; end process; "
                "s5 <= s4(7 downto 7) & s4; s6 <= s0; s7 <= s5 + s6;")
        circuit = parts.Circuit(vhdl.design_of(SUMS.replace("BODY", text)))
        found = dict(parts.graph_parts(circuit, [1, 3]))
        self.assertEqual({node: part.words for node, part in found.items()}, {"s3": "3 x", "s7": "tap 0: sum"})
        many = [parts.Part("", 0, f"{number} x") for number in (9, 101, 11, 3, 7, 21, 45)]
        self.assertEqual(parts.words_of(many), "3 x to 101 x (7 cells)")
        self.assertEqual(parts.words_of(many[:2]), "9 x, 101 x (2 cells)")

    def test_large_graph(self):
        """More than eighty adders and taps are counted and not drawn."""
        made = {3: adders.Sum(1, 1, False, 1, False), 5: adders.Sum(1, 2, False, 1, False), 45: adders.Sum(5, 3, False, 5, False)}
        large = graph.Adders("caption", made, [45, 6, -5, 0] * 64, True)
        picture = graph.summed_up(large)
        out = picture.text_of()
        for words in ("depth 1", "2 adders", "3 x to 5 x", "depth 2", "1 adder", "45 x", "256 taps, 64 of them 0", "3 odd parts",
                      "192 products, 254 delays", "y", "caption"):
            self.assertIn(f">{words}</text>", out)
        self.assertLess(picture.height, 200)
        self.assertEqual(graph.picture_of(large).text_of(), out)
        self.assertIn("counted", graph.words_of(large))
        dot = graph.dot_of(large, "large")
        self.assertEqual(dot.count("style=dashed"), 191)

    def test_graph_in_words(self):
        self.assertEqual(graph.graph_text(()), "of no adder, 0 adders")
        self.assertEqual(graph.graph_text((3, 45)), "3 45, 2 adders")
        self.assertEqual(graph.graph_text(tuple(range(3, 37, 2))), "of 17 adders")

    def test_output(self):
        self.assertEqual(run("heap", EXAMPLES / "volume.toml", "-o", self.folder / "heap.svg"), (0, "", ""))
        self.assertTrue((self.folder / "heap.svg").read_text().startswith("<svg"))

    def test_refusals(self):
        for words, status in (
            (("heap", EXAMPLES / "third.toml"), 1),
            (("error", EXAMPLES / "missing.toml"), 1),
            (("error", EXAMPLES / "third.vhd"), 1),
            (("error", EXAMPLES / "third.toml", "-o", self.folder / "error.dot"), 1),
            (("error",), 2),
            ((), 2),
            (("--examples",), 2),
            (("shape", EXAMPLES / "third.toml"), 2),
        ):
            self.assertEqual(run(*words)[0], status, words)
        self.assertIn("DRAWING SPEC", run("--help")[1])


if __name__ == "__main__":
    unittest.main()
