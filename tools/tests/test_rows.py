"""Rows are read and written, and numbers become rows and come back, by the formats of a report."""
import math
import re
import shutil
import subprocess
import tempfile
import tomllib
import unittest
from fractions import Fraction
from pathlib import Path

from opgenlib import rows, specification
from opgenlib.report import Port
from tests import loading
from tests.loading import EXAMPLES
from tests.test_explain import NO_PROGRAM, PROGRAM

SAMPLE = Port("x", True, True, 12, -11)
TOOL = loading.tool_of("rows")


def run(command, *words, text=""):
    """The status, the output and the error line of the tool."""
    of_program = ("--bin", PROGRAM) if command in ("draw", "judge") else ()
    return loading.run(TOOL, command, *of_program, *words, text=text)


class Lines(unittest.TestCase):
    def test_read(self):
        found = list(rows.read_rows("0f 1 : 3\nFF 0 : 0\n", (8, 1), (2,)))
        self.assertEqual(found, [([15, 1], [3]), ([255, 0], [0])])
        self.assertEqual(list(rows.read_rows("0f 1", (8, 1), (2,))), [([15, 1], None)])

    def test_written(self):
        self.assertEqual(rows.row_text([15, 1, 5], (8, 1, 13)), "0f 1 0005")

    def test_refusals(self):
        for text, line in (("0f\n", 1), ("0f 1\n0f 2\n", 2), ("f 1\n", 1), ("0g 1\n", 1), ("0f 1 : 4\n", 1), ("0f 1 :\n", 1)):
            with self.assertRaises(rows.BadRow) as caught:
                list(rows.read_rows(text, (8, 1), (2,)))
            self.assertEqual(caught.exception.line, line, text)


class Numbers(unittest.TestCase):
    def test_words(self):
        self.assertEqual(rows.unit_count(0x800, SAMPLE), -2048)
        self.assertEqual(rows.unit_count(0x7FF, SAMPLE), 2047)
        self.assertEqual(rows.word_in(-1, SAMPLE), 0xFFF)

    def test_texts(self):
        for units, lsb, text in ((3, 2, "12"), (-1, -1, "-0.5"), (-3, -2, "-0.75"), (5, 0, "5"), (8, -3, "1"), (1, -4, "0.0625")):
            self.assertEqual(rows.value_text(units, lsb), text)

    def test_nearest(self):
        self.assertEqual(rows.nearest(Fraction(3, 4096), SAMPLE), (2, Fraction(-1, 4096)))
        self.assertEqual(rows.nearest(Fraction(1, 4096), SAMPLE), (0, Fraction(1, 4096)))


class Encoding(unittest.TestCase):
    def test_values(self):
        status, out, said = run("encode", EXAMPLES / "lowpass.rpt", text="x\n0.5\n-1\n3e-4\n")
        self.assertEqual((status, out), (0, "400\n800\n001\n"))
        self.assertIn("3 rows, greatest rounding 0.000188 of x in line 4", said)

    def test_columns(self):
        self.assertEqual(run("encode", EXAMPLES / "quotient.rpt", text="b,a\n3,100\n")[1], "64 3\n")
        self.assertEqual(run("encode", EXAMPLES / "quotient.rpt", text="100,3\n")[1], "64 3\n")
        self.assertEqual(run("encode", EXAMPLES / "held.rpt", text="# ce,x,y\n1,4,0\n")[1], "1 4\n")

    def test_whole(self):
        self.assertEqual(run("encode", "--whole", EXAMPLES / "lowpass.rpt", text="-1\n5\n")[1], "fff\n005\n")

    def test_refusals(self):
        cases = (
            ("encode", "lowpass.rpt", "x\n1\n", "line 2: 1.0 for x is not between -1 and 0.99951171875"),
            ("encode", "lowpass.rpt", "z\n1\n", "no port 'z'"),
            ("encode", "lowpass.rpt", "x\nnan\n", "'nan' is no number"),
            ("encode", "lowpass.rpt", "0.5,1\n", "2 numbers in place of 1"),
            ("encode", "quotient.rpt", "a\n1\n", "no column for the input b"),
            ("decode", "lowpass.rpt", "zzz\n", "line 1: 'zzz' is no word of 3"),
        )
        for command, name, text, words in cases:
            status, out, said = run(command, EXAMPLES / name, text=text)
            self.assertEqual((status, out), (1, ""), text)
            self.assertIn(words, said)
        self.assertEqual(run("encode", "--exact", EXAMPLES / "lowpass.rpt", text="0.3\n")[0], 1)
        self.assertEqual(run("encode", EXAMPLES / "lowpass.toml", text="0.3\n")[0], 1)
        self.assertEqual(run("encode", EXAMPLES / "missing.rpt", text="0.3\n")[0], 1)

    def test_saturation(self):
        status, out, said = run("encode", "--saturate", EXAMPLES / "lowpass.rpt", text="1\n-2\n")
        self.assertEqual((status, out), (0, "7ff\n800\n"))
        self.assertIn("2 numbers out of range", said)


class Decoding(unittest.TestCase):
    def test_aligned(self):
        lines = run("decode", "--align", EXAMPLES / "third.rpt", EXAMPLES / "third.out")[1].split()
        self.assertEqual(lines, ["x,y", "1,1", "2,1", "4,2", "15,5"])

    def test_enable(self):
        """The row with the enable 0 is left out where outputs are moved."""
        lines = run("decode", "--align", EXAMPLES / "held.rpt", EXAMPLES / "held.out")[1].split()
        self.assertEqual(lines[:3], ["ce,x,y", "1,1,1", "1,2,1"])

    def test_back(self):
        """Of each example the rows become numbers, and these the same rows."""
        with tempfile.TemporaryDirectory() as folder:
            for path in sorted(EXAMPLES.glob("*.rpt")):
                for more in ((), ("--whole",)):
                    numbers, back = Path(folder) / "numbers.csv", Path(folder) / "back.in"
                    self.assertEqual(run("decode", path, path.with_suffix(".out"), "-o", numbers, *more)[0], 0)
                    self.assertEqual(run("encode", "--exact", path, numbers, "-o", back, *more)[0], 0)
                    self.assertEqual(back.read_text(), path.with_suffix(".in").read_text(), path.name)


@unittest.skipUnless(PROGRAM.exists(), NO_PROGRAM)
class Drawing(unittest.TestCase):
    def drawn(self, name, *words):
        status, out, said = run("draw", EXAMPLES / f"{name}.toml", *words)
        self.assertEqual(status, 0, said)
        return out.splitlines()

    def test_as_vectors(self):
        """Without --ends the rows are those that `opgen vectors` draws, the divisor 0 replaced too."""
        for path in sorted(EXAMPLES.glob("*.toml")):
            rows_of_vectors = [line.partition(" :")[0] for line in path.with_suffix(".vec").read_text().splitlines()]
            self.assertEqual(self.drawn(path.stem, "--cycles", len(rows_of_vectors)), rows_of_vectors, path.stem)

    def test_ends(self):
        self.assertEqual(self.drawn("times3", "--ends", "--cycles", "0"), ["0", "1", "e", "f"])
        pairs = self.drawn("gain", "--ends", "--cycles", "0")
        self.assertEqual(len(set(pairs)), 7 * 7)
        for a in ("800", "801", "fff", "000", "001", "7fe", "7ff"):
            for b in ("200", "201", "3ff", "000", "001", "1fe", "1ff"):
                self.assertIn(f"{a} {b}", pairs)

    def test_no_divisor_0(self):
        rows_of_quotient = self.drawn("quotient", "--ends", "--cycles", "200")
        self.assertEqual({line.split()[1] for line in rows_of_quotient} & {"0"}, set())
        self.assertEqual({line.split()[1] for line in rows_of_quotient[:9]}, {"1", "2", "6", "7"})

    def test_no_signed_divisor_0(self):
        rows_of_share = self.drawn("share", "--ends", "--cycles", "200")
        self.assertNotIn("00", {line.split()[1] for line in rows_of_share})
        self.assertLess({"20", "21", "3f", "01", "1e", "1f"}, {line.split()[1] for line in rows_of_share[:40]})

    def test_all(self):
        """Each word of the inputs once, then as many rows as are asked for."""
        self.assertEqual(self.drawn("times3", "--all", "1"), [*"0123456789abcdef", "0"])
        found = self.drawn("product", "--all", "2")
        self.assertEqual((len(found), len(set(found[:-2])), found[:2], found[-3:]), (2050, 2048, ["00 00", "00 01"], ["3f 1f", "00 00", "00 00"]))
        status, _, said = run("draw", EXAMPLES / "duty.toml", "--all", "2")
        self.assertEqual((status, said), (1, "rows: inputs of 20 bits have 2^20 rows; `simulate` takes 100000\n"))
        self.assertEqual(run("draw", EXAMPLES / "times3.toml", "--all", "0", "--ends")[0], 2)

    def test_a_filter(self):
        """The greatest and the least sum of a half-band filter of 12 signed bits: 2047 or -2048 by the sign of each tap."""
        taps = tomllib.loads((EXAMPLES / "halfband.toml").read_text())["taps"]
        found = [int(line, 16) for line in self.drawn("halfband", "--ends", "--cycles", "0")]
        numbers = [word - 4096 if word >= 2048 else word for word in found]
        sums = [sum(tap * x for tap, x in zip(taps, numbers[at :: -1])) for at in range(len(taps) - 1, len(numbers))]
        self.assertEqual(max(sums), sum(tap * (2047 if tap > 0 else -2048) for tap in taps))
        self.assertEqual(min(sums), sum(tap * (-2048 if tap > 0 else 2047) for tap in taps))

    def test_refusals(self):
        for words in (("--seed", "-1"), ("--cycles", "many"), ("--seed", "4294967296")):
            self.assertEqual(run("draw", EXAMPLES / "times3.toml", *words)[0], 2, words)
        status, out, said = run("draw", EXAMPLES / "times3.vhd")
        self.assertEqual((status, out), (1, ""))
        self.assertIn("times3.vhd:1:", said)
        self.assertEqual(run("draw", EXAMPLES / "times3.toml", "--ends", "--cycles", "100000")[0], 1)

    def test_specifications_without_ports(self):
        """What the schema and what the program refuses, and no program; a target may be any."""
        text = (EXAMPLES / "times3.toml").read_text()
        with tempfile.TemporaryDirectory() as folder:
            spec = Path(folder) / "other.toml"
            for old, new, said in (("width = 4", "width = 33", "the specification is refused: document.width is 33, above 32"),
                                   ("out_lsb = 0", "out_lsb = 1", "the specification is refused: NotExact 0")):
                spec.write_text(text.replace(f"\n{old}", f"\n{new}"))
                self.assertEqual(run("draw", spec), (1, "", f"rows: {spec}: {said}\n"))
            spec.write_text(text.replace('"plain"', '"mine"').replace("10000", "1"))
            self.assertEqual(run("draw", spec, "--ends", "--cycles", "0")[1], "0\n1\ne\nf\n")
            self.assertEqual(run("draw", spec, "--bin", folder), (1, "", f"rows: {folder} is no program\n"))


@unittest.skipUnless(PROGRAM.exists(), NO_PROGRAM)
class Judging(unittest.TestCase):
    def test_good(self):
        status, out, said = run("judge", EXAMPLES / "third.toml", EXAMPLES / "third.out", "--latency", "1")
        self.assertEqual((status, out, said), (0, "good 4, by exact fractions, a test that is not proved\n", ""))

    def test_bad(self):
        status, out, said = run("judge", EXAMPLES / "third.toml", "--latency", "1", text="3 : 0\n3 : 1\n5 : 2\n0 : 5\n")
        self.assertEqual((status, out), (8, "row 2 not good, by exact fractions, a test that is not proved\n"))
        self.assertEqual(said.splitlines(), [
            "rows: inputs of row 1: x = 3 (3)",
            "rows: found y = 2 (2); good: y = 1 (1); error: y +1 unit",
            "rows: at no latency of 0 to 64 are all rows good",
        ])

    def test_signed_quotient(self):
        """-7 by 2 is -3, rest -1, and not -4, rest 1."""
        status, out, said = run("judge", EXAMPLES / "share.toml", "--latency", "0", text="ff9 02 : 1ffd 3f\nff9 02 : 1ffc 01\n")
        self.assertEqual((status, out), (8, "row 1 not good, by exact fractions, a test that is not proved\n"))
        self.assertIn("good: q = 1ffd (-3), r = 3f (-1); error: q -1 unit, r +2 units", said)

    def test_saturated(self):
        """A step to the greatest sample overshoots: 14/8 of it are cut to that sample."""
        text = "7ff : f00\n000 : e00\n000 : 7ff\n000 : dff\n"
        status, out, said = run("judge", EXAMPLES / "clip.toml", "--latency", "0", text=text)
        self.assertEqual((status, out), (8, "row 3 not good, by exact fractions, a test that is not proved\n"))
        self.assertIn("good: y = e00 (-0.25) or y = e01 (-0.24951171875)", said)

    def test_refusals(self):
        for text, words in (
            ("3\n", "line 1 has no outputs"),
            ("3 : 9\n", "standard input, line 1: '9' does not fit into 3 bits"),
            ("3 : x\n", "standard input, line 1: 'x' is no word"),
        ):
            status, out, said = run("judge", EXAMPLES / "third.toml", "--latency", "1", text=text)
            self.assertEqual((status, out), (1, ""))
            self.assertIn(words, said)
        self.assertEqual(run("judge", EXAMPLES / "third.toml", EXAMPLES / "third.out")[0], 2)
        self.assertEqual(run("judge", EXAMPLES / "third.toml", EXAMPLES / "third.out", "--latency", "-1")[0], 2)


# Of a text of VHDL another that is sound too: the first word of the first table, an operator, or a constant's bits.
CHANGES = ((r'(?<=<=\n    ")[01]', lambda bit: "10"[int(bit[0])]), (r" xor ", lambda _: " or "), (r" \+ ", lambda _: " - "))


@unittest.skipUnless(PROGRAM.exists(), NO_PROGRAM)
class AsCheck(unittest.TestCase):
    """`judge` says of the rows of a circuit what `opgen check` says of the circuit."""

    def called(self, *words):
        return subprocess.run([PROGRAM, *words], capture_output=True, text=True, cwd=self.folder)

    def setUp(self):
        self.folder = tempfile.mkdtemp()
        self.addCleanup(shutil.rmtree, self.folder)

    def compared(self, spec, circuit, stimulus):
        """The verdict of both at each of some latencies: the lines, none of a text that is not sound."""
        if self.called("simulate", circuit, stimulus, "rows.out").returncode:
            return []
        lines = []
        for latency in range(5):
            done = self.called("check", spec, circuit, stimulus, str(latency))
            status, out, _ = run("judge", spec, Path(self.folder) / "rows.out", "--latency", latency)
            self.assertEqual((status, out.partition(", by")[0]), (done.returncode, done.stdout.strip()), (spec.name, latency))
            lines.append(done.stdout)
        return lines

    def test_examples_and_changed_ones(self):
        verdicts = []
        for spec in sorted(EXAMPLES.glob("*.toml")):
            if spec.with_suffix(".options").exists():
                continue
            stimulus, circuit = Path(self.folder) / "rows.in", Path(self.folder) / "other.vhd"
            self.assertEqual(run("draw", spec, "--ends", "--cycles", "40", "-o", stimulus)[0], 0)
            verdicts += self.compared(spec, spec.with_suffix(".vhd"), stimulus)
            for pattern, other in CHANGES:
                text, count = re.subn(pattern, other, spec.with_suffix(".vhd").read_text(), count=1)
                if count:
                    circuit.write_text(text)
                    verdicts += self.compared(spec, circuit, stimulus)
        self.assertGreater(sum(line.startswith("good") for line in verdicts), 15)
        self.assertGreater(sum(line.startswith("row") for line in verdicts), 60)


class Coefficients(unittest.TestCase):
    def test_large_numbers(self):
        """Numbers of many digits and a bound below 1 get an answer."""
        for text in ("1" * 5000, "0." + "1" * 5000, "1/" + "1" * 5000):
            status, out, said = run("coefficients", text=text + "\n")
            self.assertEqual((status, out), (1, ""))
            self.assertIn(f"has {len(text)} letters; a number has at most 100", said)
        self.assertEqual(run("coefficients", text="1e999\n"), (1, "", "rows: 1e999 or more is above 1073741824\n"))
        status, _, said = run("encode", EXAMPLES / "times3.rpt", text="x\n-1e400\n")
        self.assertEqual((status, said), (1, "rows: line 2: -1e400 or more for x is not between 0 and 15\n"))
        for most in ("-5", "0", "x", str(2**31)):
            status, _, said = run("coefficients", "--most", most, text="0.5\n")
            self.assertEqual(status, 2)
            self.assertIn(f"{most} is no whole number of 1 to 1073741824", said)

    def test_power(self):
        status, out, said = run("coefficients", "--power", "10", text="0.1, 0.25\n1/3\n")
        self.assertEqual((status, out), (0, "coefficients = [102, 256, 341]\ndenominator = 1024\n"))
        self.assertIn("greatest rounding 0.000391 of number 0", said)

    def test_least_denominator(self):
        self.assertEqual(run("coefficients", text="0.5\n-0.25\n")[1], "coefficients = [2, -1]\ndenominator = 4\n")
        self.assertEqual(run("coefficients", text="6\n4\n")[1], "coefficients = [6, 4]\ndenominator = 1\n")

    def test_most(self):
        self.assertEqual(run("coefficients", "--most", "2047", text="0.7007\n")[1], "coefficients = [1435]\ndenominator = 2048\n")

    def test_keys_of_whole_numbers(self):
        scaled = "# outputs are 2048 times those of the real numbers: their 11 lowest bits are below the point\n"
        most = ("--most", "2047")
        self.assertEqual(run("coefficients", "--key", "taps", *most, text="0.7007\n-0.25\n")[1], f"taps = [1435, -512]\n{scaled}")
        self.assertEqual(run("coefficients", "--key", "constants", text="45\n-8\n")[1], "constants = [45, -8]\n")
        self.assertEqual(run("coefficients", "--key", "constants", *most, text="2048\n")[0], 1)
        # 0.7007 is 734737.2 over 2^20, and its double is above 2^20 - 1.
        self.assertIn("taps = [734737]\n", run("coefficients", "--key", "taps", text="0.7007\n")[1])
        self.assertEqual(run("coefficients", "--key", "constants", text="-1048575\n")[1], "constants = [-1048575]\n")
        self.assertEqual(run("coefficients", "--key", "taps", text="1048576\n")[0], 1)
        self.assertEqual(run("coefficients", "--key", "extra", text="1\n")[0], 2)

    def test_taps_of_an_example(self):
        """The low pass of examples/smooth.toml: a Hamming window over a cutoff of a fifth, as in the manual."""
        places = range(-15, 16)
        shape = [(math.sin(math.pi * at / 5) / (math.pi * at) if at else 0.2) * (0.54 + 0.46 * math.cos(math.pi * at / 15)) for at in places]
        text = "".join(f"{one / sum(shape)!r}\n" for one in shape)
        taps = specification.load(EXAMPLES / "smooth.toml").table["taps"]
        out = run("coefficients", "--key", "taps", "--most", "8191", text=text)[1]
        self.assertIn(f"taps = {taps}\n# outputs are 32768 times", out)

    def test_refusals(self):
        for text in ("", "0.5,x\n", "1/0\n", "2e9\n"):
            self.assertEqual(run("coefficients", text=text)[0], 1, text)
        self.assertEqual(run("coefficients", "--power", "31", text="1\n")[0], 2)


if __name__ == "__main__":
    unittest.main()
