"""Tests of the module `opgen` over values that were worked out by hand, in each Python that is installed, with numpy and without."""
import ast
import csv
import os
import subprocess
import sys
import tempfile
import textwrap
import unittest
import unittest.mock
import xml.etree.ElementTree
from fractions import Fraction
from pathlib import Path

from opgenlib.explain.limits import SECONDS
from tests.loading import run, tool_of
from tests.test_explain import NO_PROGRAM, PROGRAM, TOP
from tests.test_python import installed_pythons

sys.path.append(str(TOP / "python"))

import opgen
from opgen.documents import plain_table

EXAMPLES = TOP / "examples"
THIRD = {"version": 1, "name": "third", "kind": "scale", "exact": False, "target": "plain", "period": 1000, "signed": False, "width": 4,
         "lsb": 0, "out_lsb": 0, "coefficients": [1], "denominator": 3}
# y(t) = x(t) + 2 x(t - 1) + 3 x(t - 2), of numbers over 4, at a period for which the sum takes several cycles.
THREE_TAPS = THIRD | {"name": "three_taps", "kind": "fir", "exact": True, "signed": True, "width": 6, "lsb": -2, "out_lsb": -2,
                      "period": 1200, "coefficients": [1, 2, 3], "denominator": 1}
# What is written for an older Python.
OLDER = [*sorted((TOP / "python/opgen").glob("*.py")), *(TOP / f"tools/opgenlib/{name}.py" for name in ("__init__", "exact", "report", "rows", "running", "terms", "writing"))]
SCRIPT = """
import sys
sys.path.append({folder!r})
import opgen
quotient = opgen.Operator({share!r})
q, r = quotient.run([-100, 100, 7], [6, 6, -2], raw=True)
assert (list(q), list(r)) == ([-16, 16, -3], [-4, 4, 1]), (q, r)
assert list(quotient.run([-100], b=[6]).q) == [-16.0]
third = opgen.Operator({third!r})
assert [str(value) for value in third.exact([1, 15])] == ["1/3", "5"]
assert list(third.run([1, 15, 0], raw=True))[1:] == [5, 0]
assert (third.latency, third.bound, [port.name for port in third.inputs]) == (1, 1, ["x"])
try:
    opgen.Operator({{"version": 1}})
except opgen.Rejected as fault:
    assert (fault.status, fault.line) == (1, "specification: MissingKey name"), fault
else:
    raise SystemExit("nothing was rejected")
"""


def script() -> str:
    return SCRIPT.format(folder=str(TOP / "python"), share=str(EXAMPLES / "share.toml"), third=THIRD)


def in_python(python: str, text: str, **environment: str) -> subprocess.CompletedProcess:
    return subprocess.run([python, "-W", "error", "-c", text], capture_output=True, text=True,
                          env=os.environ | {"OPGEN_PROGRAM": str(PROGRAM)} | environment)


class Texts(unittest.TestCase):
    def test_values(self) -> None:
        """Tuples and numbers of numpy become those of Python, in tables too."""
        whole = unittest.mock.Mock(tolist=lambda: 7)
        document = {"name": "a", "exact": True, "coefficients": (1, whole), "input": ({"name": "x", "lsb": whole},)}
        self.assertEqual(plain_table(document), {"name": "a", "exact": True, "coefficients": [1, 7], "input": [{"name": "x", "lsb": 7}]})

    def test_floats(self) -> None:
        with self.assertRaisesRegex(TypeError, r"coefficients has 0\.5, .*`opgen\.rounded`"):
            opgen.Operator(THIRD | {"coefficients": [0.5]})

    def test_rounded(self) -> None:
        """Halves go to the even number."""
        self.assertEqual(opgen.rounded([0.25, -1, 0.375, 0.1], 2), {"coefficients": [1, -4, 2, 0], "denominator": 4})

    def test_older_python(self) -> None:
        """What an older Python reads has no form that it lacks."""
        for path in OLDER:
            with self.subTest(path.name):
                ast.parse(path.read_text(), feature_version=(3, 8))

    def test_older_modules(self) -> None:
        """What an older Python reads of the tools takes no part of them that needs a newer one."""
        texts = {path.stem: path.read_text() for path in OLDER if path.parent.name == "opgenlib"}
        self.assertEqual(len(texts), 7)
        for name, text in texts.items():
            taken = {node.module for node in ast.walk(ast.parse(text)) if isinstance(node, ast.ImportFrom) and node.level}
            self.assertEqual(taken - texts.keys(), set(), name)


@unittest.skipUnless(PROGRAM.exists(), NO_PROGRAM)
class Runs(unittest.TestCase):
    def setUp(self) -> None:
        patched = unittest.mock.patch.dict(os.environ, {SECONDS: "600"})
        patched.start()
        self.addCleanup(patched.stop)

    def test_pythons(self) -> None:
        for python in [sys.executable, "/usr/bin/python3", *installed_pythons()]:
            with self.subTest(python):
                done = in_python(python, script())
                self.assertEqual((done.returncode, done.stdout, done.stderr), (0, "", ""))

    def test_numpy(self) -> None:
        """Where numpy is installed, arrays come in and out."""
        text = script() + textwrap.dedent("""
            import numpy
            assert q.dtype == numpy.int64 and quotient.run(numpy.array([-100]), numpy.array([6])).q.dtype == numpy.float64
            assert (third.run(numpy.arange(16), raw=True) - numpy.arange(16) / 3 < 1).all()
            """)
        pythons = [python for python in (sys.executable, "/usr/bin/python3") if in_python(python, "import numpy").returncode == 0]
        if not pythons:
            self.skipTest("numpy is not installed")
        done = in_python(pythons[0], text)
        self.assertEqual((done.returncode, done.stdout, done.stderr), (0, "", ""))

    def test_a_filter(self) -> None:
        """Outputs stand beside the inputs that they belong to, whatever the latency, and those before the first input are 0."""
        three = opgen.Operator(THREE_TAPS)
        self.assertGreater(three.latency, 0)
        self.assertEqual([*three.run([1, 0, 0, 0, -2, 0], raw=True)], [1, 2, 3, 0, -2, -4])
        self.assertEqual([*three.run([0.25, 0, -0.5])], [0.25, 0.5, 0.25])
        self.assertEqual(three.exact([0.25, 0, -0.5]), [Fraction(1, 4), Fraction(1, 2), Fraction(1, 4)])
        self.assertEqual(three.exact([1, 0, -2], raw=True), [1, 2, 1])
        self.assertEqual(three.bound, 0)

    def test_sums(self) -> None:
        """A document with tables, and inputs by their names: pure red is 76.245, and its outputs are less than 1 off."""
        luma = opgen.Operator(EXAMPLES / "luma.toml")
        red = {"red": [255, 255], "green": [255, 0], "blue": [255, 0]}
        self.assertEqual(luma.exact(**red), [255, Fraction(76245, 1000)])
        self.assertEqual(luma.run(**red)[0], 255)
        self.assertIn(luma.run(**red)[1], (76, 77))
        self.assertEqual(luma.bound, 1)

    def test_divisor_of_0(self) -> None:
        share = opgen.Operator(EXAMPLES / "share.toml")
        self.assertEqual(share.exact([5, 7], [0, -2], raw=True), ([None, -3], [None, 1]))

    def test_values(self) -> None:
        """The nearest number of the port, halves to the even one; out of range an error, or the port's end."""
        three = opgen.Operator(THREE_TAPS)
        self.assertEqual([*three.run([0.3, 0, 0])], [0.25, 0.5, 0.75])
        self.assertEqual([three.run([value])[0] for value in (0.125, 0.375, Fraction(1, 3), -8)], [0, 0.5, 0.25, -8])
        for values, raw, said in (([0, 8], False, r"x\[1\] is 8; the port takes -8\.0 to 7\.75"), ([32], True, r"x\[0\] is 32; the port takes -32 to 31"),
                                  ([float("nan")], False, "x is nan")):
            with self.assertRaisesRegex(ValueError, said):
                three.run(values, raw=raw)
        self.assertEqual([three.run([value], saturate=True)[0] for value in (8, -9)], [7.75, -8])
        with self.assertRaises(TypeError):
            three.run([0.5], raw=True)

    def test_inputs(self) -> None:
        share = opgen.Operator(EXAMPLES / "share.toml")
        for inputs, named in (([[1]], {}), ([[1], [1], [1]], {}), ([[1], [1]], {"b": [1]}), ([[1]], {"c": [1]})):
            with self.assertRaisesRegex(TypeError, "share takes a sequence for each of a, b"):
                share.run(*inputs, **named)
        with self.assertRaisesRegex(ValueError, "have 2, 1 numbers"):
            share.run([1, 2], [1])
        with self.assertRaisesRegex(ValueError, "at most 99998 rows"):
            share.run([1] * 99999, [1] * 99999)
        self.assertEqual([len(column) for column in share.run([], [])], [0, 0])

    def test_generate(self) -> None:
        """The files are those of the command, and the folder of the operator goes with it."""
        with tempfile.TemporaryDirectory() as name:
            operator = opgen.Operator(EXAMPLES / "times3.toml")
            paths = operator.generate(name)
            self.assertEqual(paths, (Path(name) / "times3.vhd", Path(name) / "times3.rpt"))
            for path in paths:
                self.assertEqual(path.read_bytes(), (EXAMPLES / path.name).read_bytes())
            with self.assertRaises(opgen.Error) as caught:
                operator.generate(Path(name) / "none")
            self.assertEqual((caught.exception.status, "there is no such folder" in str(caught.exception)), (4, True))
            folder = operator._folder
            del operator
            self.assertFalse(folder.exists())

    def test_check(self) -> None:
        weeks = opgen.Operator(EXAMPLES / "weeks.toml")
        self.assertEqual(weeks.check(EXAMPLES / "weeks.vhd", cycles=100), 98)
        self.assertEqual(weeks.check(EXAMPLES / "weeks.vhd", [36524, 0, 6], raw=True), 3)
        with tempfile.TemporaryDirectory() as name:
            wrong = Path(name) / "wrong.vhd"
            wrong.write_text((EXAMPLES / "weeks.vhd").read_text().replace('"001101" when', '"001100" when'))
            with self.assertRaises(opgen.NotGood) as caught:
                weeks.check(wrong, range(65536), raw=True)
        # 12 is 1 week and 5 days, which the manual's page on `check` shows: row 14, two cycles after it.
        self.assertEqual((caught.exception.status, caught.exception.row), (8, 14))
        self.assertIn("inputs of row 12: x = 000c (12)", caught.exception.explanation)
        with self.assertRaises(opgen.Rejected) as caught:
            weeks.check(EXAMPLES / "times3.toml", [1], raw=True)
        self.assertEqual((caught.exception.status, caught.exception.line), (6, "vhdl: Lexical 19"))

    def test_rejected(self) -> None:
        """The line and the explanation, with the caller's name of the file."""
        with tempfile.TemporaryDirectory() as name:
            bad = Path(name) / "bad.toml"
            bad.write_text((EXAMPLES / "times3.toml").read_text().replace("width = 4", "width = 0"))
            with self.assertRaises(opgen.Rejected) as caught:
                opgen.Operator(bad)
            self.assertEqual(str(caught.exception), f"specification: OutOfRange width 0\n{bad}:8:9: width is 0; expected 1 to 32")
            with self.assertRaises(opgen.Error) as caught:
                opgen.Operator(Path(name) / "no.toml")
            self.assertEqual((caught.exception.status, caught.exception.line), (3, "read fault"))


@unittest.skipUnless(PROGRAM.exists(), NO_PROGRAM)
class Example(unittest.TestCase):
    """templates/filter.py, with numpy where it is installed and without."""

    def test_filter(self) -> None:
        hidden = "import sys; sys.modules['numpy'] = None; sys.argv[1:] = [{!r}]; import runpy; runpy.run_path({!r}, run_name='__main__')"
        for python in (sys.executable, "/usr/bin/python3"):
            for text in ("", hidden):
                with self.subTest(f"{python} {text}"), tempfile.TemporaryDirectory() as name:
                    words = ["-c", text.format(name, str(TOP / "templates/filter.py"))] if text else [TOP / "templates/filter.py", name]
                    done = subprocess.run([python, *words], capture_output=True, text=True, env=os.environ | {"OPGEN_PROGRAM": str(PROGRAM)})
                    self.assertEqual((done.returncode, done.stderr), (0, ""))
                    self.assertRegex(done.stdout, r"^softer: latency \d+; 200 outputs, at most 0\.\d\d units in the last place from the ideal filter\n$")
                    self.judge(Path(name))

    def judge(self, folder: Path) -> None:
        """Outputs are within one unit of the filter with rounded taps, and so within that and the rounding of the ideal one."""
        self.assertEqual(sorted(path.name for path in folder.iterdir()), ["softer.csv", "softer.rpt", "softer.svg", "softer.vhd"])
        with (folder / "softer.csv").open(newline="") as file:
            rows = [{name: float(text) for name, text in row.items()} for row in csv.DictReader(file)]
        self.assertEqual((len(rows), list(rows[0])), (200, ["samples", "ideal", "output"]))
        most = 2**-11 + 31 * 2**-16 * 0.8
        self.assertLess(max(abs(row["output"] - row["ideal"]) for row in rows), most)
        # The first output is the first tap times the first sample, 0; the slow tone passes, and is at 0.4 at most.
        self.assertEqual(rows[0]["samples"], 0)
        self.assertTrue(0.35 < max(row["output"] for row in rows) < 0.42)
        picture = xml.etree.ElementTree.parse(folder / "softer.svg").getroot()
        shapes = [element.tag.rpartition("}")[2] for element in picture.iter()]
        self.assertEqual((shapes.count("polyline"), shapes.count("circle")), (3, 200))


class Lines(unittest.TestCase):
    """The drawing of a CSV."""

    def drawn(self, text: str) -> tuple[int, str, str]:
        with tempfile.TemporaryDirectory() as name:
            (Path(name) / "table.csv").write_text(text)
            return run(tool_of("pictures"), "lines", Path(name) / "table.csv")

    def test_places(self) -> None:
        """The greatest number is at the top and the least at the bottom, the first row at the left and the last at the right."""
        status, out, _ = self.drawn("a,b\n0,4\n2,-4\n4,0\n")
        self.assertEqual(status, 0)
        places = [element.get("points") for element in xml.etree.ElementTree.fromstring(out).iter() if element.tag.endswith("polyline")]
        self.assertEqual(places, ["64.0,164.0 406.0,102.0 748.0,40.0", "64.0,40.0 406.0,288.0 748.0,164.0"])

    def test_refused(self) -> None:
        for text, said in (("a,b\n1,2\n3\n", "has a row that is not a number for each of a, b"), ("a\nx\ny\n", "not a number"), ("a\n1\n", "1 rows")):
            status, out, words = self.drawn(text)
            self.assertEqual((status, out), (1, ""))
            self.assertIn(said, words)


if __name__ == "__main__":
    unittest.main()
