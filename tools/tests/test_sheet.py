"""The data sheet of each kind is one file without anything from outside, and says what the report says; mistakes get one line."""
import os
import re
import shutil
import tempfile
import unittest
from html.parser import HTMLParser
from pathlib import Path

from tests import loading
from tests.loading import EXAMPLES

from opgenlib.drawings.timing import Timing
from opgenlib.report import read_report
from opgenlib.sheet import recovery_cycle

TOOL = loading.tool_of("sheet")
# An example of each kind, and of each a fact that was worked out by hand.
EACH_KIND = {
    "inches": "y = x * 2.54",
    "lowpass": "0.99951171875",
    "volume": "less than 1 ulp from the exact value; an ulp is 2^-8",
    "duty": "q = a / b, rounded down, and r = a - q b; b must not be 0",
    "magnitude": "digit 7..0: subtract",
    "transform": "y1 = 83 x",
    "weeks": "q = x / 7, rounded down, and r = x - 7 q",
    "sine": "the polynomial (not of the function that it approximates)",
    "halfband": "tap 14: -9 x",
    "share": "q = a / b, rounded towards 0, and r = a - q b; b must not be 0",
    "clip": "less than 1 ulp from the saturated value; an ulp is 2^-11",
}
# Elements that have no end.
VOID = {"meta"}


class Reader(HTMLParser):
    """Checks that elements are nested, and collects their attributes."""

    def __init__(self) -> None:
        super().__init__()
        self.open: list[str] = []
        self.attributes: list[tuple[str, str]] = []
        self.tags: list[str] = []

    def handle_starttag(self, tag: str, attrs: list) -> None:
        self.tags.append(tag)
        self.attributes += attrs
        if tag not in VOID:
            self.open.append(tag)

    def handle_startendtag(self, tag: str, attrs: list) -> None:
        self.attributes += attrs

    def handle_endtag(self, tag: str) -> None:
        assert self.open.pop() == tag, tag


class Recovery(unittest.TestCase):
    """Whatever the registers hold, outputs are good from the latency on, and of a filter after its taps less one more."""

    def cycle_of(self, name: str, spec: dict) -> int:
        return recovery_cycle(read_report(EXAMPLES / f"{name}.rpt"), spec)

    def test_a_quotient_remembers_nothing(self) -> None:
        self.assertEqual(self.cycle_of("duty", {"kind": "divide"}), read_report(EXAMPLES / "duty.rpt").latency)

    def test_filters_remember_their_taps_less_one(self) -> None:
        direct, transposed = read_report(EXAMPLES / "lowpass.rpt"), read_report(EXAMPLES / "halfband.rpt")
        self.assertEqual(recovery_cycle(direct, {"kind": "fir", "coefficients": [1] * 16}), direct.latency + 15)
        self.assertEqual(recovery_cycle(transposed, {"kind": "tfir", "taps": [1] * 15}), transposed.latency + 14)


class Sheets(unittest.TestCase):
    def setUp(self) -> None:
        self.folder = Path(tempfile.mkdtemp())
        self.addCleanup(shutil.rmtree, self.folder)
        self.addCleanup(os.chdir, os.getcwd())
        os.chdir(self.folder)

    def sheet(self, spec: Path, *words: object) -> str:
        status, out, said = loading.run(TOOL, spec, "--no-yosys", "-o", "sheet.html", *words)
        self.assertEqual((status, out, said), (0, "wrote sheet.html\n", ""), spec)
        return (self.folder / "sheet.html").read_text()

    def test_each_kind(self) -> None:
        for name, words in EACH_KIND.items():
            text = self.sheet(EXAMPLES / f"{name}.toml")
            self.assertIn(words, text, name)
            facts = read_report(EXAMPLES / f"{name}.rpt")
            self.assertIn(f"slack {facts.slack} ps", text)
            for port in facts.ports:
                self.assertIn(f"<td>{port.sign}, {port.least} to {port.greatest}</td>", text)
            reader = Reader()
            reader.feed(text)
            self.assertEqual(reader.open, [], name)
            outside = [value for key, value in reader.attributes if key in ("src", "href", "xlink:href")]
            self.assertEqual((outside, re.findall(r"url\(|@import", text)), ([], []))
            self.assertFalse({"script", "img", "link", "iframe"} & set(reader.tags))

    def test_errors(self) -> None:
        """Of a third of x, one or two thirds are missing or too much, or nothing is."""
        text = self.sheet(EXAMPLES / "third.toml")
        self.assertRegex(text, r"from (0\.000|-0\.333|-0\.667) to (0\.000|0\.333|0\.667) ulp, over all 16 inputs")
        self.assertIn("every output is equal, over all 16 inputs", self.sheet(EXAMPLES / "times3.toml"))
        self.assertIn("over 4096 inputs, at the ends of ranges and drawn", self.sheet(EXAMPLES / "magnitude.toml"))

    def test_saturation(self) -> None:
        """Three times 0 to 15 in four bits: from 6 on it is above 15. In a sixth of it nothing is."""
        path = self.folder / "first.toml"
        text = (EXAMPLES / "times3.toml").read_text().replace("version = 1", "version = 3") + "out_width = 4\nout_signed = false\n"
        path.write_text(text)
        self.assertIn("0 ulp, over all 16 inputs; 10 of these rows saturate and are not counted", self.sheet(path))
        path.write_text(text.replace("[3]", "[1]\ndenominator = 6").replace("exact = true", "exact = false"))
        self.assertNotIn("saturate", self.sheet(path).partition("Accuracy")[2].partition("Structure")[0].replace("the saturated value", ""))

    def test_filters(self) -> None:
        """A filter has its response and its coefficients before its timing, and no other operator has."""
        for name, coefficient in (("lowpass", "c0 = "), ("halfband", "c14 = -9<")):
            text = self.sheet(EXAMPLES / f"{name}.toml")
            self.assertIn(coefficient, text.partition("Frequency response and coefficients")[2].partition("<h2>Timing")[0])
        self.assertNotIn("Frequency response", self.sheet(EXAMPLES / "times3.toml"))

    def test_files_that_are_there(self) -> None:
        """No caption names a file of the folder in which the sheet was made."""
        for name in ("lowpass", "weeks", "third"):
            self.assertNotRegex(self.sheet(EXAMPLES / f"{name}.toml"), rf"{name}\.(in|out)\b")

    def test_enable(self) -> None:
        text = self.sheet(EXAMPLES / "held.toml", "--enable")
        self.assertIn("ce, one bit", text)
        self.assertIn("ce =&gt; ce", text)
        self.assertIn("opgen generate held.toml --enable", text)

    def test_timing(self) -> None:
        """Which inputs the outputs of a cycle belong to, with and without a cycle that is left out."""
        facts = read_report(EXAMPLES / "duty.rpt")
        plain, paused = Timing(facts, False), Timing(facts, True)
        self.assertEqual([plain.output_of(cycle) for cycle in plain.shown], [-2, -1, 0, 1, 2])
        self.assertEqual([paused.output_of(cycle) for cycle in paused.shown], [-2, -1, -1, 0, 1, 2])

    def test_name(self) -> None:
        self.assertEqual(loading.run(TOOL, EXAMPLES / "times3.toml", "--no-yosys")[:2], (0, "wrote times3.html\n"))
        self.assertEqual([path.name for path in self.folder.iterdir()], ["times3.html"])

    def test_letters(self) -> None:
        """What a specification says is text, not HTML."""
        path = self.folder / "first.toml"
        path.write_text("# <script>\n" + (EXAMPLES / "times3.toml").read_text())
        self.assertIn("# &lt;script&gt;", self.sheet(path))

    def test_refusals(self) -> None:
        wrong = self.folder / "wrong.toml"
        wrong.write_text((EXAMPLES / "times3.toml").read_text().replace("width = 4", "width = 33"))
        no_toml = self.folder / "no.toml"
        no_toml.write_text("version =\n")
        no_text = self.folder / "text.toml"
        no_text.write_bytes(b"name = \"\xff\"\n")
        for words, status, said in (
            ((no_text,), 1, "no UTF-8"),
            ((wrong,), 1, "sheet: specification: OutOfRange width 33"),
            ((no_toml,), 1, "sheet: specification: NotToml"),
            ((self.folder / "missing.toml",), 1, "missing.toml: No such file"),
            ((EXAMPLES / "times3.toml", "-o", self.folder / "none/sheet.html"), 1, "No such file"),
            ((EXAMPLES / "times3.toml", "--bin", self.folder / "none"), 1, "is no program"),
            ((), 2, "SPEC"),
        ):
            found, out, error = loading.run(TOOL, *words)
            self.assertEqual((found, out), (status, ""), words)
            self.assertIn(said, error)
            self.assertEqual(error.count("\n"), 1 if status == 1 else error.count("\n"), error)


if __name__ == "__main__":
    unittest.main()
