"""Placed circuits: logs of nextpnr, texts around a circuit, rows, words; and one small circuit where nextpnr is installed."""
import shutil
import subprocess
import tempfile
import unittest
from pathlib import Path
from unittest import mock

from tests import loading
from tests.loading import EXAMPLES

TOOL = loading.tool_of("place")
PICTURES = loading.tool_of("pictures")
BENCH = loading.tool_of("../bench/place")
placements = PICTURES.placements
HEAD = "case,made,asked,latency,met,seeds,median,least,greatest,cells,carries,note\n"
PORTS = (TOOL.placing.Port("a", True, False, 3, 0), TOOL.placing.Port("y", False, False, 2, 0))
LOG = """Info: Device utilisation:
Info: \t         ICESTORM_LC:    22/ 7680     0%
Info: \t        ICESTORM_RAM:     0/   32     0%
Info: Max frequency for clock 'clk$SB_IO_IN_$glb_clk': 250.00 MHz (PASS at 12.00 MHz)
Info: Routing..
Info: Max frequency for clock 'clk$SB_IO_IN_$glb_clk': 244.20 MHz (PASS at 12.00 MHz)
Info: Max delay <async>                       -> posedge clk$SB_IO_IN_$glb_clk: 3.58 ns
"""
HAND = """module times3(input clk, input [3:0] x, output [5:0] y);
  assign y = x * 3;
endmodule
"""


def run(*words):
    return loading.run(TOOL, *words)


class Logs(unittest.TestCase):
    def test_log(self):
        """The frequency is that after routing."""
        self.assertEqual(TOOL.placing.period_of(LOG), 4095)
        self.assertEqual(TOOL.placing.cells_of(LOG), 22)

    def test_no_log(self):
        for read in (TOOL.placing.period_of, TOOL.placing.cells_of):
            with self.assertRaises(TOOL.placing.NotPlaced):
                read("ERROR: no")

    def test_placed(self):
        """A seed that does not end is none that meets the period."""
        found = TOOL.placing.Placed((4000, 5000, 4400), 1, 9, 2)
        self.assertEqual((found.median, found.met(4400), found.met(9000)), (4400, "2 of 4", "3 of 4"))
        row = TOOL.row_of("one", "2", 4400, found)
        self.assertEqual(row, ["one", "2", "4400", "2 of 4", "4400", "4000", "5000", "9", "2"])


class Texts(unittest.TestCase):
    def test_between(self):
        text = TOOL.placing.between("one", PORTS)
        self.assertIn("\\one circuit (.clk(clk), .a(entered[3:1]), .y(left[1:0]));", text)
        self.assertIn("SB_DFF", text)
        self.assertNotIn("SB_", TOOL.placing.between("one", PORTS, TOOL.placing.PLAIN_CELLS))

    def test_pipelined(self):
        text = TOOL.placing.pipelined("one", PORTS, 2)
        for line in ("y_1 <= y_0;", "y_2 <= y_1;", "assign y = y_2;", "\\one circuit (.clk(clk), .a(a), .y(y_0));"):
            self.assertIn(line, text)

    @unittest.skipUnless(shutil.which("iverilog"), "Icarus Verilog is not installed")
    def test_one_text(self):
        """Icarus Verilog takes the whole."""
        with tempfile.TemporaryDirectory() as name:
            path = Path(name) / "all.v"
            hand = "module one(input clk, input [2:0] a, output [1:0] y);\n  assign y = a[2:1];\nendmodule\n"
            around = TOOL.placing.between("one_pipelined", PORTS, TOOL.placing.PLAIN_CELLS)
            path.write_text(hand + TOOL.placing.pipelined("one", PORTS, 2) + around)
            subprocess.run(["iverilog", "-g2005", "-o", Path(name) / "out", path], check=True)


class Rows(unittest.TestCase):
    """The rows that bench/place keeps, and their plot."""

    def setUp(self):
        folder = Path(tempfile.mkdtemp())
        self.addCleanup(shutil.rmtree, folder)
        self.path = folder / "rows.csv"

    def test_rows(self):
        placed = placements.row_of("third", "example", 10000, 1, TOOL.placing.Placed((4000, 5000, 10400), 1, 9, 2))
        refused = placements.Row("wide", "example", 6667, 0, note="PeriodTooShort 7000")
        for row in (placed, refused):
            placements.add_row(self.path, row)
        self.assertEqual(placements.read_rows(self.path), [placed, refused])
        self.assertEqual((placed.met, placed.seeds, placed.caution), (2, 4, 0.5))
        status, out, _ = loading.run(PICTURES, "place", self.path)
        self.assertEqual(status, 0)
        self.assertIn(">asked 10 ns</text>", out)
        self.assertNotIn("wide", out)

    def test_no_rows(self):
        for text, words in (("a,b\n", "has not the columns"), (HEAD + "third,example,ten\n", "line 2 is no row")):
            self.path.write_text(text)
            status, _, said = loading.run(PICTURES, "place", self.path)
            self.assertEqual(status, 1)
            self.assertIn(words, said)


class Bench(unittest.TestCase):
    """bench/place over rows that are kept."""

    def test_print(self):
        folder = Path(tempfile.mkdtemp())
        self.addCleanup(shutil.rmtree, folder)
        reached = {"opgen": (4000, 6000), "by hand, moved": (3000, 3500), "by hand": (9000, 9000)}
        for made, periods in reached.items():
            placed = TOOL.placing.Placed(periods, 0, 9, 2)
            placements.add_row(folder / "rows", placements.row_of("root", made, 5000, 0 if made == "by hand" else 2, placed))
        placements.add_row(folder / "rows", placements.Row("root", "opgen", 1000, 0, note="PeriodTooShort 1500"))
        status, out, _ = loading.run(BENCH, "--print", "--keep", folder / "rows")
        self.assertEqual(status, 0)
        for line in (
            "| root | opgen | 5000 | 2 | 1 of 2 | 5000 (4000 to 6000) | 0 % | 9 |",
            "| root | opgen | 1000 | PeriodTooShort 1500 | | | | |",
            "1 of 2 runs of 1 circuits meet the period; left over in the median: 0 %, from 0 % to 0 %",
            "- root, opgen, 5000 ps: 1 of 2 seeds meet it",
            "- root, 5000 ps, latency 2: by hand, moved reaches 3250 ps, and opgen 5000 ps",
        ):
            self.assertIn(line, out.splitlines())

    def test_words(self):
        self.assertEqual(loading.run(BENCH, "no_case")[0], 2)
        self.assertEqual(loading.run(BENCH, "--print", "--keep", "/no/rows")[0], 1)
        with mock.patch.object(BENCH.placing, "is_installed", lambda: False):
            self.assertEqual(loading.run(BENCH, "root"), (0, f"bench/place: not placed: {BENCH.placing.MISSING}\n", ""))


class Runs(unittest.TestCase):
    def test_words(self):
        for words, status in (
            ((), 2),
            ((EXAMPLES / "times3.toml", "--device", "hx9k"), 2),
            ((EXAMPLES / "times3.toml", "--period", "0"), 2),
            ((EXAMPLES / "times3.toml", "--seeds", "no"), 2),
            ((EXAMPLES / "missing.toml",), 1),
            ((EXAMPLES / "times3.vhd",), 1),
            ((EXAMPLES / "times3.toml", "--device", "lp1k", "--measured"), 1),
        ):
            self.assertEqual(run(*words)[0], status, words)
        self.assertIn("--measured", run("--help")[1])

    def test_missing_tool(self):
        with mock.patch.object(TOOL.placing, "is_installed", lambda: False):
            status, out, _ = run(EXAMPLES / "times3.toml")
        self.assertEqual(status, 0)
        self.assertIn("not placed", out)

    @unittest.skipUnless(TOOL.placing.is_installed(), "nextpnr-ice40 is not installed")
    def test_small_circuit(self):
        """A constant times four bits and a text by hand with a register; then a period that is refused."""
        with tempfile.TemporaryDirectory() as name:
            hand = Path(name) / "hand.v"
            hand.write_text(HAND)
            words = ("--period", "10000,1", "--seeds", "2", "--verilog", hand, "--registers", "1")
            status, out, said = run(EXAMPLES / "times3.toml", *words)
            hand.write_text("module times3(input clk);\nendmodule\n")
            self.assertEqual(run(EXAMPLES / "times3.toml", "--seeds", "1", "--verilog", hand)[0], 1)
        self.assertEqual(status, 0)
        self.assertRegex(said, r"\A(place: 10000 ps, seed [12] of 2: \d+ ps\n){4}\Z")
        lines = [line.split() for line in out.splitlines()]
        self.assertEqual(lines[0], TOOL.COLUMNS)
        self.assertEqual(lines[1][:6], ["times3.toml", "0", "10000", "2", "of", "2"])
        self.assertTrue(6 <= int(lines[1][9]) <= 12, lines[1])
        self.assertEqual(lines[2][:6], ["hand.v", "1", "10000", "2", "of", "2"])
        self.assertTrue(all(500 < int(reached) < 10_000 for line in lines[1:3] for reached in line[6:9]))
        self.assertIn("PeriodTooShort", out)


if __name__ == "__main__":
    unittest.main()
