"""Delay lines: the fit on given numbers, files of times, the circuits, refusals."""
import shutil
import subprocess
import tempfile
import tomllib
import unittest
from pathlib import Path
from unittest import mock

from tests import loading

TOOL = loading.tool_of("delays")
LINES = {"wire": (0, 0), "logic": (900, 0), "add": (1200, 70), "choice": (800, 20), "table": (100, 400), "register": (700, 0)}
SMALL = [("none_8", (), 900), ("add_8", (("add", 8),), 2900), ("add_32", (("add", 32),), 5300)]


def run(*words):
    return loading.run(TOOL, *words)


def times_under(lines, slower=()):
    """The times that lines ask for; some are so many picoseconds more."""
    more = dict(slower)
    text = ""
    for probe in TOOL.probes.all_probes():
        text += f"{probe.name} {TOOL.fitting.asked(probe.cells, lines) + more.get(probe.name, 0)}\n"
    return text


class Fit(unittest.TestCase):
    def test_exact(self):
        """Periods that lines make are fitted by these lines."""
        chains = [TOOL.fitting.Chain(probe.cells, TOOL.fitting.asked(probe.cells, LINES)) for probe in TOOL.probes.all_probes()]
        self.assertEqual(TOOL.fitting.fitted(chains), LINES)

    def test_enough(self):
        """Every period is reached, whatever the periods are."""
        chains = [TOOL.fitting.Chain(probe.cells, 1000 + 37 * at % 900 * (1 + len(probe.cells)))
                  for at, probe in enumerate(TOOL.probes.all_probes())]
        lines = TOOL.fitting.fitted(chains)
        self.assertTrue(all(TOOL.fitting.asked(chain.cells, lines) >= chain.period for chain in chains))

    def test_two_widths(self):
        """A sum of 8 and one of 32 bits: 100 ps a bit, and the rest is the register's and the sum's."""
        lines = TOOL.fitting.fitted([TOOL.fitting.Chain(cells, period) for _, cells, period in SMALL])
        self.assertEqual(lines["add"], (1200, 100))
        self.assertEqual(lines["register"], (900, 0))

    def test_share(self):
        self.assertEqual([TOOL.reached_by([5, 1, 4, 2, 3], share) for share in (0.1, 0.8, 0.81, 1)], [1, 4, 5, 5])

    def test_text(self):
        found = tomllib.loads(TOOL.fitting.text_of(LINES))["delay"]
        self.assertEqual(found[2], {"class": "add", "base": 1200, "per_bit": 70})
        self.assertEqual([line["class"] for line in found], list(LINES))


class Runs(unittest.TestCase):
    def setUp(self):
        self.folder = Path(tempfile.mkdtemp())
        self.addCleanup(shutil.rmtree, self.folder)

    def times(self, text):
        path = self.folder / "times"
        path.write_text(text)
        return run("--times", path)

    def test_times(self):
        status, out, said = self.times("# a comment\n\n" + times_under(LINES))
        self.assertEqual((status, said), (0, ""))
        self.assertIn("# Delay lines of the device whose times are in times.", out)
        self.assertIn("100.0 % of them within the lines", out)
        self.assertEqual(tomllib.loads(out)["delay"][1], {"class": "logic", "base": 900, "per_bit": 0})

    def test_bad_times(self):
        for text, words in (
            ("", "there is no time of none_8"),
            ("none_8\n", "line 1 is no NAME PICOSECONDS"),
            ("none_8 4.1\n", "line 1 is no NAME PICOSECONDS"),
            ("\nfoo 4\n", "line 2: there is no circuit foo"),
        ):
            status, out, said = self.times(text)
            self.assertEqual((status, out), (1, ""), text)
            self.assertIn(words, said)

    def test_circuits(self):
        self.assertEqual(run("--circuits", self.folder / "new")[0], 0)
        files = sorted((self.folder / "new").glob("*.v"))
        self.assertEqual([path.stem for path in files], sorted(probe.name for probe in TOOL.probes.all_probes()))

    @unittest.skipUnless(shutil.which("iverilog"), "Icarus Verilog is not installed")
    def test_circuits_as_verilog(self):
        """Icarus Verilog takes each circuit."""
        self.assertEqual(run("--circuits", self.folder / "new")[0], 0)
        for path in sorted((self.folder / "new").glob("*.v")):
            with self.subTest(path.name):
                done = subprocess.run(["iverilog", "-g2005", "-o", self.folder / "out", path], capture_output=True, text=True)
                self.assertEqual((done.returncode, done.stderr), (0, ""))

    def test_kept(self):
        """Periods that a file keeps are not measured again."""
        (self.folder / "kept").write_text(times_under(LINES))
        with mock.patch.object(TOOL.placing, "is_installed", lambda: True), mock.patch.object(TOOL.placing, "versions", lambda: "tools"):
            status, out, said = run("--device", "hx8k", "--keep", self.folder / "kept")
        self.assertEqual((status, said), (0, ""))
        self.assertIn("# Delay lines of hx8k, by tools.", out)

    @unittest.skipUnless(TOOL.placing.is_installed(), "nextpnr-ice40 is not installed")
    def test_measured(self):
        """Three small circuits, mapped at once."""
        some = TOOL.probes.all_probes()[:3]
        with mock.patch.object(TOOL.probes, "all_probes", lambda: some):
            status, out, said = run("--device", "hx8k", "--seeds", "1", "--keep", self.folder / "kept")
        self.assertEqual(status, 0, said)
        kept = [line.split() for line in (self.folder / "kept").read_text().splitlines()]
        self.assertEqual(sorted(name for name, _ in kept), sorted(probe.name for probe in some))
        self.assertTrue(all(500 < int(period) < 10_000 for _, period in kept), kept)
        self.assertIn("# 3 small circuits, 1 seeds, 3 runs", out)

    def test_missing_tool(self):
        with mock.patch.object(TOOL.placing, "is_installed", lambda: False):
            self.assertEqual(run("--device", "hx8k"), (0, f"delays: not measured: {TOOL.placing.MISSING}\n", ""))

    def test_words(self):
        for words, status in (
            ((), 2),
            (("--device", "no"), 2),
            (("--device", "hx8k", "--share", "2"), 2),
            (("--times", self.folder / "none"), 1),
            (("--device", "hx8k", "--times", "x"), 2),
        ):
            self.assertEqual(run(*words)[0], status, words)
        self.assertIn("--circuits", run("--help")[1])


if __name__ == "__main__":
    unittest.main()
