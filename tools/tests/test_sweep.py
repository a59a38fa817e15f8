"""Sweeps: values and ranges, folders, tables, the best runs, commands and their collection."""
import os
import shutil
import stat
import subprocess
import tempfile
import tomllib
import unittest
from pathlib import Path
from unittest import mock

from tests import loading
from tests.loading import EXAMPLES

TOOL = loading.tool_of("sweep")
# A program whose report says a latency of 10000 / period and as many gates as the width; it refuses a period below 2000.
PROGRAM = """#!/bin/sh
period=$(sed -n 's/^period = //p' "$2")
width=$(sed -n 's/^width = //p' "$2")
[ "$period" -ge 2000 ] || { echo "specification: PeriodTooShort 2000"; exit 1; }
cat >times3.rpt <<END
operator times3
kind scale
mode exact
target plain
period $period
latency $((10000 / period))
slack $((period % 1000))
input x unsigned $width 0
output y unsigned 6 0
cells wire 0 logic $width add 0 choice 0 table 4 register 0
signals 2
END
"""


class Words(unittest.TestCase):
    def test_axes(self):
        for word, key, values in (
            ("period=2000:4000:1000", "period", [2000, 3000, 4000]),
            ("out_lsb=-8,-11", "out_lsb", [-8, -11]),
            ("lsb=0:-2:-1", "lsb", [0, -1, -2]),
            ("width=3:5", "width", [3, 4, 5]),
            ("exact=true,false", "exact", [True, False]),
            ("target=plain,fixed", "target", ["plain", "fixed"]),
            ("constants=[45],[45, 83]", "constants", [[45], [45, 83]]),
            ('coefficients=["2.54"]', "coefficients", [["2.54"]]),
        ):
            self.assertEqual(TOOL.axis_of(word), (key, values))

    def test_refused_axes(self):
        for word in ("period", "period=", "period=1:5:0", "Period=1", "width=a b"):
            with self.assertRaises(TOOL.Refused, msg=word):
                TOOL.axis_of(word)

    def test_document(self):
        table = {"name": 'a"b', "exact": True, "coefficients": ["0.5", "1"], "delay": [{"class": "add", "base": 1, "per_bit": 2}]}
        self.assertEqual(tomllib.loads(TOOL.document(table)), table)

    def test_best(self):
        rows = [
            {"run": "1", "status": "ok", "latency": 1, "lut6": 9, "slack": 5},
            {"run": "2", "status": "ok", "latency": 2, "lut6": 5, "slack": 5},
            {"run": "3", "status": "ok", "latency": 2, "lut6": 6, "slack": 9},
            {"run": "4", "status": "BadName"},
            {"run": "5", "status": "ok", "latency": 2, "lut6": 5, "slack": 1},
        ]
        self.assertEqual(TOOL.best_runs(rows, ("latency", "lut6")), {"1", "2", "5"})
        self.assertEqual(TOOL.best_runs(rows, ("lut6", "slack")), {"2", "3"})


class Runs(unittest.TestCase):
    def setUp(self):
        self.folder = Path(tempfile.mkdtemp())
        self.addCleanup(shutil.rmtree, self.folder)
        self.addCleanup(os.chdir, os.getcwd())
        os.chdir(self.folder)
        self.program = self.folder / "program"
        self.program.write_text(PROGRAM)
        self.program.chmod(self.program.stat().st_mode | stat.S_IXUSR)

    def run_tool(self, *words):
        return loading.run(TOOL, *words)

    def swept(self, *words):
        axes = ("period=1000:5000:2000", "width=4,6")
        return self.run_tool(EXAMPLES / "times3.toml", *axes, "--no-yosys", "--opgen", self.program, *words)

    def test_csv(self):
        status, out, _ = self.swept("--csv", "--svg", "best.svg")
        lines = out.splitlines()
        self.assertEqual(status, 0)
        self.assertEqual(lines[0], "run,period,width,status,latency,slack,logic,add,choice,table,register,best")
        self.assertEqual(lines[1], "0001,1000,4,PeriodTooShort 2000,,,,,,,,0")
        self.assertEqual(lines[3], "0003,3000,4,ok,3,0,4,0,0,4,0,1")
        self.assertEqual(lines[6], "0006,5000,6,ok,2,0,6,0,0,4,0,0")
        self.assertTrue((self.folder / "best.svg").read_text().startswith("<svg"))
        self.assertIn("width = 6", (self.folder / "sweep_times3/0006/spec.toml").read_text())

    def test_table(self):
        out = self.swept("--best", "latency,slack")[1]
        self.assertIn("* best by latency and slack", out)
        self.assertIn("*  0005", out)

    def test_commands(self):
        """Each line runs alone; the table is that of the sweep itself."""
        lines = self.swept("--commands", "-o", "later")[1].splitlines()
        self.assertEqual(len(lines), 6)
        self.assertIn("not run", self.run_tool("--collect", "later")[1])
        for line in reversed(lines):
            subprocess.run(line, shell=True, check=True, cwd="/")
        self.assertEqual(self.run_tool("--collect", "later", "--csv")[1], self.swept("--csv")[1])

    def test_device(self):
        """The runs have the delay lines of the device, and the words of a run name the device that places."""
        with mock.patch.object(TOOL.placing, "is_installed", lambda: True):
            lines = self.swept("--commands", "--device", "hx8k", "--place", "up5k", "--seeds", "2")[1].splitlines()
        self.assertTrue(lines[0].endswith("--no-yosys --place up5k --seeds 2"), lines[0])
        spec = tomllib.loads((self.folder / "sweep_times3/0001/spec.toml").read_text())
        self.assertEqual({line["class"] for line in spec["delay"]}, {"wire", "logic", "add", "choice", "table", "register"})

    def test_missing_tool(self):
        with mock.patch.object(TOOL.placing, "is_installed", lambda: False):
            status, out, said = self.swept("--place", "hx8k", "--csv")
        self.assertEqual((status, said.startswith("sweep: not placed")), (0, True))
        self.assertNotIn("reached", out)

    @unittest.skipUnless(TOOL.placing.is_installed(), "nextpnr-ice40 is not installed")
    def test_placed(self):
        words = ("period=10000,20000", "--place", "hx8k", "--seeds", "1", "--best", "latency,reached", "--csv", "--no-yosys")
        status, out, _ = self.run_tool(EXAMPLES / "times3.toml", *words, "--bin", loading.TOOLS.parent / "bin/opgen")
        rows = [line.split(",") for line in out.splitlines()]
        self.assertEqual((status, rows[0][-3:]), (0, ["reached", "cells", "best"]))
        self.assertTrue(all(500 < int(row[-3]) < 10_000 and 6 <= int(row[-2]) <= 12 for row in rows[1:]), rows)

    def test_refusals(self):
        self.swept()
        status, _, said = self.swept()
        self.assertEqual(status, 2)
        self.assertIn("not empty", said)
        for words, status in (
            ((), 2),
            ((EXAMPLES / "times3.toml",), 2),
            ((EXAMPLES / "missing.toml", "period=1"), 1),
            ((EXAMPLES / "times3.vhd", "period=1"), 1),
            ((EXAMPLES / "times3.toml", "period"), 2),
            ((EXAMPLES / "times3.toml", "perod=1,2"), 2),
            ((EXAMPLES / "times3.toml", "divisor=3"), 2),
            ((EXAMPLES / "times3.toml", "compressor=dadda"), 2),
            ((EXAMPLES / "times3.toml", "width=3", "width=4"), 2),
            (("--collect", "nowhere"), 2),
            (("--collect", "sweep_times3", "--best", "latency,lut6"), 2),
            (("--collect", "sweep_times3", "--best", "latency"), 2),
        ):
            self.assertEqual(self.run_tool(*words)[0], status, words)
        self.assertIn("KEY=VALUES", self.run_tool("--help")[1])
        said = self.run_tool(EXAMPLES / "times3.toml", "perod=1,2", "-o", "other")[2]
        self.assertIn("no key perod; the keys are version, name, kind, exact, target, period, signed,", said)
        self.assertFalse((self.folder / "other").exists())

    def test_keys_of_other_kinds_and_versions(self):
        """A key is known if one of the kinds and versions that are swept has it."""
        spec = {"kind": "scale", "version": 1}
        TOOL.check_keys(spec, [("version", [1, 2]), ("compressor", ["dadda"])])
        TOOL.check_keys(spec, [("kind", ["scale", "mcm"]), ("extra", [1])])
        TOOL.check_keys(spec, [("version", [3]), ("out_width", [8, 10]), ("out_signed", [True, False])])
        TOOL.check_keys(spec, [("version", [2, 3]), ("kind", ["divide"]), ("signed", [True, False])])
        for axes in ([("out_width", [8])], [("version", [2]), ("out_signed", [True])], [("version", [2]), ("kind", ["divide"]), ("signed", [True])]):
            with self.assertRaises(TOOL.Refused):
                TOOL.check_keys(spec, axes)


if __name__ == "__main__":
    unittest.main()
