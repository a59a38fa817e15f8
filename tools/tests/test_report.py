"""Reports are read into values, and what is none is refused with its line."""
import json
import unittest
from fractions import Fraction

from opgenlib import report
from tests import loading
from tests.loading import EXAMPLES

TOOL = loading.tool_of("report")

GAIN = """operator gain
kind multiply
mode faithful
target plain
period 2500
latency 1
slack 310
input a signed 12 -11
input b unsigned 1 3
output y signed 13 -11
cells wire 44 logic 275 add 22 choice 0 table 0 register 39
signals 319
"""


class Reports(unittest.TestCase):
    def test_facts(self):
        facts = report.report_of(GAIN)
        self.assertEqual((facts.name, facts.kind, facts.mode, facts.target), ("gain", "multiply", "faithful", "plain"))
        self.assertEqual((facts.period, facts.latency, facts.slack, facts.signals), (2500, 1, 310, 319))
        self.assertFalse(facts.is_exact)
        self.assertEqual(facts.cells["register"], 39)
        self.assertEqual(facts.graph, ())

    def test_ports(self):
        facts = report.report_of(GAIN)
        self.assertEqual([port.name for port in facts.inputs], ["a", "b"])
        self.assertEqual([port.name for port in facts.outputs], ["y"])
        a, b = facts.inputs
        self.assertEqual((a.least, a.greatest, a.unit), (-2048, 2047, Fraction(1, 2048)))
        self.assertEqual((b.least, b.greatest, b.unit), (0, 1, 8))

    def test_graph(self):
        self.assertEqual(report.report_of(GAIN + "graph 3 45\n").graph, (3, 45))
        self.assertEqual(TOOL.graph_text((3, 45)), "adders make 3, 45")
        self.assertEqual(TOOL.graph_text(tuple(range(3, 37, 2))), "17 adders make 3 to 35")

    def refused(self, text, line, words):
        with self.assertRaises(report.NotReport) as caught:
            report.report_of(text)
        self.assertEqual(caught.exception.line, line)
        self.assertIn(words, str(caught.exception))

    def test_refusals(self):
        self.refused("", 1, "no cells, kind, latency")
        self.refused(GAIN.replace("period 2500", "period long"), 5, "'long' is no whole number")
        self.refused(GAIN.replace("input a signed", "input a big"), 8, "signed or unsigned")
        self.refused(GAIN.replace("choice 0 ", ""), 11, "a number for each of wire")
        self.refused("version = 1\n", 1, "no line of a report")
        self.refused(GAIN.replace("latency 1\n", ""), 12, "no latency")

    def test_json(self):
        """A script gets the facts and the ports."""
        status, out, said = loading.run(TOOL, "--json", EXAMPLES / "duty.rpt")
        self.assertEqual((status, said), (0, ""))
        found = json.loads(out)
        self.assertEqual({key: found[key] for key in ("operator", "kind", "exact", "target", "period", "latency", "slack")},
                         {"operator": "duty", "kind": "divide", "exact": True, "target": "plain", "period": 8000, "latency": 2,
                          "slack": 50})
        self.assertEqual(found["ports"][0], {"name": "a", "direction": "input", "signed": False, "width": 12, "lsb": 0,
                                             "unit": "1", "least": 0, "greatest": 4095})
        self.assertEqual([port["name"] for port in found["ports"]], ["a", "b", "q", "r"])
        self.assertEqual(found["cells"]["add"], 120)

    def test_words(self):
        out = loading.run(TOOL, EXAMPLES / "lowpass.rpt")[1]
        self.assertIn("latency 1 cycle, slack 200 ps\nin  x: signed, 12 bits, lsb 2^-11, from -1 to 1 - 2^-11\n", out)
        self.assertEqual(loading.run(TOOL, EXAMPLES / "lowpass.toml")[0], 1)
        self.assertEqual(loading.run(TOOL, "none.rpt")[0], 1)

    def test_examples(self):
        for path in sorted(EXAMPLES.glob("*.rpt")):
            self.assertEqual(report.read_report(path).name, path.stem)


if __name__ == "__main__":
    unittest.main()
