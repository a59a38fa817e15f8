"""The files that `tools/wrap` writes have the facts of the report, and files that do not fit together are refused."""
import os
import runpy
import shutil
import sys
import tempfile
import types
import unittest
from pathlib import Path
from unittest import mock

from tests import loading
from tests.loading import EXAMPLES

from opgenlib import wrap_stream
from opgenlib.report import Port

TOOL = loading.tool_of("wrap")


class Folder(unittest.TestCase):
    """A folder of its own, in which the tool runs."""

    def setUp(self):
        self.folder = Path(tempfile.mkdtemp())
        self.addCleanup(shutil.rmtree, self.folder)
        self.addCleanup(os.chdir, os.getcwd())
        os.chdir(self.folder)

    def copy(self, name):
        for ending in (".toml", ".rpt", ".vhd"):
            shutil.copy(EXAMPLES / f"{name}{ending}", self.folder)

    def run_tool(self, *words):
        status, out, said = loading.run(TOOL, *words)
        return status, out + said

    def change(self, file, old, new):
        path = self.folder / file
        path.write_text(path.read_text().replace(old, new, 1))


class Wrappers(Folder):
    def test_package(self):
        self.assertEqual(self.run_tool(EXAMPLES / "duty"), (0, "wrote duty_wrap.vhd\n"))
        text = (self.folder / "duty_wrap.vhd").read_text()
        self.assertIn("constant duty_latency : natural := 2;", text)
        self.assertIn("constant duty_a_width : positive := 12;", text)
        self.assertIn("    a : in unsigned(11 downto 0);", text)
        self.assertIn("-- duty: q = a / b, rounded down, and r = a - q b", text)
        self.assertIn("--     width_b = 8\n", text)
        self.assertNotIn("    ce :", text)

    def test_specification(self):
        """A specification of another name than its operator's, with the files beside it or in the current folder."""
        self.copy("duty")
        (self.folder / "specs").mkdir()
        (self.folder / "duty.toml").rename(self.folder / "specs/mine.toml")
        self.assertEqual(self.run_tool("specs/mine.toml"), (0, "wrote duty_wrap.vhd\n"))
        for ending in ("vhd", "rpt"):
            (self.folder / f"duty.{ending}").rename(self.folder / f"specs/duty.{ending}")
        self.assertEqual(self.run_tool("specs/mine.toml"), (0, "wrote duty_wrap.vhd\n"))
        self.assertEqual(self.run_tool(EXAMPLES / "duty.toml"), (0, "wrote duty_wrap.vhd\n"))

    def test_enable(self):
        self.run_tool("--bench", EXAMPLES / "held")
        self.assertIn("    ce : in std_logic;", (self.folder / "held_wrap.vhd").read_text())
        self.assertIn("ce <= '0';", (self.folder / "held_bench.vhd").read_text())

    def test_signs(self):
        self.run_tool(EXAMPLES / "lowpass")
        text = (self.folder / "lowpass_wrap.vhd").read_text()
        self.assertIn("--     x: signed, 12 bits, lsb 2^-11, from -1 to 1 - 2^-11\n", text)
        self.assertIn("y <= signed(y_word);", text)
        self.assertIn("faithful: less than 2^-11 from the exact value", text)

    def test_signed_quotient(self):
        self.run_tool("--bench", EXAMPLES / "share")
        text = (self.folder / "share_wrap.vhd").read_text()
        for line in ("    a : in signed(11 downto 0);", "    b : in signed(5 downto 0);", "    q : out signed(12 downto 0);", "    r : out signed(5 downto 0)",
                     "  q <= signed(q_word);", "--     q: signed, 13 bits, lsb 2^0, from -4096 to 4096 - 1"):
            self.assertIn(f"{line}\n", text)
        self.run_tool("--verilog", EXAMPLES / "share")
        text = (self.folder / "share_wrap.v").read_text()
        self.assertIn("  output wire signed [12:0] q,\n  output wire signed [5:0] r\n", text)

    def test_chosen_width(self):
        self.run_tool(EXAMPLES / "clip")
        text = (self.folder / "clip_wrap.vhd").read_text()
        self.assertIn("c0 to c4 the coefficients below over 8, saturated to 12 bits\n", text)
        self.assertIn("    y : out signed(11 downto 0)\n", text)
        self.assertIn("faithful: less than 2^-11 from the saturated value", text)

    def test_letters(self):
        """A comment of the specification is ASCII in the VHDL."""
        self.copy("times3")
        self.change("times3.toml", "version", "# \u00b5\nversion")
        self.assertEqual(self.run_tool("times3")[0], 0)
        self.assertTrue((self.folder / "times3_wrap.vhd").read_text().isascii())

    def test_verilog(self):
        self.assertEqual(self.run_tool("--verilog", "--bench", EXAMPLES / "gain"),
                         (0, "wrote gain.v, gain_pkg.vh, gain_wrap.v and gain_bench.v\n"))
        text = (self.folder / "gain_wrap.v").read_text()
        self.assertIn("  input wire signed [11:0] a,\n", text)
        self.assertIn("  output wire signed [12:0] y\n", text)
        self.assertIn("// gain: y = a * b\n", text)
        constants = (self.folder / "gain_pkg.vh").read_text()
        for line in ("GAIN_LATENCY 1", "GAIN_PERIOD 2500", "GAIN_B_WIDTH 10", "GAIN_B_LSB -9", "GAIN_Y_SIGNED 1"):
            self.assertIn(f"`define {line}\n", constants)

    def test_valid(self):
        self.run_tool("--valid", EXAMPLES / "duty")
        text = (self.folder / "duty_wrap.vhd").read_text()
        self.assertIn("signal valid : std_logic_vector(1 to 2) := (others => '0');", text)
        self.assertEqual(text.count("    valid_in : in std_logic;"), 2)
        self.run_tool("--valid", "--verilog", EXAMPLES / "duty")
        self.assertIn("reg [1:0] valid = 2'd0;", (self.folder / "duty_wrap.v").read_text())

    def test_valid_of_a_filter(self):
        """Its delays take gaps too, so it is refused without an enable, which the valid bit drives."""
        status, said = self.run_tool("--valid", EXAMPLES / "lowpass")
        self.assertEqual((status, list(self.folder.iterdir())), (1, []))
        self.assertIn(f"for --valid make one with an enable: opgen generate --enable {EXAMPLES / 'lowpass.toml'}", said)
        self.copy("lowpass")
        for old, new in (("    x : in std_logic_vector", "    ce : in std_logic_vector(0 downto 0);\n    x : in std_logic_vector"),
                         ("if rising_edge(clk) then", 'if rising_edge(clk) then if ce = "1" then')):
            self.change("lowpass.vhd", old, new)
        self.change("lowpass.vhd", "    end if;\n  end process", "    end if; end if;\n  end process")
        self.assertEqual(self.run_tool("--valid", "--bench", "lowpass")[0], 0)
        text = (self.folder / "lowpass_wrap.vhd").read_text()
        self.assertNotIn("ce : in std_logic;", text)
        self.assertIn("  ce_word(0) <= valid_in;\n", text)
        self.assertIn("  valid_out <= valid_in and valid(1);\n", text)
        self.assertEqual(self.run_tool("--valid", "--verilog", "lowpass")[0], 0)
        text = (self.folder / "lowpass_wrap.v").read_text()
        self.assertIn(".ce(valid_in)", text)
        self.assertIn("  assign valid_out = valid_in & valid[0];\n", text)

    def test_stream(self):
        """The places of ports in the words of a stream, worked out by hand, and what is refused."""
        fields = wrap_stream.fields_of([Port("a", True, False, 12, 0), Port("b", True, True, 8, 0), Port("c", True, True, 17, 0)])
        self.assertEqual([(field.low, field.high, field.end) for field in fields], [(0, 11, 15), (16, 23, 23), (24, 40, 47)])
        status, said = self.run_tool("--stream", EXAMPLES / "duty")
        self.assertEqual((status, list(self.folder.iterdir())), (1, []))
        self.assertIn(f"has no clock enable, by which a stream stalls; make one: opgen generate --enable {EXAMPLES / 'duty.toml'}", said)
        self.assertEqual(self.run_tool("--stream", "--valid", EXAMPLES / "held")[0], 2)
        self.assertEqual(self.run_tool("--stream", "--core", EXAMPLES / "held"),
                         (0, "wrote held_stream.vhd, held_stream_bench.vhd and held.core\n"))
        core = (self.folder / "held.core").read_text()
        for line in ("      - held_stream.vhd\n", "    toplevel: held_stream\n", "    toplevel: held_stream_bench\n"):
            self.assertIn(line, core)
        text = (self.folder / "held_stream.vhd").read_text()
        for name in ("s_axis_tvalid", "s_axis_tready", "s_axis_tdata", "s_axis_tlast", "m_axis_tvalid", "m_axis_tready", "m_axis_tdata",
                     "m_axis_tlast"):
            self.assertEqual(text.count(f"    {name} : "), 1)
        self.assertEqual(self.run_tool("--stream", "--verilog", "--bench", EXAMPLES / "held"),
                         (0, "wrote held.v, held_stream.v and held_stream_bench.v\n"))

    def test_core(self):
        self.run_tool("--core", "--bench", EXAMPLES / "duty")
        text = (self.folder / "duty.core").read_text()
        self.assertTrue(text.startswith("CAPI=2:\n\nname: opgen:operators:duty:1.0.0\n"))
        self.assertIn("      - duty.vhd\n      - duty_wrap.vhd\n    file_type: vhdlSource-93\n", text)
        self.assertIn("    default_tool: ghdl\n", text)
        for extra, tool in ((("--verilog",), "icarus"), (("--verilog", "--bench"), "icarus")):
            self.run_tool("--core", *extra, EXAMPLES / "duty")
            text = (self.folder / "duty.core").read_text()
            self.assertIn("      - duty_pkg.vh: {is_include_file: true}\n    file_type: verilogSource\n", text)
            self.assertIn(f"default_tool: {tool}", text)
            self.assertTrue((self.folder / "duty_bench.v").exists())

    def test_refusals(self):
        self.assertEqual(self.run_tool("missing")[0], 1)
        for file, old, new, words in (
            ("times3.toml", "period = 10000", "period = 9000", "has period 9000 and its report 10000"),
            ("times3.toml", "exact = true", "exact = false", "disagree on `exact`"),
            ("times3.toml", "period = 10000", "period =", "no TOML"),
            ("times3.rpt", "unsigned 6 0", "unsigned 7 0", "different names or ports"),
            ("times3.rpt", "latency 0", "latency", "is no report: line 6"),
            ("times3.vhd", "entity times3", "entity", "expected"),
        ):
            self.copy("times3")
            self.change(file, old, new)
            status, said = self.run_tool("times3")
            self.assertEqual(status, 1, words)
            self.assertIn(words, said)
            self.assertFalse((self.folder / "times3_wrap.vhd").exists())


class Handle:
    """A port of a circuit under cocotb."""

    def __init__(self, value=0):
        self.value = value


class Cocotb(Folder):
    """The test for cocotb, which is not installed here: a stand-in with the names that it uses runs it over rows."""

    def ran(self, rows):
        """Runs the test over a circuit that has the outputs of the example's rows."""
        known = [[int(word, 16) for word in line.partition(" : ")[2].split()] for line in rows]
        dut = types.SimpleNamespace(**{name: Handle() for name in ("clk", "a", "b", "q", "r")})

        class Timer:
            """Time that passes: with the clock low the outputs of the next row come."""

            def __init__(self, *_):
                pass

            def __await__(self):
                if not dut.clk.value:
                    dut.q.value, dut.r.value = known.pop(0)
                return iter(())

        stand_in = types.ModuleType("cocotb")
        stand_in.test = lambda: lambda function: function
        triggers = types.ModuleType("cocotb.triggers")
        triggers.Timer = Timer
        with mock.patch.dict(sys.modules, {"cocotb": stand_in, "cocotb.triggers": triggers}):
            space = runpy.run_path(str(self.folder / "test_duty.py"))
        with self.assertRaises(StopIteration):
            space["outputs_of_rows"](dut).send(None)

    def test_rows(self):
        shutil.copy(EXAMPLES / "duty.vec", self.folder)
        self.assertEqual(self.run_tool("--cocotb", EXAMPLES / "duty"), (0, "wrote duty_wrap.vhd and test_duty.py\n"))
        rows = (EXAMPLES / "duty.vec").read_text().splitlines()
        self.ran(rows)
        with self.assertRaisesRegex(AssertionError, "row 5: "):
            self.ran([*rows[:5], "000 01 : 000 01", *rows[6:]])


if __name__ == "__main__":
    unittest.main()
