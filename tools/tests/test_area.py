"""Sizes of circuits beside texts by hand: logic cells, rows of the file, sums in series; and what texts by hand compute."""
import itertools
import shutil
import tempfile
import unittest
from pathlib import Path

from tests import loading

BENCH = loading.tool_of("../bench/area")
areas, yosys, vhdl = BENCH.areas, BENCH.yosys, BENCH.vhdl
products, quotients = BENCH.chained.products, BENCH.chained.quotients
Text = products.Text
VHDL = """library ieee; use ieee.std_logic_1164.all; use ieee.numeric_std.all;
entity sums is port (clk : in std_logic; x : in std_logic_vector(3 downto 0); y : out std_logic_vector(3 downto 0)); end;
architecture rtl of sums is
  signal s0 : unsigned(3 downto 0);
  signal s1 : unsigned(3 downto 0);
  signal s2 : unsigned(3 downto 0) := "0000";
begin
  s0 <= unsigned(x);
  s1 <= {sum};
  y <= std_logic_vector(s2);
  process (clk) begin if rising_edge(clk) then s2 <= {held}; end if; end process;
end;
"""


def cell(kind: str, **bits) -> dict:
    """A cell of a netlist; `O`, `CO` and `Q` are outputs."""
    return {"type": kind, "connections": {port: [bit] for port, bit in bits.items()},
            "port_directions": {port: "output" if port in ("O", "CO", "Q") else "input" for port in bits}}


def row(device: str, made: str, sums: int, places: int) -> "areas.Row":
    return areas.Row("one", device, made, sums, places, 0, 0, places)


class Cells(unittest.TestCase):
    def test_carry_beside_its_sum(self):
        """A carry is in the cell of the table that reads the same three bits; another one has a cell of its own."""
        table = cell("SB_LUT4", I0="0", I1=2, I2=3, I3=4, O=5)
        carry = cell("SB_CARRY", I0=2, I1=3, CI=4, CO=6)
        ports = {"y": {"direction": "output", "bits": [5]}}
        self.assertEqual(yosys.cells_in_ice40({"cells": {"t": table, "c": carry}, "ports": ports}), 1)
        self.assertEqual(yosys.cells_in_ice40({"cells": {"t": table, "c": carry, "d": carry}, "ports": ports}), 2)

    def test_flip_flop_behind_its_table(self):
        """A flip-flop is in the cell of the table that drives nothing else."""
        table, held = cell("SB_LUT4", I0=2, I1=3, I2="0", I3="0", O=5), cell("SB_DFF", C=9, D=5, Q=6)
        ports = {"y": {"direction": "output", "bits": [6]}}
        self.assertEqual(yosys.cells_in_ice40({"cells": {"t": table, "f": held}, "ports": ports}), 1)
        ports["z"] = {"direction": "output", "bits": [5]}
        self.assertEqual(yosys.cells_in_ice40({"cells": {"t": table, "f": held}, "ports": ports}), 2)


class Rows(unittest.TestCase):
    def test_file(self):
        """What was added is read again, in order; a file of other columns is none."""
        with tempfile.TemporaryDirectory() as name:
            path = Path(name) / "rows.csv"
            self.assertEqual(areas.read_rows(path), [])
            first, second = row("ice40", "`fir`", 2, 7), row("ecp5", "by hand, a, b", -1, 5)
            areas.add_rows(path, [first])
            areas.add_rows(path, [second])
            self.assertEqual(areas.read_rows(path), [first, second])
            path.write_text("case,device\n")
            with self.assertRaises(areas.NotRows):
                areas.read_rows(path)

    def test_lines(self):
        """The best circuit, the best text by hand, and the best one with no more sums in series, of a device."""
        rows = [row("ice40", "`fir`", 2, 8), row("ice40", "`tfir`", 3, 9), row("series7", "`fir`", 2, 1)]
        rows += [row("ice40", "by hand, line", 5, 4), row("ice40", "by hand, tree", 2, 6), row("ice40", "by hand, `*`", -1, 5)]
        (line,) = areas.lines_of(rows, "ice40")
        self.assertEqual((line.own.made, line.hand.made, line.level.made), ("`fir`", "by hand, line", "by hand, tree"))
        self.assertEqual(list(areas.lines_of(rows, "series7")), [])
        self.assertIn("geometric mean of 1 circuits: 0.50", "\n".join(areas.table(rows)))

    def test_sums_in_series(self):
        for words, sums in ((("s0 + s0", "s1"), 1), (("s0 + s0 + s0", "s1 - s0"), 3), (("s2 + s0", "s1"), 1), (("not s0", "s1"), 0)):
            with self.subTest(words=words):
                design = vhdl.design_of(VHDL.format(sum=words[0], held=words[1]))
                self.assertEqual(areas.sums_in_series(design), sums)


def port(name: str, is_input: bool, is_signed: bool, width: int):
    return BENCH.report.Port(name, is_input, is_signed, width, 0)


def outputs(text: str, ports: list) -> list[tuple[list[int], list[int]]]:
    """Numbers in and out of a text for all words at its inputs."""
    facts = BENCH.report.Report("circuit", "multiply", "exact", "plain", 1, 0, 0, tuple(ports), {}, 0)
    words = [list(row) for row in itertools.product(*(range(1 << port.width) for port in facts.inputs))]
    numbers = lambda row, ports: [BENCH.rows.unit_count(word, port) for word, port in zip(row, ports)]
    return [(numbers(row, facts.inputs), numbers(left, facts.outputs)) for row, left in zip(words, BENCH.outputs_of(text, facts, words))]


@unittest.skipUnless(shutil.which("iverilog"), "Icarus Verilog is not installed")
class Texts(unittest.TestCase):
    def product(self, recoding: str, order: str, is_even: bool, is_signed: bool, dropped: int = 0) -> None:
        """A product of four by three bits over all inputs."""
        text = Text("input [3:0] a, input [2:0] b")
        rows = products.product_rows(text, text.input("a", 4, is_signed), text.input("b", 3, is_signed), recoding, is_even)
        total = products.cut_sum(text, rows, order, 7, dropped) if dropped else products.summed(text, rows, order, 7)
        text.output("y", 7 - dropped, total, dropped)
        ports = [port("a", True, is_signed, 4), port("b", True, is_signed, 3), port("y", False, is_signed, 7 - dropped)]
        for (a, b), (y,) in outputs(text.written(), ports):
            self.assertLess(abs((y << dropped) - a * b), 1 << dropped if dropped else 1, (recoding, order, is_even, is_signed, a, b))

    def test_products(self):
        for form in itertools.product(products.RECODINGS, ("line", "tree"), (False, True), (False, True)):
            self.product(*form)

    def test_cut_products(self):
        for recoding, is_signed in itertools.product(products.RECODINGS, (False, True)):
            self.product(recoding, "line", False, is_signed, 4)

    def test_squares(self):
        for order, is_signed in itertools.product(("line", "tree"), (False, True)):
            text = Text("input [4:0] a")
            text.output("y", 10, products.summed(text, products.square_rows(text, text.input("a", 5, is_signed)), order, 10))
            for (a,), (y,) in outputs(text.written(), [port("a", True, is_signed, 5), port("y", False, False, 10)]):
                self.assertEqual(y, a * a, (order, is_signed))

    def test_quotients(self):
        """Of numbers without signs by both ways, and of signed ones rounded towards 0."""
        ports = [port("a", True, False, 5), port("b", True, False, 3), port("q", False, False, 5), port("r", False, False, 3)]
        for build in (quotients.nonrestoring, quotients.restoring):
            for (a, b), left in outputs(build(5, 3).written(), ports):
                if b:
                    self.assertEqual(tuple(left), divmod(a, b), build.__name__)
        ports = [port("a", True, True, 5), port("b", True, True, 3), port("q", False, True, 6), port("r", False, True, 3)]
        for (a, b), left in outputs(quotients.signed_nonrestoring(5, 3).written(), ports):
            if b:
                size = abs(a) // abs(b) * (1 if (a < 0) == (b < 0) else -1)
                self.assertEqual(left, [size, a - size * b])


if __name__ == "__main__":
    unittest.main()
