"""Names of signals beside ports that a user has named."""
import unittest

from opgenlib import inner, wrap_verilog, wrap_vhdl
from opgenlib.report import Port, Report
from opgenlib.sorts import Sort

PORTS = tuple(Port(name, name != "y", False, 2, 0) for name in ("a", "a_word", "row", "wire", "circuit", "valid", "y"))
FACTS = Report("odd", "sop", "exact", "plain", 1000, 1, 0, PORTS, {}, 9)


class Names(unittest.TestCase):
    def test_free(self) -> None:
        taken = {"row", "row_i"}
        self.assertEqual([inner.free(name, taken) for name in ("row", "row", "a")], ["row_i_i", "row_i_i_i", "a"])

    def test_words_of_templates(self) -> None:
        """Texts, comments, letters and what is filled in are no names."""
        self.assertEqual(inner.words_of("signal Row : bit; -- a comment\nassert x report \"words\" & 'q' & {name}_bench;", "--"),
                         {"signal", "row", "bit", "assert", "x", "report", "_bench"})

    def test_other_kinds_keep_their_names(self) -> None:
        """No port of another kind is called as a name of a template."""
        ports = {"a", "b", "d", "q", "r", "x", "y", *(f"y{at}" for at in range(8))}
        for template, comment in ((wrap_vhdl.BENCH, "--"), (wrap_verilog.BENCH, "//")):
            self.assertFalse(inner.words_of(template, comment) & ports)

    def test_texts(self) -> None:
        """Each signal of the wrapper and of the bench is declared once."""
        text = wrap_vhdl.wrap_text(FACTS, Sort(False, has_valid=True), "")
        self.assertIn("circuit_i : entity work.odd port map (clk => clk, a => a_word_i, a_word => a_word_word,", text)
        self.assertIn("signal valid_i : std_logic_vector(1 to 1)", text)
        bench = wrap_vhdl.bench_text(FACTS, Sort(False))
        self.assertIn("signal row_i : unsigned(1 downto 0)", bench)
        self.assertIn("row => row_i", bench)
        self.assertIn("variable a_word_i : std_logic_vector(1 downto 0);", bench)
        verilog = wrap_verilog.wrap_text(FACTS, Sort(False), "")
        self.assertIn("input wire [1:0] \\wire ,", verilog)
        self.assertIn(".\\wire (\\wire )", verilog)
        self.assertIn("\\odd circuit_i (", verilog)
        self.assertIn(".\\wire (wire_i)", wrap_verilog.bench_text(FACTS, Sort(False)))


if __name__ == "__main__":
    unittest.main()
