"""Tests of the reader of the VHDL subset: tokens with their places, pieces, ports and designs."""
import unittest

from opgenlib import schema
from opgenlib.vhdl import REFUSED_NAMES, NoToken, NotRead, Reader, design_of, entity_of, names_in, tokens_of, width_in
from tests.faulty import ENABLED, TABLE, VHDL

OTHERS = {"ieee", "work", "std", "std_logic", "std_logic_vector", "unsigned", "signed", "rising_edge", "numeric_std",
          "std_logic_1164"}


class Tokens(unittest.TestCase):
    def test_places(self) -> None:
        reader = Reader("a -- b; c\n  <= \"01\";")
        self.assertEqual([(token.written, str(reader.lines.place(token.at))) for token in reader.tokens],
                         [("a", "1:1"), ("<=", "2:3"), ('"01"', "2:6"), (";", "2:10")])

    def test_longest(self) -> None:
        self.assertEqual([token.written for token in tokens_of("a<=b:=c=>'0'12")],
                         ["a", "<=", "b", ":=", "c", "=>", "'0'", "12"])

    def test_no_token(self) -> None:
        for text, at in (("a__b", 0), ("a_", 0), ("1a", 0), ("0123456789", 0), ('""', 0), ('"2"', 0), ("a'1'", 1),
                         ("x" * 65, 0), ('"' + "0" * 97 + '"', 0)):
            with self.subTest(text), self.assertRaises(NoToken) as raised:
                tokens_of(text)
            self.assertEqual(raised.exception.at, at)
        self.assertEqual(len(tokens_of("x" * 64 + '"' + "0" * 96 + '"' + " 123456789")), 3)

    def test_refused_names(self) -> None:
        self.assertLessEqual(OTHERS | {"signal", "entity", "xor"}, REFUSED_NAMES)
        self.assertFalse(REFUSED_NAMES & {"clk", "x", "y7", "rtl", "s1"})


class Designs(unittest.TestCase):
    def test_examples(self) -> None:
        for path in sorted(schema.TOP.glob("examples/*.vhd")):
            with self.subTest(path.name):
                design = design_of(path.read_text(encoding="latin-1"))
                self.assertEqual(design.name, path.stem)

    def test_design(self) -> None:
        design = design_of(VHDL)
        self.assertEqual([(port.name, port.is_input, port.width) for port in design.ports],
                         [("x", True, 10), ("y", False, 10)])
        self.assertEqual([(signal.name, signal.width, signal.initial) for signal in design.signals],
                         [("s0", 10, None), ("s1", 10, "0" * 10)])
        self.assertEqual([(driver.kind, driver.to) for driver in design.drivers],
                         [("assign", "s0"), ("register", "s1"), ("output", "y")])
        self.assertEqual(entity_of(VHDL), (design.name, design.ports))
        self.assertEqual(design_of(ENABLED).enable, "ce")

    def test_table(self) -> None:
        table = design_of(TABLE).drivers[1]
        self.assertEqual((table.exprs, table.rows), ([("part", "s0", 1, 0)], [("00", "0"), ("01", "1"), (None, "0")]))

    def test_places(self) -> None:
        reader = Reader(VHDL)
        design = reader.design()
        self.assertEqual([str(reader.lines.place(one.at)) for one in (*design.ports, *design.signals, *design.drivers)],
                         ["8:5", "9:5", "14:10", "15:10", "17:3", "21:7", "24:3"])
        self.assertEqual([(use.name, use.is_port) for driver in design.drivers for use in driver.uses],
                         [("x", True), ("s0", False), ("s1", False)])

    def test_not_read(self) -> None:
        for old, new, place, expected in (
            ("is\n  port", "is\n  ports", "6:3", "`port`"),
            ("(9 downto 0);\n    y", "(96 downto 0);\n    y", "8:29", "the number of a bit, 0 to 95"),
            ("s1 <= s0", "s1 <= s0 + ", "21:18", "a signal, bits, unsigned(PORT), `not` or `(`"),
            ("end entity", "end begin", "11:5", "a name"),
        ):
            with self.subTest(new), self.assertRaises(NotRead) as raised:
                design_of(VHDL.replace(old, new))
            with self.subTest(new):
                self.assertEqual((str(raised.exception.place), raised.exception.expected), (place, expected))

    def test_pieces(self) -> None:
        reader = Reader(VHDL)
        last = len(reader.tokens) - 1
        self.assertEqual((reader.piece_of(0), reader.piece_of(3), reader.piece_of(last), reader.piece_of(last + 1)),
                         (1, 2, 15, 16))

    def test_depth(self) -> None:
        design_of(VHDL.replace("s1 <= s0", "s1 <= " + "(" * 64 + "s0" + ")" * 64))
        with self.assertRaises(NotRead):
            design_of(VHDL.replace("s1 <= s0", "s1 <= " + "(" * 65 + "s0" + ")" * 65))

    def test_expressions(self) -> None:
        value = '"0" & (s0(8 downto 4) xor not s1(4 downto 0)) & s0(3 downto 0)'
        expr = design_of(VHDL.replace("s1 <= s0", f"s1 <= {value}")).drivers[1].exprs[0]
        self.assertEqual(list(names_in(expr)), ["s0", "s1", "s0"])
        self.assertEqual(width_in(expr, {"s0": 10, "s1": 10}, {}), 10)
        self.assertIsNone(width_in(expr, {"s0": 8, "s1": 10}, {}))


if __name__ == "__main__":
    unittest.main()
