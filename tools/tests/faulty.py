"""A wrong file for each line of the manual's index, with the line that the program prints over it and its explanation.

The places in the explanations were found by reading the files, not by running the tools."""
from dataclasses import dataclass

from opgenlib import schema

SCALE = """\
version = 1
name = "first"
kind = "scale"
exact = true
target = "plain"
period = 10000
signed = false
width = 4
lsb = 0
out_lsb = 0
coefficients = [3]
"""
DIVIDE = """\
version = 1
name = "first"
kind = "divide"
exact = true
target = "plain"
period = 10000
width_a = 4
lsb_a = 0
width_b = 4
lsb_b = 0
out_lsb = 0
"""
MULTIPLY = """\
version = 1
name = "first"
kind = "multiply"
exact = true
target = "plain"
period = 10000
signed = true
width_a = 4
lsb_a = 0
width_b = 4
lsb_b = -1
out_lsb = 0
"""
WHOLE = MULTIPLY.replace("lsb_b = -1", "lsb_b = 0")
SCALE3 = SCALE.replace("version = 1", "version = 3")
SCALE4 = SCALE.replace("version = 1", "version = 4")
DADDA = 'compressor = "dadda"\n'
ROOT = """\
version = 2
name = "first"
kind = "root"
exact = true
target = "plain"
period = 10000
width = 4
lsb = 0
out_lsb = 0
"""
FIR = SCALE.replace('"scale"', '"fir"')
MCM = """\
version = 1
name = "first"
kind = "mcm"
exact = true
target = "plain"
period = 10000
signed = false
width = 4
lsb = 0
constants = [3]
extra = 0
"""
CONSTDIV = """\
version = 2
name = "first"
kind = "constdiv"
exact = true
target = "plain"
period = 10000
width = 4
lsb = 0
divisor = 3
"""
TFIR = MCM.replace("version = 1", "version = 2").replace('"mcm"', '"tfir"').replace("constants", "taps")
POLY = """\
version = 2
name = "first"
kind = "poly"
exact = false
target = "plain"
period = 10000
width = 4
out_lsb = 0
coefficients = [0, 1]
"""
BY_RULE = TFIR.replace("version = 2", "version = 3").replace("extra = 0\n", "")
CUT = TFIR.replace("version = 2", "version = 3") + "out_lsb = 2\n"
SOP = """\
version = 3
name = "first"
kind = "sop"
exact = true
target = "plain"
period = 10000
out_lsb = 0

[[input]]
name = "a"
signed = true
width = 4
lsb = 0

[[input]]
name = "b"
signed = true
width = 4
lsb = 0

[[scaled]]
input = "b"
coefficient = 3

[[product]]
a = "a"
b = "b"
"""
SOP_HEAD = SOP.partition("\n\n")[0] + "\n"
NAMES = "  expected 1 to 32 of small letters, digits and single _, a letter first, and no word of VHDL, rtl, clk, ce or y"
DELAYS = SCALE + '[[delay]]\nclass = "add"\nbase = 1\nper_bit = 1\n\n[[delay]]\nclass = "logic"\nbase = 1\nper_bit = 1\n'
KEYS = "version, name, kind, exact, target, period, signed, width, lsb, out_lsb, coefficients, denominator, delay"
KINDS = ", ".join(schema.rules_of("kind", {"version": 1})["enum"])
SIGNED = ", ".join(schema.kinds_with("signed"))
MORE_TAPS = "without a search there may be 1 to 256 taps, each -1048575 to 1048575"
SUBSET = '(docs/MANUAL.md, "Write VHDL for simulate")'
VHDL = """\
library ieee;
use ieee.std_logic_1164.all;
use ieee.numeric_std.all;

entity first is
  port (
    clk : in std_logic;
    x : in std_logic_vector(9 downto 0);
    y : out std_logic_vector(9 downto 0)
  );
end entity;

architecture rtl of first is
  signal s0 : unsigned(9 downto 0);
  signal s1 : unsigned(9 downto 0) := (others => '0');
begin
  s0 <= unsigned(x);
  process (clk)
  begin
    if rising_edge(clk) then
      s1 <= s0;
    end if;
  end process;
  y <= std_logic_vector(s1);
end architecture;
"""
TABLE = VHDL.replace(
    "  process (clk)",
    '  with s0(1 downto 0) select t <=\n    "0" when "00",\n    "1" when "01",\n    "0" when others;\n  process (clk)',
).replace("begin\n  s0", "  signal t : unsigned(0 downto 0);\nbegin\n  s0")
NO_INPUT = VHDL.replace("    x : in std_logic_vector(9 downto 0);\n", "").replace("unsigned(x)", '"0000000000"')
ENABLED = VHDL.replace("    x : in", "    ce : in std_logic_vector(0 downto 0);\n    x : in").replace(
    "      s1 <= s0;\n", '      if ce = "1" then\n        s1 <= s0;\n      end if;\n'
)


@dataclass(frozen=True)
class Case:
    """Files, the words behind the program's name, its status and line, and what is explained."""

    name: str
    files: dict[str, str | bytes]
    words: list[str]
    status: int
    line: str
    explained: list[str]
    # The report of the specification, by which the program is asked for its ports.
    report: str = ""


def generated(name: str, text: str | bytes, line: str, *explained: str) -> Case:
    """A specification that is refused."""
    return Case(name, {"first.toml": text}, ["generate", "first.toml"], 1, f"specification: {line}", list(explained))


def simulated(name: str, text: str, line: str, *explained: str) -> Case:
    """A design that is refused."""
    files = {"my.vhd": text, "h.in": ""}
    return Case(name, files, ["simulate", "my.vhd", "h.in", "h.out"], 6, f"vhdl: {line}", list(explained))


def no_token(name: str, text: str, mark: str, *explained: str) -> Case:
    """A design that is refused at the byte where a text begins."""
    return simulated(name, text, f"Lexical {text.index(mark)}", *explained)


def rows(name: str, text: str | bytes, line: str, *explained: str, vhdl: str = VHDL) -> Case:
    """Rows that are refused."""
    files = {"my.vhd": vhdl, "h.in": text}
    return Case(name, files, ["simulate", "my.vhd", "h.in", "h.out"], 7, f"vectors: {line}", list(explained))


def used(name: str, words: str, *explained: str) -> Case:
    """Words that are no command."""
    line = "usage: opgen COMMAND (generate, vectors, simulate, workload, check)"
    return Case(name, {"first.toml": SCALE}, words.split(), 2, line, list(explained))


def failed(name: str, files: dict[str, str | bytes], words: str, status: int, line: str, *explained: str) -> Case:
    """Files that cannot be read or written, or are too long."""
    return Case(name, files, words.split(), status, line, list(explained))


SPECIFICATIONS = [
    generated("a quote is missing", SCALE.replace('"first"', '"first'), "NotToml",
              'first.toml:2:8: no TOML: `"` is never closed on its line'),
    generated("a key twice", SCALE + "width = 5\n", "NotToml",
              "first.toml:12:1: no TOML: key width is there twice, first in line 8"),
    generated("no quotes", SCALE.replace('"plain"', "plain"), "NotToml",
              "first.toml:5:10: no TOML: plain is no value of TOML; a text is written between double quotes"),
    generated("a bracket is missing", SCALE.replace("[3]", "[3"), "NotToml",
              "first.toml:11:16: no TOML: `[` is never closed by `]`"),
    generated("no value", SCALE.replace("lsb = 0\nout", "lsb 0\nout"), "NotToml",
              "first.toml:9:5: no TOML: `=` and a value are expected behind the key lsb"),
    generated("a number of 65 bits", SCALE.replace("10000", "9223372036854775808"), "NotToml",
              "first.toml:6:10: no TOML: 9223372036854775808 has more than 64 bits"),
    generated("no UTF-8", SCALE.encode() + b"# \xff\n", "NotToml", "first.toml:12:3: no TOML: byte 0xff is no UTF-8"),
    generated("a misspelt key", SCALE.replace("width", "widht"), "UnknownKey 0 10",
              f'first.toml:8:1: unknown key "widht" of kind scale; did you mean width? its keys are {KEYS}'),
    generated("a key of another kind", DIVIDE + "signed = false\n", "UnknownKey 0 7",
              'first.toml:12:1: unknown key "signed" of kind divide; its keys are '
              "version, name, kind, exact, target, period, width_a, lsb_a, width_b, lsb_b, out_lsb, delay",
              "  signed is a key of version 3: take it out, or write version = 3"),
    generated("signed roots", ROOT + "signed = false\n", "UnknownKey 0 6",
              'first.toml:10:1: unknown key "signed" of kind root; its keys are '
              "version, name, kind, exact, target, period, width, lsb, out_lsb, delay",
              f"  signed is a key of {SIGNED}: take it out, or change kind"),
    generated("an output of a chosen width in version 1", SCALE + "out_width = 4\n", "UnknownKey 0 6",
              f'first.toml:12:1: unknown key "out_width" of kind scale; its keys are {KEYS}',
              "  out_width is a key of version 3: take it out, or write version = 3"),
    generated("a sign without a width", SCALE3 + "out_signed = true\n", "WrongType out_signed",
              "first.toml:12:1: out_signed is there without out_width",
              "  write out_width too, 2 to 96, or take out_signed out"),
    generated("a sign that is a number", SCALE3 + "out_width = 4\nout_signed = 1\n", "WrongType out_signed",
              "first.toml:13:14: out_signed is 1, a whole number; expected true or false"),
    generated("an output of one bit", SCALE3 + "out_width = 1\n", "OutOfRange out_width 1",
              "first.toml:12:13: out_width is 1; expected 2 to 96"),
    generated("an output of 97 bits", SCALE3 + "out_width = 97\n", "OutOfRange out_width 97",
              "first.toml:12:13: out_width is 97; expected 2 to 96"),
    generated("a signed dividend of one bit", DIVIDE.replace("version = 1", "version = 3").replace("width_a = 4", "width_a = 1") + "signed = true\n",
              "OutOfRange width_a 1", "first.toml:7:11: width_a is 1; expected 2 to 48", "  a signed input has two bits or more"),
    generated("a place below those of version 3", SCALE3.replace("lsb = 0\nout", "lsb = -65\nout"), "OutOfRange lsb -65",
              "first.toml:9:7: lsb is -65; expected -64 to 64"),
    generated("a low place of a quotient", DIVIDE.replace("version = 1", "version = 3").replace("lsb_a = 0", "lsb_a = -33"), "OutOfRange lsb_a -33",
              "first.toml:8:9: lsb_a is -33; expected -32 to 32"),
    generated("a key of a delay line", DELAYS.replace('class = "logic"', 'class = "logic"\nwidth = 3'), "UnknownKey 2 3",
              'first.toml:19:1: unknown key "width" of delay line 2; its keys are class, base, per_bit'),
    generated("a key is missing", SCALE.replace("width = 4\n", ""), "MissingKey width",
              'first.toml: the key "width" of kind scale is missing',
              "  add a line as: width = 10               # bits of x; 1 to 48; 2 or more where signed"),
    generated("a key of a delay line is missing", DELAYS[:-len("per_bit = 1\n")], "MissingKey per_bit 2",
              'first.toml:17:1: delay line 2 has no key "per_bit"',
              "  add it as: per_bit = 0              # 0 to 10000"),
    generated("a float", SCALE.replace("10000", "2.5e3"), "WrongType period",
              "first.toml:6:10: period is 2.5e3, a float; expected a whole number of picoseconds, 1 to 1000000, as 2500"),
    generated("a text for a number", SCALE.replace("lsb = 0\nout", 'lsb = "0"\nout'), "WrongType lsb",
              'first.toml:9:7: lsb is "0", a text; expected a whole number, -32 to 32, as 0'),
    generated("a float among the coefficients", FIR.replace("[3]", "[3, 4.0]"), "WrongType coefficients",
              "first.toml:11:20: element 2 of coefficients is 4.0, a float; expected an array of whole numbers, "
              '-1073741824 to 1073741824 or of decimal texts, as "0.25"',
              "  tools/rows coefficients FILE.csv writes real numbers as whole ones"),
    generated("a decimal text of twelve digits", FIR.replace("[3]", '["3.14159265358"]').replace("true", "false"), "WrongType coefficients",
              'first.toml:11:17: element 1 of coefficients is "3.14159265358", a text; expected an array of whole numbers, '
              '-1073741824 to 1073741824 or of decimal texts, as "0.25"',
              "  a decimal text has one to 9 digits, and no exponent or +; it has 12 digits: write \"3.14159265\", which is near it"),
    generated("an exponent", FIR.replace("[3]", '["0.5", "1e-3"]').replace("true", "false"), "WrongType coefficients",
              'first.toml:11:24: element 2 of coefficients is "1e-3", a text; expected an array of whole numbers, '
              '-1073741824 to 1073741824 or of decimal texts, as "0.25"',
              "  a decimal text has one to 9 digits, and no exponent or +; it has an exponent: write \"0.001\""),
    generated("a text that is no number", FIR.replace("[3]", '["half"]').replace("true", "false"), "WrongType coefficients",
              'first.toml:11:17: element 1 of coefficients is "half", a text; expected an array of whole numbers, '
              '-1073741824 to 1073741824 or of decimal texts, as "0.25"',
              "  a decimal text is an optional -, digits, and optionally a point and digits"),
    generated("a large number as a text", FIR.replace("[3]", '["12345678901"]').replace("true", "false"), "WrongType coefficients",
              'first.toml:11:17: element 1 of coefficients is "12345678901", a text; expected an array of whole numbers, '
              '-1073741824 to 1073741824 or of decimal texts, as "0.25"',
              "  a decimal text has one to 9 digits, and no exponent or +; it has 11 digits: write whole numbers over a denominator"),
    generated("a truth value of Python", SCALE.replace("true", "False"), "NotToml",
              "first.toml:4:9: no TOML: False is no value of TOML; write false"),
    generated("a low output", SCALE.replace("exact = true", "exact = false").replace("lsb = 0\nout_lsb = 0", "lsb = -30\nout_lsb = -34"),
              "OutOfRange out_lsb -34", "first.toml:10:11: out_lsb is -34; expected -32 to 32, in version 3 from -64 to 64",
              "  write lsb = 0 and out_lsb = -4: only the difference counts, and the places are yours to count"),
    generated("a low product", MULTIPLY.replace("lsb_a = 0", "lsb_a = -17").replace("lsb_b = -1\nout_lsb = 0", "lsb_b = -17\nout_lsb = -34"),
              "OutOfRange out_lsb -34", "first.toml:12:11: out_lsb is -34; expected -32 to 32, in version 3 from -64 to 64",
              "  write lsb_a = 0, lsb_b = 0 and out_lsb = 0: only the difference counts, and the places are yours to count"),
    generated("a low number of several constants", MCM.replace("lsb = 0", "lsb = -40"), "OutOfRange lsb -40",
              "first.toml:9:7: lsb is -40; expected -32 to 32, in version 3 from -64 to 64",
              "  write lsb = 0: the numbers are the same, and the places are yours to count"),
    generated("an output that is too low", SCALE.replace("exact = true", "exact = false").replace("out_lsb = 0", "out_lsb = -34"),
              "OutOfRange out_lsb -34", "first.toml:10:11: out_lsb is -34; expected -32 to 32, in version 3 from -64 to 64"),
    generated("texts and numbers", FIR.replace("[3]", '["0.5", 3]'), "WrongType coefficients",
              "first.toml:11:24: element 2 of coefficients is 3, a whole number; expected an array of whole numbers, "
              '-1073741824 to 1073741824 or of decimal texts, as "0.25"'),
    generated("a denominator beside texts", SCALE.replace("[3]", '["0.5"]\ndenominator = 2'), "WrongType denominator",
              "first.toml:12:1: denominator is beside decimal texts, which have their own",
              "  take the denominator out, or write the coefficients as whole numbers"),
    generated("a text in a delay line", DELAYS.replace("base = 1\nper_bit = 1\n\n", 'base = "1"\nper_bit = 1\n\n'),
              "WrongType base 1",
              'first.toml:14:8: base of delay line 1 is "1", a text; expected a whole number of picoseconds, 0 to 1000000, as 1'),
    generated("version 5", SCALE.replace("version = 1", "version = 5"), "BadVersion 5",
              "first.toml:1:11: version is 5; expected 1, 2, 3 or 4",
              "  1: inputs to 32 bits, signals to 64; 2: inputs to 48 bits, signals to 96, and the kinds constdiv, poly and tfir; "
              "3: signed quotients, outputs of a chosen width, lowest bits to 64 places off, constants and taps of 20 bits without extra, "
              "and the kind sop",
              "  4: sums cut to the period, outputs that wrap, quotients by addition and subtraction; some keys and values are not made yet"),
    generated("a circuit of rows", SCALE4, "BadVersion 4",
              "first.toml: there is no compressor, which stands for rows; no circuit of kind scale is made of rows yet",
              '  write compressor = "dadda" or "counters", or version = 3'),
    generated("a circuit of rows by its name", SCALE4 + 'compressor = "rows"\n', "BadVersion 4",
              'first.toml:12:14: compressor is "rows", of which no circuit of kind scale is made yet in version 4',
              '  write compressor = "dadda" or "counters"'),
    generated("rounding", SCALE4.replace("exact = true", "exact = false") + DADDA + 'rounding = "down"\n', "BadVersion 4",
              'first.toml:13:12: rounding is "down", of which no circuit of kind scale is made yet in version 4',
              "  take rounding out"),
    generated("rounding in version 3", SCALE3.replace("exact = true", "exact = false") + 'rounding = "down"\n', "UnknownKey 0 7",
              'first.toml:12:1: unknown key "rounding" of kind scale; its keys are version, name, kind, exact, target, period, signed, '
              "width, lsb, out_lsb, out_width, out_signed, coefficients, denominator, compressor, delay",
              "  rounding is a key of version 4, of which no circuit is made yet: take it out"),
    generated("an output that wraps in version 3", SCALE3 + 'out_width = 4\noverflow = "wrap"\n', "UnknownKey 0 7",
              'first.toml:13:1: unknown key "overflow" of kind scale; its keys are version, name, kind, exact, target, period, signed, '
              "width, lsb, out_lsb, out_width, out_signed, coefficients, denominator, compressor, delay",
              '  overflow is a key of version 4: take it out, or write version = 4 and compressor = "dadda"'),
    generated("tables of five inputs", SCALE4 + DADDA + "lut = 5\n", "BadVersion 4",
              "first.toml:13:7: lut is 5, of which no circuit of kind scale is made yet in version 4", "  write lut = 6"),
    generated("a polynomial with counters", POLY.replace("version = 2", "version = 4") + 'compressor = "counters"\n', "BadVersion 4",
              'first.toml:10:14: compressor is "counters", of which no circuit of kind poly is made yet in version 4',
              '  write compressor = "dadda"'),
    generated("a quotient of a chosen width", DIVIDE.replace("version = 1", "version = 4").replace("exact = true", "exact = false")
              + "out_width = 4\n", "BadVersion 4",
              "first.toml:12:13: out_width is 4, of which no circuit of kind divide is made yet in version 4", "  take out_width out"),
    generated("an exact quotient of a chosen width", DIVIDE.replace("version = 1", "version = 4") + "out_width = 4\n", "WrongType out_width",
              "first.toml:12:1: out_width is beside exact = true", "  take out_width out"),
    generated("a cut filter of version 4", CUT.replace("version = 3", "version = 4").replace("exact = true", "exact = false"), "BadVersion 4",
              "first.toml:12:11: out_lsb is 2, of which no circuit of kind tfir is made yet in version 4",
              "  write out_lsb = 0 or less, or version = 3"),
    generated("many products in version 4",
              SOP_HEAD.replace("version = 3", "version = 4") + DADDA + 'input = [{name = "a", signed = true, width = 4, lsb = 0}]\n'
              + "product = [" + ", ".join(17 * ['{a = "a", b = "a"}']) + "]\n", "BadVersion 4",
              "first.toml:10:11: product has 17 tables, of which no circuit of kind sop is made yet in version 4",
              "  write at most 16 tables of product"),
    generated("a clash of keys of version 4", SCALE4 + 'rounding = "down"\n', "WrongType rounding",
              "first.toml:12:1: rounding is beside exact = true", "  take rounding out"),
    generated("an overflow alone", SCALE4 + DADDA + 'overflow = "wrap"\n', "WrongType overflow",
              "first.toml:13:1: overflow is there without out_width", "  write out_width too, 2 to 96, or take overflow out"),
    generated("an unknown overflow", SCALE4 + DADDA + 'out_width = 4\noverflow = "clip"\n', "OutOfRange overflow 4",
              'first.toml:14:12: overflow is "clip"; expected one of saturate, wrap'),
    generated("a word of VHDL-2008", SCALE4.replace('"first"', '"context"') + DADDA, "BadName",
              'first.toml:2:8: name is "context": a word of VHDL, or a name of a port of some operator',
              "  expected 1 to 32 of small letters, digits and single _, a letter first, and no word of VHDL or port"),
    generated("a capital in the name", SCALE.replace('"first"', '"First"'), "BadName",
              'first.toml:2:8: name is "First": it has a capital letter',
              "  expected 1 to 32 of small letters, digits and single _, a letter first, and no word of VHDL or port"),
    generated("a word of VHDL", SCALE.replace('"first"', '"signal"'), "BadName",
              'first.toml:2:8: name is "signal": a word of VHDL, or a name of a port of some operator',
              "  expected 1 to 32 of small letters, digits and single _, a letter first, and no word of VHDL or port"),
    generated("no kind", SCALE.replace('"scale"', '"Scale"'), "BadKind",
              f'first.toml:3:8: kind is "Scale"; did you mean scale? expected one of {KINDS}'),
    generated("a kind of version 2", CONSTDIV.replace("version = 2", "version = 1"), "BadKind",
              f'first.toml:3:8: kind is "constdiv"; expected one of {KINDS}', "  kind constdiv asks for version = 2"),
    generated("a large divisor", CONSTDIV.replace("= 3", "= 33"), "OutOfRange divisor 33",
              "first.toml:9:11: divisor is 33; expected 2 to 32", "  divide by 3, then q by 11: the last q is that of 33"),
    generated("a divisor of a filter", FIR + "divisor = 3\n", "UnknownKey 0 1",
              f'first.toml:12:1: unknown key "divisor" of kind fir; its keys are {KEYS}',
              "  divisor is a key of constdiv: take it out, or change kind"),
    generated("a compressor in version 1", SCALE + 'compressor = "counters"\n', "UnknownKey 0 1",
              f'first.toml:12:1: unknown key "compressor" of kind scale; its keys are {KEYS}',
              "  compressor is a key of version 2: take it out, or write version = 2"),
    generated("another compressor", SCALE.replace("version = 1", "version = 2") + 'compressor = "wallace"\n',
              "OutOfRange compressor 7", 'first.toml:12:14: compressor is "wallace"; expected one of dadda, counters'),
    generated("nine odd parts", TFIR.replace("[3]", "[3, 5, 7, 9, 11, 13, 15, 17, 19]"), "OutOfRange taps 9",
              "first.toml:10:8: taps have 9 different odd parts; expected at most 8",
              f"  write version = 3 and take extra out: {MORE_TAPS}"),
    generated("33 taps", TFIR.replace("version = 2", "version = 3").replace("[3]", f"[{', '.join(['3'] * 33)}]"), "OutOfRange taps 33",
              "first.toml:10:8: found 33 taps; expected 1 to 32 for kind tfir", f"  take extra out: {MORE_TAPS}"),
    generated("33 taps, one of them too large for all versions", TFIR.replace("[3]", f"[{'3, ' * 32}1048576]"), "OutOfRange taps 33",
              "first.toml:10:8: found 33 taps; expected 1 to 32 for kind tfir"),
    generated("257 taps", BY_RULE.replace("[3]", f"[{', '.join(['3'] * 257)}]"), "OutOfRange taps 257",
              "first.toml:10:8: found 257 taps; expected 1 to 256 for kind tfir"),
    generated("a tap of 21 bits", BY_RULE.replace("[3]", "[3, 1048575, -1048576]"), "OutOfRange taps -1048576",
              "first.toml:10:21: element 3 of taps is -1048576; expected -1048575 to 1048575"),
    generated("a large tap", TFIR.replace("[3]", "[3, -2048]"), "OutOfRange taps -2048",
              "first.toml:10:12: element 2 of taps is -2048; expected -2047 to 2047",
              f"  write version = 3 and take extra out: {MORE_TAPS}"),
    generated("no extra in version 2", TFIR.replace("extra = 0\n", ""), "MissingKey extra",
              'first.toml: the key "extra" of kind tfir is missing',
              "  add a line as: extra = 2                # how many further numbers the search may add for fewer adders; "
              "where absent, in version 3, a fixed rule in place of the search; 0 to 2",
              "  or write version = 3, in which it is optional"),
    generated("a wide input", SCALE.replace("width = 4", "width = 33"), "OutOfRange width 33",
              "first.toml:8:9: width is 33; expected 1 to 32", "  version = 2 takes inputs of up to 48 bits"),
    generated("one signed bit", MULTIPLY.replace("width_b = 4", "width_b = 1"), "OutOfRange width_b 1",
              "first.toml:10:11: width_b is 1; expected 2 to 32", "  a signed input has two bits or more"),
    generated("two coefficients of a scale", SCALE.replace("[3]", "[3, 4]"), "OutOfRange coefficients 2",
              "first.toml:11:16: found 2 coefficients; expected 1 for kind scale"),
    generated("a large constant", MCM.replace("[3]", "[3, 2048]"), "OutOfRange constants 2048",
              "first.toml:10:17: element 2 of constants is 2048; expected -2047 to 2047",
              "  write version = 3 and take extra out: without a search there may be 1 to 8 constants, each -1048575 to 1048575"),
    generated("a large constant beside an extra that is too large", MCM.replace("version = 1", "version = 3").replace("[3]", "[3000]")
              .replace("extra = 0", "extra = 3"), "OutOfRange constants 3000",
              "first.toml:10:14: element 1 of constants is 3000; expected -2047 to 2047",
              "  take extra out: without a search there may be 1 to 8 constants, each -1048575 to 1048575"),
    generated("a large text", FIR.replace("[3]", '["0.01", "99999999"]'), "OutOfRange coefficients 9999999900",
              'first.toml:11:25: element 2 of coefficients is "99999999", 9999999900 over the common denominator; '
              "expected -1073741824 to 1073741824"),
    generated("a class", DELAYS.replace('"logic"', '"lut"'), "OutOfRange class 2 2",
              'first.toml:18:9: class of delay line 2 is "lut"; expected one of wire, logic, add, choice, table, register'),
    generated("an empty target", SCALE.replace('"plain"', '""'), "OutOfRange target 0",
              'first.toml:5:10: target is ""; expected one of plain, fixed', "  target has 0 bytes; expected 1 to 32"),
    generated("no exact quarter", FIR.replace("[3]", "[4, 3]\ndenominator = 4"), "NotExact 1",
              "first.toml:11:20: coefficient 1, from 0, is 3 / 4, not whole in units of the output's last place, 2^0",
              "  write out_lsb = -2 or less, or exact = false"),
    generated("no exact third", SCALE.replace("[3]", "[1]\ndenominator = 3"), "NotExact 0",
              "first.toml:11:17: coefficient 0, from 0, is 1 / 3, not whole in units of the output's last place, 2^0",
              "  write exact = false: no out_lsb makes it whole"),
    generated("no exact product", MULTIPLY, "NotExact 0",
              "first.toml:12:11: out_lsb is 0, so the exact product does not fit; expected at most lsb_a + lsb_b = -1",
              "  write out_lsb = -1, or exact = false"),
    generated("no exact product of low places",
              MULTIPLY.replace("lsb_a = 0", "lsb_a = -17").replace("lsb_b = -1\nout_lsb = 0", "lsb_b = -17\nout_lsb = -32"), "NotExact 0",
              "first.toml:12:11: out_lsb is -32, so the exact product does not fit; expected at most lsb_a + lsb_b = -34",
              "  write exact = false",
              "  write lsb_a = 0, lsb_b = 0 and out_lsb = 0: only the difference counts, and the places are yours to count"),
    generated("no exact quarter of low places",
              SCALE.replace("[3]", "[3]\ndenominator = 4").replace("lsb = 0\nout_lsb = 0", "lsb = -31\nout_lsb = -31"), "NotExact 0",
              "first.toml:11:17: coefficient 0, from 0, is 3 / 4, not whole in units of the output's last place, 2^-31",
              "  write exact = false, or move both places up",
              "  write lsb = 0 and out_lsb = -2: only the difference counts, and the places are yours to count"),
    generated("no exact tap", CUT.replace("[3]", "[4, 0, -6]"), "NotExact 2",
              "first.toml:10:15: tap 2, from 0, is -6, not whole in units of the output's last place, 2^2",
              "  write out_lsb = 1, or exact = false"),
    generated("a filter with more places than its input", CUT.replace("out_lsb = 2", "out_lsb = -1"), "Coarse 1",
              "first.toml:12:11: lsb - out_lsb is 1; expected -48 to 0 for kind tfir",
              "  raise out_lsb, now -1, or bring the lsb of the input nearer to it"),
    generated("a filter that is cut too far", CUT.replace("exact = true", "exact = false").replace("out_lsb = 2", "out_lsb = 49"), "Coarse -49",
              "first.toml:12:11: lsb - out_lsb is -49; expected -48 to 0 for kind tfir",
              "  lower out_lsb, now 49, or bring the lsb of the input nearer to it"),
    generated("a cut filter of version 2", CUT.replace("version = 3", "version = 2"), "UnknownKey 0 5",
              'first.toml:12:1: unknown key "out_lsb" of kind tfir; its keys are '
              "version, name, kind, exact, target, period, signed, width, lsb, extra, taps, delay",
              "  out_lsb is a key of version 3: take it out, or write version = 3"),
    generated("far apart", SCALE.replace("lsb = 0\nout_lsb = 0", "lsb = 32\nout_lsb = -32"), "Coarse 64",
              "first.toml:10:11: lsb - out_lsb is 64; expected -48 to 48 for kind scale",
              "  raise out_lsb, now -32, or bring the lsb of the input nearer to it"),
    generated("a coarse quotient", DIVIDE.replace("out_lsb = 0", "out_lsb = 2"), "Coarse -2",
              "first.toml:11:11: lsb_a - lsb_b - out_lsb is -2; expected 0 to 48 for kind divide",
              "  lower out_lsb, now 2, or bring the lsb of the input nearer to it"),
    generated("a wide signed quotient",
              DIVIDE.replace("version = 1", "version = 3").replace("width_a = 4\nlsb_a = 0\nwidth_b = 4\nlsb_b = 0\nout_lsb = 0",
                                                                   "width_a = 48\nlsb_a = 32\nwidth_b = 48\nlsb_b = 0\nout_lsb = -16")
              + "signed = true\n",
              "TooWide 97", "first.toml: a signal would need 97 bits; expected at most 96 in version 3",
              "  fewer bits of input, fewer coefficients, or a higher out_lsb"),
    generated("too wide",
              SCALE.replace("width = 4", "width = 32").replace("out_lsb = 0", "out_lsb = -32")
              .replace("[3]", "[1073741824]"),
              "TooWide 94",
              "first.toml: a signal would need 94 bits; expected at most 64 in version 1",
              "  version = 2, which has 96; or fewer bits of input, fewer coefficients, or a higher out_lsb"),
    generated("no target", SCALE.replace('"plain"', '"fast"'), "UnknownTarget",
              'first.toml:5:10: target is "fast"; expected one of plain, fixed',
              '  for a device write target = "plain" and its delays as [[delay]] lines, as templates/delay.toml has them'),
    generated("no delay lines", DELAYS.replace('"plain"', '"fixed"'), "NotAdjustable",
              'first.toml:12:1: target "fixed" takes no delay lines',
              '  write target = "plain", or take the delay lines out'),
    generated("a short period", SCALE.replace("10000", "400"), "PeriodTooShort 900",
              "first.toml:6:10: period 400 is too short: the slowest cell and the setup time need 900 ps",
              "  write period = 900 or more, or make the operator narrower"),
    generated("a short period for a sum", WHOLE.replace("period = 10000", "period = 700").replace("width_a = 4", "width_a = 8"),
              "PeriodTooShort 960",
              "first.toml:6:10: period 700 is too short: the slowest cell and the setup time need 960 ps",
              "  write period = 960 or more, or make the operator narrower",
              '  or write version = 4 and compressor = "dadda", which cuts this sum of 12 bits into pieces'),
    generated("a short period for sums that are cut",
              WHOLE.replace("period = 10000", "period = 500").replace("version = 1", "version = 4") + DADDA, "PeriodTooShort 720",
              "first.toml:6:10: period 500 is too short: the slowest cell and the setup time need 720 ps",
              "  write period = 720 or more: sums are cut to the period, so what is too slow is a sum of 4 bits"),
    generated("a short period for a table", SCALE4.replace("period = 10000", "period = 800") + DADDA, "PeriodTooShort 900",
              "first.toml:6:10: period 800 is too short: the slowest cell and the setup time need 900 ps",
              "  write period = 900 or more: sums are cut to the period, so what is too slow is a table of 4 bits"),
    generated("too many signals",
              FIR.replace("[3]", str([999_999_937 - k for k in range(256)])).replace("width = 4", "width = 26")
              .replace("exact = true", "exact = false").replace("out_lsb = 0", "out_lsb = 12"), "TooLarge",
              "first.toml: the design would have more than 65,536 signals",
              "  fewer coefficients or bits, a longer period (fewer registers), or a higher out_lsb"),
]

DESIGNS = [
    no_token("an inequality", VHDL.replace("s1 <= s0", "s1 <= s0 /= s1"), "/=",
              f"my.vhd:21:16: `/=` is not in the subset; "
              f"write d <= s xor t; and look at the bits of d, or a table {SUBSET}"),
    no_token("a bit", VHDL.replace("s0 <= unsigned(x)", "s0 <= '1'"), "'1'",
              f"my.vhd:17:9: `'1'` is not in the subset; bits are written between double quotes, as \"1\" {SUBSET}"),
    no_token("an event", VHDL.replace("rising_edge(clk)", "clk'event and clk = '1'"), "'event",
              f"my.vhd:20:11: `'event` is not in the subset; write rising_edge(clk) {SUBSET}"),
    no_token("a hexadecimal word", VHDL.replace("unsigned(x)", 'x"3ff"'), '"3ff"',
              f"my.vhd:17:10: `\"3ff\"` is not in the subset; write the bits one by one, as \"0000\" {SUBSET}"),
    no_token("a product", VHDL.replace("unsigned(x)", "unsigned(x) * s1"), "* s1",
              f"my.vhd:17:21: `*` is not in the subset; a product or quotient is an operator of its own {SUBSET}"),
    simulated("a resize", VHDL.replace("s0 <= unsigned(x)", "s0 <= resize(unsigned(x), 10)"), "Syntax 10",
              f"my.vhd:17:9: `resize` is not in the subset; write \"0\" & s for an unsigned s; "
              f"s(3 downto 3) & s for a signed one {SUBSET}"),
    simulated("a number added", VHDL.replace("s1 <= s0", "s1 <= s0 + 1"), "Syntax 11",
              f"my.vhd:21:18: `1` is no operand; write it in bits of the same width, "
              f"as \"0001\" for 1 of four bits {SUBSET}"),
    simulated("a bit of a signal", VHDL.replace("s1 <= s0", "s1 <= s0(3)"), "Syntax 11",
              f"my.vhd:21:13: `s0` is read bit by bit as a slice: write s0(3 downto 3) {SUBSET}"),
    simulated("hexadecimal zeros", VHDL.replace("unsigned(x)", 'x"00"'), "Syntax 10",
              f"my.vhd:17:9: `x` in front of bits is not in the subset; write the bits one by one, as \"0000\" {SUBSET}"),
    simulated("a generic", VHDL.replace("  port (\n    clk", "  generic (n : in std_logic);\n  port (\n    clk"), "Syntax 4",
              f"my.vhd:6:3: `generic` is not in the subset here; write numbers in place of generics {SUBSET}"),
    simulated("an if",
              VHDL.replace("      s1 <= s0;\n",
                           '      s1 <= s0;\n      if s0 = "1" then\n        s1 <= s0;\n      end if;\n'), "Syntax 12",
              f"my.vhd:22:7: `if` is not in the subset here; "
              f"write n <= a when c = \"1\" else b; outside of the process, and r <= n; in it {SUBSET}"),
    simulated("a second process",
              VHDL.replace("  y <=",
                           "  process (clk) begin if rising_edge(clk) then s1 <= s0; end if; end process;\n  y <="),
                           "Syntax 14",
              f"my.vhd:24:3: `process` is not in the subset here; write one process alone, of registers: "
              f"process (clk) begin if rising_edge(clk) then .. {SUBSET}"),
    simulated("a port of one bit", VHDL.replace("    x : in std_logic_vector(9 downto 0)", "    x : in std_logic"),
              "Syntax 5",
              f"my.vhd:8:12: `std_logic` is for clk alone; write std_logic_vector(0 downto 0) {SUBSET}"),
    simulated("a signal of another type", VHDL.replace("s0 : unsigned", "s0 : std_logic_vector"), "Syntax 8",
              f"my.vhd:14:15: `std_logic_vector` is no type of a signal here; write unsigned(K downto 0) {SUBSET}"),
    simulated("two operators", VHDL.replace("s1 <= s0", "s1 <= s0 and s1 or s0"), "Syntax 11",
              f"my.vhd:21:23: `or` follows another operator; put parentheses round one of them {SUBSET}"),
    simulated("a semicolon too many",
              VHDL.replace("y : out std_logic_vector(9 downto 0)", "y : out std_logic_vector(9 downto 0);"), "Syntax 7",
              f"my.vhd:9:41: `;` is too much: the last port has none before `)` {SUBSET}"),
    simulated("a label", VHDL.replace("  process (clk)", "  p : process (clk)"), "Syntax 11",
              f"my.vhd:18:3: `p` is a label, which is not in the subset; leave it out {SUBSET}"),
    simulated("a missing end", VHDL.replace("end architecture;\n", ""), "Syntax 15",
              "my.vhd:24:29: the text ends here; expected a statement or `end architecture;`"),
    simulated("a missing semicolon", VHDL.replace("s0 <= unsigned(x);", "s0 <= unsigned(x)"), "Syntax 10",
              f"my.vhd:17:19: `)` is the last of its line; expected `;` behind it {SUBSET}"),
    simulated("many signals",
              VHDL.replace("begin\n  s0",
                           "".join(f"  signal t{k} : unsigned(0 downto 0);\n" for k in range(65535)) + "begin\n  s0"),
              "TooLarge", "my.vhd: more than 65,536 signals or 64 ports; found 65537 signals", "  split the design"),
    simulated("another name at the end", VHDL.replace("end entity;", "end entity second;"), "Unsound 1 0",
              "my.vhd:11:12: `second` is not the name at the head; the names of entity and architecture have to agree"),
    simulated("an enable that is no port", ENABLED.replace('if ce = "1"', 'if s0 = "1"'), "Unsound 1 0",
              "my.vhd:22:10: the enable `s0` is no port; write an input port of one bit"),
    simulated("no such signal", VHDL.replace("s1 <= s0", "s1 <= s2"), "Unsound 1 6",
              "my.vhd:21:13: there is no signal `s2`; declare it"),
    simulated("a port for a signal", VHDL.replace("s1 <= s0", "s1 <= x"), "Unsound 1 6",
              "my.vhd:21:13: there is no signal `x`, but a port; write unsigned(x)"),
    simulated("a port that is driven as a signal", VHDL.replace("y <= std_logic_vector(s1)", "y <= s1"), "Unsound 1 7",
              "my.vhd:24:3: there is no signal `y`, but a port; write y <= std_logic_vector(..);"),
    simulated("declared twice", VHDL.replace("  signal s1", "  signal s0 : unsigned(9 downto 0);\n  signal s1"),
              "Unsound 2 4",
              "my.vhd:15:10: `s0` is declared twice, first in line 14; rename one"),
    simulated("called clk", VHDL.replace("  signal s0", "  signal clk : unsigned(9 downto 0);\n  signal s0"), "Unsound 2 3",
              "my.vhd:14:10: `clk` is the clock's name; rename it"),
    simulated("widths", VHDL.replace("s1 <= s0", "s1 <= s0(3 downto 0)"), "Unsound 3 6",
              "my.vhd:21:7: `s1` has 10 bits, and what drives it 4; make them one width"),
    simulated("widths of operands", VHDL.replace("s1 <= s0", 's1 <= s0 + "01"'), "Unsound 3 6",
              "my.vhd:21:7: the operands of `+` have 10, 2 bits; expected one width"),
    simulated("a slice outside", VHDL.replace("s1 <= s0", "s1 <= s0(12 downto 3)"), "Unsound 3 6",
              "my.vhd:21:7: s0(12 downto 3) is outside of s0, which has 10 bits"),
    simulated("an initial value", VHDL.replace("(others => '0')", '"000"'), "Unsound 3 4",
              "my.vhd:15:10: `s1` has 10 bits, and its initial value 3; write as many"),
    simulated("a row of a table", TABLE.replace('"1" when "01"', '"1" when "001"'), "Unsound 3 7",
              "my.vhd:21:5: the address 001 has 3 bits; expected 2"),
    simulated("driven twice", VHDL.replace("  y <=", "  s0 <= s1;\n  y <="), "Unsound 4 7",
              "my.vhd:24:3: `s0` is driven twice, first in line 17; write one statement"),
    simulated("an input is driven", VHDL.replace("  y <=", "  x <= std_logic_vector(s1);\n  y <="), "Unsound 4 7",
              "my.vhd:24:3: `x` is an input and cannot be driven"),
    simulated("driven by nothing", VHDL.replace("  y <= std_logic_vector(s1);\n", ""), "Unsound 5 2",
              "my.vhd:9:5: nothing drives the output `y`; add y <= std_logic_vector(..);"),
    simulated("a loop",
              VHDL.replace("unsigned(x);", "s1 and s2;\n  s2 <= not s0;")
              .replace("begin\n  s0", "  signal s2 : unsigned(9 downto 0);\nbegin\n  s0"),
              "Unsound 6 6", "my.vhd:18:3: `s0` depends on itself without a register between: s0 <- s2 <- s0",
              "  put a register into the loop"),
    simulated("an output is read", VHDL.replace("unsigned(x)", "unsigned(x) and unsigned(y)"), "Unsound 7 5",
              "my.vhd:17:34: `y` is an output and cannot be read; read the signal that drives it"),
    simulated("no initial value", VHDL.replace(" := (others => '0')", ""), "Unsound 8 4",
              "my.vhd:15:10: the register `s1` has no initial value; write := (others => '0') before its `;`"),
    simulated("an address twice", TABLE.replace('"1" when "01"', '"1" when "00"'), "Unsound 9 7",
              'my.vhd:21:5: the address "00" is there twice, first in line 20; take one out'),
    simulated("a wide enable", ENABLED.replace("(0 downto 0)", "(1 downto 0)"), "Unsound 10 1",
              "my.vhd:8:5: the enable `ce` is in std_logic_vector(1 downto 0); expected in std_logic_vector(0 downto 0)"),
]
ROWS = [
    rows("too few digits", "3ff\n12\n", "BadLine 2",
         'h.in:2:1: x has 10 bits, so 3 hexadecimal digits are expected; found "12"'),
    rows("too large", "400\n", "BadLine 1", 'h.in:1:1: x has 10 bits, so at most 3ff is expected; found "400"'),
    rows("0x", "0x1\n", "BadLine 1", 'h.in:1:1: hexadecimal digits have no 0x before them; found "0x1"'),
    rows("no digit", "001\n0g1\n", "BadLine 2",
         'h.in:2:1: x has 10 bits, so 3 hexadecimal digits are expected; found "0g1"'),
    rows("outputs", "001 : 000\n", "BadLine 1", "h.in:1:4: the row has outputs; only inputs are expected: sed 's/ : .*//'"),
    rows("a space", "001\n002 \n", "BadLine 2", "h.in:2:4: a space or tab too many; expected one space between two words"),
    rows("an empty line", "001\n\n002\n", "BadLine 2", "h.in:2:1: the line is empty; expected a word for each input: x"),
    rows("no word for ce", "001\n", "BadLine 1", 'h.in:1:1: ce has 1 bit, so 1 hexadecimal digit is expected; found "001"',
         vhdl=ENABLED),
    rows("a word too many", "001 1\n", "BadLine 1", "h.in:1:5: the row has 2 words; expected 1: x"),
    rows("a word too few", "1\n", "BadLine 1", "h.in:1:2: the row has 1 word; expected 2: ce x", vhdl=ENABLED),
    rows("a carriage return at the end", "001\n002\r", "BadLine 2",
         "h.in:2:4: a carriage return ends the file; expected a line feed behind it"),
    rows("a word where there is no input", "\n1\n", "BadLine 2",
         "h.in:2:1: the design has no input, so an empty line is expected", vhdl=NO_INPUT),
    rows("too many rows", "001\n" * 100001, "TooMany", "h.in: more than 100,000 rows", "  split the file"),
]
JUDGED = VHDL.replace("(9 downto 0)", "(3 downto 0)")
TIMES_ONE = SCALE.replace("[3]", "[1]")
REPORT = """\
operator first
kind scale
mode exact
target plain
period 1000000
latency 0
slack 999900
input x unsigned 4 0
output y unsigned 4 0
cells wire 0 logic 0 add 0 choice 0 table 4 register 0
signals 2
"""


def judged(name: str, text: str, latency: int, status: int, line: str, *explained: str) -> Case:
    """A design beside a specification of 1 times four bits, over four rows."""
    files = {"first.toml": TIMES_ONE, "my.vhd": text, "my.vec": "1\n2\n3\n4\n"}
    return Case(name, files, ["check", "first.toml", "my.vhd", "my.vec", str(latency)], status, line, list(explained), REPORT)


EXPECTED = "  expected, in this order: x : in std_logic_vector(3 downto 0), y : out std_logic_vector(3 downto 0)"
HAS_ENABLE = [
    "my.vhd:8:5: `ce` is a clock enable: `check` judges no file with one, and no rows for one",
    "  check the circuit that `opgen generate` makes without --enable; tools/judge runs this one, with pauses",
]
WIDE = VHDL.replace("std_logic_vector(9", "std_logic_vector(3", 1).replace("unsigned(x)", '"000000" & unsigned(x)')
NARROW_ENABLED = ENABLED.replace("(9 downto 0)", "(3 downto 0)")
CHECKS = [
    judged("another port", JUDGED.replace("    y :", "    z :").replace("  y <=", "  z <="), 1, 6, "vhdl: Ports",
           "my.vhd:9:5: `z` is no port of the specification; rename it or take it out", EXPECTED),
    judged("a wide port", WIDE, 1, 6, "vhdl: Ports",
           "my.vhd:9:5: found y : out std_logic_vector(9 downto 0); expected y : out std_logic_vector(3 downto 0)", EXPECTED),
    judged("a port too few", JUDGED.replace("    x : in std_logic_vector(3 downto 0);\n", "").replace("unsigned(x)", '"0000"'),
           1, 7, "vectors: BadLine 1", "my.vec:1:1: the design has no input, so an empty line is expected"),
    judged("the order of ports",
           JUDGED.replace("    x : in std_logic_vector(3 downto 0);\n", "")
           .replace("(3 downto 0)\n  );", "(3 downto 0);\n    x : in std_logic_vector(3 downto 0)\n  );"),
           1, 6, "vhdl: Ports", "my.vhd: the order of the ports is y, x; expected x, y", EXPECTED),
    judged("a clock enable, and rows without it", NARROW_ENABLED, 1, 7, "vectors: BadLine 1", *HAS_ENABLE),
    Case("a clock enable, and rows with it", {"first.toml": TIMES_ONE, "my.vhd": NARROW_ENABLED, "my.vec": "1 1\n0 2\n"},
         ["check", "first.toml", "my.vhd", "my.vec", "1"], 6, "vhdl: Ports", HAS_ENABLE),
]
WRONG = JUDGED.replace("y <= std_logic_vector(s1)", 'y <= std_logic_vector(s1 or "0001")')
THIRD = TIMES_ONE.replace("exact = true", "exact = false") + "denominator = 3\n"
NO_LATENCY = "  at no latency of 0 to 64 are all rows good"
# A design of a quotient that always has 1 and 0; and one of a sum of three inputs that has the last of them alone.
QUOTIENT = """\
library ieee;
use ieee.std_logic_1164.all;
use ieee.numeric_std.all;
entity first is
  port (
    clk : in std_logic;
    a : in std_logic_vector(3 downto 0);
    b : in std_logic_vector(3 downto 0);
    q : out std_logic_vector(3 downto 0);
    r : out std_logic_vector(3 downto 0)
  );
end entity;
architecture rtl of first is
begin
  q <= std_logic_vector("0001");
  r <= std_logic_vector("0000");
end architecture;
"""
SUM = FIR.replace("signed = false", "signed = true").replace("[3]", "[1, 1, 1]").replace("lsb = 0\nout_lsb = 0", "lsb = -2\nout_lsb = -2")
LAST = JUDGED.replace("y : out std_logic_vector(3", "y : out std_logic_vector(5").replace(
    "std_logic_vector(s1)", "std_logic_vector(s1(3 downto 3) & s1(3 downto 3) & s1)"
)
# Rows that are not good. What is said of them needs the program, which runs them.
JUDGED_CASES = [
    judged("no latency", JUDGED, 0, 8, "row 0 not good",
           "my.vec:1: the outputs of row 0 are not good for the inputs up to row 0, 0 before",
           "  inputs of row 0: x = 1 (1)", "  found y = 0 (0); good: y = 1 (1); error: y -1 unit",
           "  at latency 1 all rows are good (3 rows judged)"),
    judged("a latency too many", JUDGED, 2, 8, "row 2 not good",
           "my.vec:3: the outputs of row 2 are not good for the inputs up to row 0, 2 before",
           "  inputs of row 0: x = 1 (1)", "  found y = 2 (2); good: y = 1 (1); error: y +1 unit",
           "  at latency 1 all rows are good (3 rows judged)"),
    judged("a wrong circuit", WRONG, 1, 8, "row 2 not good",
           "my.vec:3: the outputs of row 2 are not good for the inputs up to row 1, 1 before",
           "  inputs of row 1: x = 2 (2)", "  found y = 3 (3); good: y = 2 (2); error: y +1 unit", NO_LATENCY),
    Case("a faithful output", {"first.toml": THIRD, "my.vhd": JUDGED.replace("y : out std_logic_vector(3", "y : out std_logic_vector(2")
         .replace("std_logic_vector(s1)", 'std_logic_vector(s1(2 downto 0) or "100")'), "my.vec": "8\n8\n8\n"},
         ["check", "first.toml", "my.vhd", "my.vec", "1"], 8, "row 1 not good",
         ["my.vec:2: the outputs of row 1 are not good for the inputs up to row 0, 1 before", "  inputs of row 0: x = 8 (8)",
          "  found y = 4 (4); good: y = 2 (2) or y = 3 (3); error: y +1.333 units", NO_LATENCY]),
    Case("a remainder", {"first.toml": DIVIDE, "my.vhd": QUOTIENT, "my.vec": "5 5\n7 0\n7 3\n"},
         ["check", "first.toml", "my.vhd", "my.vec", "0"], 8, "row 2 not good",
         ["my.vec:3: the outputs of row 2 are not good for the inputs up to row 2, 0 before",
          "  inputs of row 2: a = 7 (7), b = 3 (3)",
          "  found q = 1 (1), r = 0 (0); good: q = 2 (2), r = 1 (1); error: q -1 unit, r -1 unit",
          "  at latency 1 all rows are good (2 rows judged)"]),
    Case("a filter", {"first.toml": SUM, "my.vhd": LAST, "my.vec": "8\n1\n0\n0\n"},
         ["check", "first.toml", "my.vhd", "my.vec", "1"], 8, "row 2 not good",
         ["my.vec:3: the outputs of row 2 are not good for the inputs up to row 1, 1 before",
          "  inputs up to row 1, the newest first: x = 1 (0.25), x = 8 (-2), x = 0 (0)",
          "  found y = 01 (0.25); good: y = 39 (-1.75); error: y +8 units", NO_LATENCY]),
]
GENERATE = "  opgen generate SPEC [--workers N] [--enable]"
VECTORS = "  opgen vectors SPEC [--seed N] [--cycles N]"
SIMULATE = "  opgen simulate VHDL VECTORS OUT"
CHECK = "  opgen check SPEC VHDL VECTORS LATENCY"
WORDS = [
    used("no such command", "genrate first.toml", "opgen: there is no command 'genrate'; did you mean generate?"),
    used("no file", "generate", "opgen: too few words behind generate: found 0, expected 1, SPEC", GENERATE),
    used("a file too many", "generate first.toml out.vhd",
         "opgen: too many words behind generate: found 2, expected 1, SPEC", GENERATE),
    used("a file too few", "simulate my.vhd h.in",
         "opgen: too few words behind simulate: found 2, expected 3, VHDL VECTORS OUT", SIMULATE),
    used("an option of another command", "generate first.toml --seed 1",
         "opgen: generate has no option --seed; its options are --workers, --enable, -o", GENERATE),
    used("an option of none", "simulate --fast a b c", "opgen: simulate has no option --fast; its options are -o", SIMULATE),
    used("no value", "vectors first.toml --seed",
         "opgen: option --seed has no value; expected a whole number, 0 to 4294967295", VECTORS),
    used("no number", "vectors first.toml --cycles=many", "opgen: --cycles is 'many'; expected a whole number, 1 to 100000",
         VECTORS),
    used("out of range", "generate first.toml --workers 33", "opgen: --workers is 33; expected 1 to 32", GENERATE),
    used("an option twice", "generate --enable first.toml --enable", "opgen: option --enable is there twice", GENERATE),
    used("no latency", "check first.toml my.vhd my.vec",
         "opgen: too few words behind check: found 3, expected 4, SPEC VHDL VECTORS LATENCY", CHECK),
    used("a large latency", "check first.toml my.vhd my.vec 100001", "opgen: LATENCY is 100001; expected 0 to 100000", CHECK),
    used("a latency below 0", "check first.toml my.vhd my.vec -1", "opgen: LATENCY is -1; expected 0 to 100000", CHECK),
    used("a workload below 0", "workload -1", "opgen: N is -1; expected 1 to 32", "  opgen workload N"),
    used("a large workload", "workload 33", "opgen: N is 33; expected 1 to 32", "  opgen workload N"),
]
FILES = [
    failed("no such file", {}, "generate no.toml", 3, "read fault", "cannot open no.toml: no such file"),
    failed("no such rows", {"my.vhd": VHDL}, "simulate my.vhd no.in h.out", 3, "read fault",
           "cannot open no.in: no such file"),
    failed("a folder is read", {"a.toml/b": ""}, "generate a.toml", 3, "read fault", "cannot open a.toml: is a directory"),
    failed("a folder in the way", {"first.toml": SCALE, "first.vhd/a": ""}, "generate first.toml", 4, "",
           "cannot write first.vhd in this folder: a folder has this name"),
    failed("a folder in the way of the report", {"first.toml": SCALE, "first.rpt/a": ""}, "generate first.toml", 4, "",
           "cannot write first.rpt in this folder: a folder has this name"),
    failed("a folder in the way of the rows", {"first.toml": SCALE, "first.vec/a": ""}, "vectors first.toml", 4, "",
           "cannot write first.vec in this folder: a folder has this name"),
    failed("no such folder", {"my.vhd": VHDL, "h.in": "001\n"}, "simulate my.vhd h.in there/h.out", 4, "",
           "cannot write there/h.out: there is no folder there"),
    failed("no disk", {"my.vhd": VHDL, "h.in": "001\n"}, "simulate my.vhd h.in /proc/h.out", 4, "",
           "cannot write /proc/h.out: /proc is on no disk: files cannot be made there"),
    failed("a long specification", {"first.toml": SCALE + "#" * (1 << 20)}, "generate first.toml", 9, "too long",
           f"first.toml has {len(SCALE) + (1 << 20):,} bytes; expected at most 1,048,576"),
    failed("long rows", {"my.vhd": VHDL, "h.in": "001\n" * (1 << 24) + "\n"}, "simulate my.vhd h.in h.out", 9, "too long",
           "h.in has 67,108,865 bytes; expected at most 67,108,864; split the rows"),
]
SUMS = [
    generated("an unknown key of a table", SOP.replace("coefficient = 3\n", "coefficient = 3\nwide = 1\n"), "UnknownKey 3 2",
              'first.toml:24:1: unknown key "wide" of table 1 of scaled; its keys are input, coefficient'),
    generated("an unknown key of a product", SOP + "sign = 1\n", "UnknownKey 4 2",
              'first.toml:28:1: unknown key "sign" of table 1 of product; its keys are a, b, negative'),
    generated("an unknown key of a delay line", SOP + '[[delay]]\nclass = "add"\nbase = 1\nper_bits = 1\n', "UnknownKey 5 2",
              'first.toml:31:1: unknown key "per_bits" of delay line 1; did you mean per_bit? its keys are class, base, per_bit'),
    generated("a table without a name", SOP.replace('name = "b"\n', ""), "MissingKey name 2",
              'first.toml:15:1: table 2 of input has no key "name"',
              '  add it as: name = "a"               # of the port: lower-case letters, digits, single _'),
    generated("no input", SOP_HEAD, "MissingKey input", 'first.toml: the key "input" of kind sop is missing',
              "  add a line as: [[input]]"),
    generated("a width as a text", SOP.replace("width = 4", 'width = "4"', 1), "WrongType width 1",
              'first.toml:12:9: width of table 1 of input is "4", a text; expected a whole number, 2 to 48, as 4'),
    generated("an input that is no table", SOP_HEAD + 'input = ["a"]\n', "WrongType input",
              'first.toml:8:10: element 1 of input is "a", a text; expected an array of tables'),
    generated("two inputs of one name", SOP.replace('name = "b"', 'name = "a"'), "OutOfRange name 2 2",
              'first.toml:16:8: name of table 2 of input is "a", as is that of table 1 of input; expected another name'),
    generated("an input of the operator's name", SOP.replace('name = "b"', 'name = "first"'), "OutOfRange name 2 2",
              'first.toml:16:8: name of table 2 of input is "first", as is that of the operator; expected another name'),
    generated("an input of the output's name", SOP.replace('name = "a"', 'name = "y"'), "OutOfRange name 1 1",
              'first.toml:10:8: name of table 1 of input is "y": a word of VHDL, or rtl, clk, ce or y', NAMES),
    generated("an input of a signal's name", SOP.replace('name = "a"', 'name = "s1_1"'), "OutOfRange name 1 1",
              'first.toml:10:8: name of table 1 of input is "s1_1": signals are called s and a number', NAMES),
    generated("a product with no input", SOP.replace('b = "b"', 'b = "e"'), "OutOfRange b 1 1",
              'first.toml:27:5: b of table 1 of product is "e", the name of no input; expected one of a, b'),
    generated("a signed input of one bit", SOP.replace("width = 4", "width = 1", 1), "OutOfRange width 1 1",
              "first.toml:12:9: width of table 1 of input is 1; expected 2 to 48", "  a signed input has two bits or more"),
    generated("a large coefficient of a table", SOP.replace("= 3\n\n[[product", "= 2147483648\n\n[[product"), "OutOfRange coefficient 1 2147483648",
              "first.toml:23:15: coefficient of table 1 of scaled is 2147483648; expected -1073741824 to 1073741824"),
    generated("no term", SOP.partition("[[scaled]]")[0], "OutOfRange scaled 0",
              "first.toml: there is no table of scaled or product; expected at least one",
              "  write [[product]] with a and b, or [[scaled]] with input and coefficient"),
    generated("a term that is not whole", SOP.replace("out_lsb = 0", "out_lsb = 1"), "NotExact 0",
              "first.toml:23:15: term 0, from 0, is 3 * b: its factor is not whole in units of the output's last place, 2^1",
              "  write out_lsb = 0 or less, or exact = false"),
    generated("a product that is not whole", SOP.replace("= 3\n\n[[product", "= 8\n\n[[product").replace("out_lsb = 0", "out_lsb = 2"), "NotExact 1",
              "first.toml:25:1: term 1, from 0, is a * b: its factor is not whole in units of the output's last place, 2^2",
              "  write out_lsb = 0 or less, or exact = false"),
    generated("an offset that is not whole", SOP.replace("out_lsb = 0", "out_lsb = 0\noffset = 1\ndenominator = 3"), "NotExact 2",
              "first.toml:8:10: term 2, from 0, is 1/3: its factor is not whole in units of the output's last place, 2^0",
              "  write exact = false: no out_lsb makes every term whole"),
    generated("a term that is too far up", SOP.replace("lsb = 0\n\n[[scaled", "lsb = 64\n\n[[scaled"), "Coarse 64",
              "first.toml:23:15: lsb - out_lsb is 64 for the term 3 * b; expected -48 to 48",
              "  raise out_lsb, now 0, or bring the lsb of the inputs nearer to it"),
    generated("terms of many bits", SOP.replace("width = 4", "width = 48").replace("out_lsb = 0", "out_lsb = 0\ndenominator = 1073741824")
              .replace("= 3\n\n[[product", "= 1073741824\n\n[[product"), "TooWide 127",
              "first.toml: a term and its places would need 127 bits; expected at most 112",
              "  fewer bits of input, lowest bits nearer to each other, or smaller coefficients"),
    generated("a sum of many bits", SOP.replace("width = 4", "width = 48").replace("= 3\n\n[[product", "= 0\n\n[[product") + '\n[[product]]\na = "a"\nb = "a"\n',
              "TooWide 97", "first.toml: a signal would need 97 bits; expected at most 96 in version 3",
              "  fewer bits of input, fewer terms, or a higher out_lsb"),
    generated("a sum of version 2", SOP_HEAD.replace("version = 3", "version = 2"), "BadKind",
              'first.toml:3:8: kind is "sop"; expected one of scale, fir, multiply, divide, root, mcm, constdiv, poly, tfir',
              "  kind sop asks for version = 3"),
    generated("tables of version 2", SOP.replace("version = 3", "version = 2"), "UnknownKey 0 1",
              'first.toml:9:1: unknown key "input" of kind sop; its keys are version, name, kind, exact, target, period, out_lsb, denominator, '
              "compressor, delay",
              "  input is a key of version 3: take it out, or write version = 3"),
]
CASES = SPECIFICATIONS + SUMS + DESIGNS + ROWS + CHECKS + WORDS + FILES
