"""Tests of the runs of many circuits by Icarus Verilog and GHDL, over rows that were worked out by hand."""
import contextlib
import io
import tempfile
import unittest
from pathlib import Path
from unittest import mock

from opgenlib import simulators
from tests.loading import TOOLS, module_of
from tests.test_explain import NO_PROGRAM, PROGRAM

EXHAUSTIVE = module_of(TOOLS.parent / ".ci/exhaustive")

JOINED = """\
library ieee;
use ieee.std_logic_1164.all;
use ieee.numeric_std.all;

entity joined is
  port (
    clk : in std_logic;
    a : in std_logic_vector(4 downto 0);
    b : in std_logic_vector(2 downto 0);
    y : out std_logic_vector(7 downto 0);
    z : out std_logic_vector(4 downto 0)
  );
end entity;

architecture rtl of joined is
  signal sum : unsigned(4 downto 0);
  signal held : unsigned(4 downto 0) := "00010";
begin
  sum <= unsigned(a) + ("00" & unsigned(b));
  y <= std_logic_vector(unsigned(a) & unsigned(b));
  z <= std_logic_vector(held);
  process (clk)
  begin
    if rising_edge(clk) then
      held <= sum;
    end if;
  end process;
end architecture;
"""
TURNED = """\
library ieee;
use ieee.std_logic_1164.all;
use ieee.numeric_std.all;

entity turned is
  port (
    clk : in std_logic;
    x : in std_logic_vector(1 downto 0);
    y : out std_logic_vector(1 downto 0)
  );
end entity;

architecture rtl of turned is
  signal s : unsigned(1 downto 0);
  signal t : unsigned(1 downto 0);
begin
  s <= unsigned(x);
  with s select
    t <= "11" when "00", "01" when "10", "00" when others;
  y <= std_logic_vector(t);
end architecture;
"""
# y has a before b, z is the sum of the row before without its carry, and at first the register's initial word.
FILES = {
    "joined.vhd": JOINED, "joined.in": "1f 5\n00 7\n10 0\n", "joined.out": "1f 5 : fd 02\n00 7 : 07 04\n10 0 : 80 07\n",
    "turned.vhd": TURNED, "turned.in": "0\n1\n2\n3\n", "turned.out": "0 : 3\n1 : 0\n2 : 1\n3 : 0\n",
}


class Run(unittest.TestCase):
    def differing(self, simulator: simulators.Simulator, **changed: str) -> dict[str, str]:
        """What differs where some files are others."""
        with tempfile.TemporaryDirectory() as name:
            for file, text in (FILES | {file.replace("_", "."): text for file, text in changed.items()}).items():
                (Path(name) / file).write_text(text)
            return simulators.differing(simulator, Path(name), ["joined", "turned"])

    def agrees(self, simulator: simulators.Simulator) -> None:
        """The rows by hand agree; another word, and a row too few, do not."""
        self.assertEqual(self.differing(simulator), {})
        self.assertEqual(self.differing(simulator, joined_out=FILES["joined.out"].replace("80 07", "80 06")),
                         {"joined": f"{simulator.name}: row 2: `opgen simulate` has 10 0 : 80 06, {simulator.name} 10 0 : 80 07"})
        self.assertEqual(self.differing(simulator, turned_out="0 : 3\n1 : 0\n2 : 1\n"),
                         {"turned": f"{simulator.name}: row 3: `opgen simulate` has no row, {simulator.name} 3 : 0"})

    @unittest.skipUnless(simulators.ALL[0].is_installed(), "Icarus Verilog is not installed")
    def test_icarus(self) -> None:
        self.agrees(simulators.ALL[0])

    @unittest.skipUnless(simulators.ALL[1].is_installed(), "GHDL is not installed")
    def test_ghdl(self) -> None:
        self.agrees(simulators.ALL[1])

    @unittest.skipUnless(simulators.ALL[0].is_installed(), "Icarus Verilog is not installed")
    def test_wrong_verilog(self) -> None:
        """A design that is printed otherwise as Verilog is found."""
        text_of = simulators.text_of
        for word, other, found in ((" + ", " - ", "joined"), ("default", "2'b01", "turned")):
            with mock.patch.object(simulators, "text_of", lambda design: text_of(design).replace(word, other)):
                self.assertEqual(list(self.differing(simulators.ALL[0])), [found])

    def test_not_run(self) -> None:
        """What ends with another status, or does not end, is no agreement."""
        for words, said in ((["sh", "-c", "echo no such entity >&2; exit 3"], "status 3: no such entity"), (["sleep", "9"], "no end within 0.1 seconds")):
            with mock.patch.object(simulators, "PATIENCE", 0.1), self.assertRaisesRegex(simulators.NotRun, said):
                simulators.ran(words, Path("."))


class Groups(unittest.TestCase):
    """What .ci/exhaustive has the simulators run."""

    def test_every_eighth(self) -> None:
        groups = EXHAUSTIVE.groups_of(EXHAUSTIVE.TABLE)
        self.assertEqual([at for at, group in enumerate(groups, start=1) if group.is_simulated], list(range(8, len(groups) + 1, 8)))

    @unittest.skipUnless(PROGRAM.exists(), NO_PROGRAM)
    def test_one_group(self) -> None:
        """Two circuits, 4 bits times 3 and times 5: good where the rows agree, wrong with its document where they do not, and a line for
        each simulator that is not there."""
        keys = [([key], [[value]]) for key, value in (("version", "1"), ("kind", '"scale"'), ("exact", "true"), ("target", '"plain"'),
                                                    ("period", "10000"), ("signed", "false"), ("width", "4"), ("lsb", "0"), ("out_lsb", "0"))]
        group = EXHAUSTIVE.Group("small", 1, [*keys, (["coefficients"], [["[3]"], ["[5]"]])], is_simulated=True)
        for installed, wrong, lines in ((True, {}, ["exhaustive/small: 2 circuits, 32 rows, 0 wrong, latency up to 0, by one too"]),
                                        (True, {"tried_1": "row 3"}, ["small: row 3", '    name = "tried"']),
                                        (False, {}, ["left out: every eighth group by one, since there is no one-command"])):
            one = simulators.Simulator("one", "one-command", "one", lambda folder, names: None)
            with (
                mock.patch.object(simulators, "ALL", (one,)), mock.patch.object(simulators.Simulator, "is_installed", lambda _: installed),
                mock.patch.object(simulators, "differing", lambda simulator, folder, names: wrong),
                contextlib.redirect_stdout(io.StringIO()) as out,
            ):
                good = EXHAUSTIVE.run_all(PROGRAM, [group], 1)
            self.assertEqual(good, not wrong, out.getvalue())
            self.assertEqual(out.getvalue().splitlines()[: len(lines)], lines)


if __name__ == "__main__":
    unittest.main()
