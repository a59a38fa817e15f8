"""Runs circuits by other simulators over rows, many of them at once: by Icarus Verilog what tools/verilog.py prints, and the VHDL by GHDL.

A circuit is NAME.vhd in a folder, where its entity is NAME, and its rows of inputs are NAME.in. A simulator writes NAME.icarus or
NAME.ghdl there, in the form in which `opgen simulate` stores rows.
"""
from __future__ import annotations

import shutil
import subprocess
from collections.abc import Callable, Sequence
from dataclasses import dataclass
from pathlib import Path

from . import vhdl
from .verilog import text_of, written

PATIENCE = 600  # seconds for a command
BENCH = "bench_of_all"


class NotRun(Exception):
    """What a simulator says where it does not run the circuits."""


def ran(words: Sequence[str | Path], folder: Path) -> None:
    """Runs a command in a folder to its end."""
    try:
        done = subprocess.run(words, cwd=folder, stdin=subprocess.DEVNULL, capture_output=True, text=True, errors="replace", timeout=PATIENCE)
    except subprocess.TimeoutExpired:
        raise NotRun(f"{words[0]}: no end within {PATIENCE} seconds") from None
    if done.returncode:
        raise NotRun(f"{words[0]}: status {done.returncode}: " + "\n".join((done.stdout + done.stderr).splitlines()[:5]))


def sides(design: vhdl.Design) -> tuple[list[vhdl.Port], list[vhdl.Port]]:
    """The inputs and the outputs of a design."""
    return [port for port in design.ports if port.is_input], [port for port in design.ports if not port.is_input]


def verilog_bench(design: vhdl.Design, rows: int) -> str:
    """A module that runs a design over its file of rows: one word for each input of a row in a memory."""
    ins, outs = sides(design)
    most = max(port.width for port in ins)
    formats = " : ".join(" ".join(["%h"] * len(side)) for side in (ins, outs))
    lines = [f"module bench_{design.name};", "  reg clk = 0;", f"  reg [{most - 1}:0] rows [0:{rows * len(ins) - 1}];", "  integer at, file;"]
    lines += [f"  {'reg' if port.is_input else 'wire'} [{port.width - 1}:0] p_{port.name};" for port in design.ports]
    lines += [f"  {written(design.name)} dut (clk, {', '.join(f'p_{port.name}' for port in design.ports)});"]
    lines += ["  initial begin", f'    $readmemh("{design.name}.in", rows);', f'    file = $fopen("{design.name}.icarus", "w");',
              f"    for (at = 0; at < {rows}; at = at + 1) begin"]
    lines += [f"      p_{port.name} = rows[at * {len(ins)} + {place}];" for place, port in enumerate(ins)]
    lines += ["      #1;", f'      $fdisplay(file, "{formats}", {", ".join(f"p_{port.name}" for port in (*ins, *outs))});',
              "      clk = 1;", "      #1;", "      clk = 0;", "    end", "    $fclose(file);", "  end", "endmodule"]
    return "\n".join(lines) + "\n"


def by_icarus(folder: Path, names: Sequence[str]) -> None:
    """Runs circuits by Icarus Verilog, all in one program."""
    designs = [vhdl.design_of((folder / f"{name}.vhd").read_text()) for name in names]
    counts = [(folder / f"{name}.in").read_bytes().count(b"\n") for name in names]
    benches = "".join(map(verilog_bench, designs, counts))
    top = "".join(f"  bench_{name} of_{name} ();\n" for name in names)
    (folder / "all.v").write_text("".join(map(text_of, designs)) + benches + f"module {BENCH};\n{top}endmodule\n")
    ran(["iverilog", "-g2001", "-s", BENCH, "-o", "all.vvp", "all.v"], folder)
    ran(["vvp", "-n", "all.vvp"], folder)


VHDL_BENCH = """library ieee;
use ieee.std_logic_1164.all;
use std.textio.all;

entity bench_{name} is
end entity;

architecture rtl of bench_{name} is
  signal clk : std_logic := '0';
{signals}
begin
  dut : entity work.{name} port map (clk => clk, {places});

  process
    file rows : text open read_mode is "{name}.in";
    file answers : text open write_mode is "{name}.ghdl";
    variable row, answer : line;
{words}
  begin
    while not endfile(rows) loop
      readline(rows, row);
{reads}
      wait for 1 ns;
{writes}
      writeline(answers, answer);
      clk <= '1';
      wait for 1 ns;
      clk <= '0';
    end loop;
    wait;
  end process;
end architecture;

"""


def vhdl_bench(design: vhdl.Design) -> str:
    """An entity that runs a design over its file of rows."""
    ins, outs = sides(design)
    of_type = "std_logic_vector({} downto 0)"
    writes = []
    for side in (ins, outs):
        for place, port in enumerate(side):
            before = " " if place else "" if port.is_input else " : "
            writes += [f'      write(answer, string\'("{before}"));'] * bool(before) + [f"      hwrite(answer, p_{port.name});"]
    return VHDL_BENCH.format(
        name=design.name,
        signals="\n".join(f"  signal p_{port.name} : {of_type.format(port.width - 1)} := (others => '0');" for port in design.ports),
        places=", ".join(f"{port.name} => p_{port.name}" for port in design.ports),
        words="\n".join(f"    variable v_{port.name} : {of_type.format(port.width - 1)};" for port in ins),
        reads="\n".join(f"      hread(row, v_{port.name});\n      p_{port.name} <= v_{port.name};" for port in ins),
        writes="\n".join(writes),
    )


def by_ghdl(folder: Path, names: Sequence[str]) -> None:
    """Runs circuits by GHDL as VHDL-2008, all in one program."""
    designs = [vhdl.design_of((folder / f"{name}.vhd").read_text()) for name in names]
    parts = "".join(f"  of_{name} : entity work.bench_{name};\n" for name in names)
    top = f"entity {BENCH} is\nend entity;\n\narchitecture rtl of {BENCH} is\nbegin\n{parts}end architecture;\n"
    (folder / "all.vhd").write_text("".join(map(vhdl_bench, designs)) + top)
    ran(["ghdl", "-a", "--std=08", *(f"{name}.vhd" for name in names), "all.vhd"], folder)
    ran(["ghdl", "-e", "--std=08", BENCH], folder)
    ran(["ghdl", "-r", "--std=08", BENCH, "--ieee-asserts=disable"], folder)


@dataclass(frozen=True)
class Simulator:
    """A simulator: its name, its command, the ending of the files that it writes, and how it runs circuits."""

    name: str
    command: str
    ending: str
    run: Callable[[Path, Sequence[str]], None]

    def is_installed(self) -> bool:
        return shutil.which(self.command) is not None


ALL = (Simulator("Icarus Verilog", "iverilog", "icarus", by_icarus), Simulator("GHDL", "ghdl", "ghdl", by_ghdl))


def differing(simulator: Simulator, folder: Path, names: Sequence[str]) -> dict[str, str]:
    """Runs circuits by a simulator, and says of each whose rows are not those of NAME.out, which `opgen simulate` stored, where."""
    simulator.run(folder, names)
    wrong = {}
    for name in names:
        wanted = (folder / f"{name}.out").read_text().splitlines()
        found = (folder / f"{name}.{simulator.ending}").read_text().lower().splitlines()
        if wanted != found:
            row = next((at for at, pair in enumerate(zip(wanted, found)) if pair[0] != pair[1]), min(len(wanted), len(found)))
            lines = [(side[row] if row < len(side) else "no row") for side in (wanted, found)]
            wrong[name] = f"{simulator.name}: row {row}: `opgen simulate` has {lines[0]}, {simulator.name} {lines[1]}"
    return wrong
