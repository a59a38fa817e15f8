"""What nextpnr makes of a circuit between registers, on a device of the iCE40 family."""
import re
import shutil
import subprocess
import tempfile
from collections.abc import Sequence
from concurrent.futures import ThreadPoolExecutor
from dataclasses import dataclass
from pathlib import Path
from statistics import median

from . import yosys
from .report import Port
from .running import process, show_progress

# The devices that nextpnr-ice40 knows, with a package of each. Three pins do.
PACKAGES = {
    "lp384": "qn32",
    "lp1k": "qn84",
    "lp4k": "cm225",
    "lp8k": "cm225",
    "hx1k": "tq144",
    "hx4k": "tq144",
    "hx8k": "ct256",
    "up3k": "sg48",
    "up5k": "sg48",
    "u1k": "sg48",
    "u2k": "sg48",
    "u4k": "sg48",
}
MISSING = "Yosys and nextpnr-ice40 are needed, packages yosys and nextpnr-ice40"
AROUND = "opgen_between"
# A flip-flop and a parity: as any tool takes them, and as cells of the device.
PLAIN_CELLS = """module opgen_flop(input clk, input d, output reg q = 0);
  always @(posedge clk) q <= d;
endmodule

module opgen_parity(input a, input b, output y);
  assign y = a ^ b;
endmodule
"""
DEVICE_CELLS = """module opgen_flop(input clk, input d, output q);
  SB_DFF cell_ (.C(clk), .D(d), .Q(q));
endmodule

module opgen_parity(input a, input b, output y);
  SB_LUT4 #(.LUT_INIT(16'h6666)) cell_ (.I0(a), .I1(b), .I2(1'b0), .I3(1'b0), .O(y));
endmodule
"""
BETWEEN = """module {around}(input clk, input si, output so);
  wire [{ins}:0] entered;
  wire [{high}:0] left, held, parity;
  wire [{outs}:0] read;
  assign entered[0] = si;
  assign read[0] = 1'b0;
  assign so = read[{outs}];
  genvar at;
  generate
    for (at = 0; at < {ins}; at = at + 1) begin : entering
      opgen_flop flop (clk, entered[at], entered[at + 1]);
    end
    for (at = 0; at < {outs}; at = at + 1) begin : leaving
      opgen_flop flop (clk, left[at], held[at]);
      opgen_parity gate (read[at], held[at], parity[at]);
      opgen_flop next (clk, parity[at], read[at + 1]);
    end
  endgenerate
  \\{name} circuit (.clk(clk), {places});
endmodule
"""


class NotPlaced(Exception):
    """A circuit that nextpnr does not place, or whose log cannot be read."""


@dataclass(frozen=True)
class Device:
    """A device, how many seeds are tried, how many seconds each may take, and how many run at a time; and the tool that says on
    standard error what each seed reached, if one does."""

    name: str
    seeds: int
    limit: float
    jobs: int
    tool: str = ""


@dataclass(frozen=True)
class Placed:
    """The least period between registers, in picoseconds, by seed, where nextpnr ended; and what the circuit takes: logic cells, with
    the registers at its outputs and without those at its inputs, and carries."""

    periods: tuple[int, ...]
    unended: int
    cells: int
    carries: int

    @property
    def median(self) -> int:
        return round(median(self.periods))

    def met(self, period: int) -> str:
        """How many of the seeds meet a period."""
        return f"{sum(reached <= period for reached in self.periods)} of {len(self.periods) + self.unended}"


def is_installed() -> bool:
    return yosys.is_installed() and shutil.which("nextpnr-ice40") is not None


def versions() -> str:
    """The tools that measure."""
    said = process(["nextpnr-ice40", "--version"])
    found = re.search(r"Version ([^\s)]+)", said.stdout + said.stderr)
    return f"{yosys.version()}, nextpnr-ice40 {found[1] if found else 'of an unknown version'}"


def sizes_of(ports: Sequence[Port]) -> tuple[int, int]:
    """The bits of all inputs and of all outputs."""
    ins = sum(port.width for port in ports if port.is_input)
    return ins, sum(port.width for port in ports) - ins


def between(name: str, ports: Sequence[Port], cells: str = DEVICE_CELLS) -> str:
    """A module with the circuit of that name between registers. Those at its inputs are a chain that reads one pin, those at its
    outputs are read by a chain of parities that drives another, so that paths outside of the circuit are short."""
    ins, outs = sizes_of(ports)
    at, places = {True: 1, False: 0}, []
    for port in ports:
        low = at[port.is_input]
        at[port.is_input] += port.width
        places.append(f".{port.name}({'entered' if port.is_input else 'left'}[{low + port.width - 1}:{low}])")
    body = BETWEEN.format(around=AROUND, name=name, ins=ins, outs=outs, high=outs - 1, places=", ".join(places))
    return f"{cells}\n{body}"


def pipelined(name: str, ports: Sequence[Port], count: int) -> str:
    """A module `NAME_pipelined` that puts so many registers behind each output of a circuit."""
    sides, lines, places = [], [], []
    for port in ports:
        sides.append(f"{'input' if port.is_input else 'output'} [{port.width - 1}:0] {port.name}")
        places.append(f".{port.name}({port.name if port.is_input else f'{port.name}_0'})")
        if not port.is_input:
            lines.append(f"  wire [{port.width - 1}:0] {port.name}_0;")
            lines += [f"  reg [{port.width - 1}:0] {port.name}_{at} = 0;" for at in range(1, count + 1)]
            lines += [f"  always @(posedge clk) {port.name}_{at} <= {port.name}_{at - 1};" for at in range(1, count + 1)]
            lines.append(f"  assign {port.name} = {port.name}_{count};")
    head = f"module {name}_pipelined(input clk, {', '.join(sides)});"
    return "\n".join([head, *lines, f"  \\{name} circuit (.clk(clk), {', '.join(places)});", "endmodule"]) + "\n"


def period_of(log: str) -> int:
    """The period in picoseconds that a log of nextpnr names last, which is the one after routing."""
    found = re.findall(r"^(?:Info|Warning|ERROR): Max frequency for clock +'[^']*': ([\d.]+) MHz", log, re.MULTILINE)
    if not found:
        raise NotPlaced("the log of nextpnr-ice40 names no frequency")
    return round(1e6 / float(found[-1]))


def cells_of(log: str) -> int:
    """The logic cells that a log of nextpnr counts."""
    found = re.search(r"ICESTORM_LC: +(\d+)/", log)
    if not found:
        raise NotPlaced("the log of nextpnr-ice40 counts no cells")
    return int(found[1])


def log_of(netlist: Path, device: Device, seed: int, period: int) -> str | None:
    """What nextpnr prints for one seed, None where it does not end within the limit."""
    words = ["nextpnr-ice40", f"--{device.name}", "--package", PACKAGES[device.name], "--json", netlist, "--seed", str(seed)]
    words += ["--freq", f"{1e6 / period:.3f}", "--timing-allow-fail"]
    try:
        done = process(words, device.limit)
    except subprocess.TimeoutExpired:
        return None
    said = done.stdout + done.stderr
    if done.returncode:
        faults = re.findall(r"^ERROR: (.*)", said, re.MULTILINE) or ["it ends with status " + str(done.returncode)]
        raise NotPlaced(f"nextpnr-ice40: {faults[0]}")
    return said


def logs_of(netlist: Path, device: Device, period: int) -> list[str]:
    """What nextpnr prints for each seed that ends."""

    def one(seed: int) -> str | None:
        log = log_of(netlist, device, seed, period)
        if device.tool:
            reached = f"{period_of(log)} ps" if log else f"not ended within {device.limit:g} seconds"
            show_progress(device.tool, f"{period} ps, seed {seed} of {device.seeds}: {reached}")
        return log

    with ThreadPoolExecutor(device.jobs) as pool:
        ended = [log for log in pool.map(one, range(1, device.seeds + 1)) if log is not None]
    if not ended:
        raise NotPlaced(f"nextpnr-ice40 ends for no seed within {device.limit:g} seconds")
    return ended


def placed(verilog: str, name: str, ports: Sequence[Port], device: Device, period: int, is_retimed: bool = False) -> Placed:
    """Maps a text, and places and routes it for each seed. If asked, Yosys moves the registers of the text."""
    with tempfile.TemporaryDirectory(prefix="opgen-place-") as place:
        folder = Path(place)
        cells = yosys.in_ice40(verilog, name, (AROUND, between(name, ports)), is_retimed, folder)
        logs = logs_of(folder / "around.json", device, period)
    periods = tuple(map(period_of, logs))
    return Placed(periods, device.seeds - len(logs), cells_of(logs[0]) - sum(sizes_of(ports)), cells.get("SB_CARRY", 0))
