"""Says in words what a status and a line of the program mean, with the places in the files."""
import os
import re

from ..commands import BadWords, Call, call_of
from . import again, certified, files, judged, rows, specification, vhdl, words
from .again import Runner

# The statuses after which the program printed a line that names a refusal.
HAVE_LINES = (1, 6, 7, 8)


def of_line(call: Call, line: str, run: Runner | None) -> list[str]:
    """What a line that names a refusal means."""
    what, _, rest = line.strip().partition(": ")
    fault = rest.split(" ")
    match what:
        case "specification" if "SPEC" in call.words:
            return specification.explain(call.words["SPEC"], fault)
        case "vhdl" if vhdl.is_verilog(call.words["VHDL"]):
            return vhdl.explain_verilog(call.command, call.words["VHDL"])
        case "vhdl" if fault == ["Ports"]:
            return vhdl.explain_ports(call.words["VHDL"], call.words["SPEC"], run)
        case "vhdl":
            return vhdl.explain(call.words["VHDL"], fault)
        case "vectors":
            return rows.explain(call.words["VECTORS"], fault, call.words["VHDL"])
    if bad := re.fullmatch(r"row (\d+) not good\n?", line):
        return judged.explain(call, int(bad[1]), run)
    return []


def of_call(call: Call, line: str, run: Runner | None) -> list[str]:
    """What a line means, and of `check` before all else that it does not judge a circuit with a clock enable."""
    enable = vhdl.explain_enable(call.words["VHDL"]) if call.command == "check" else []
    if enable and (line.startswith("vectors: ") or line.strip() == "vhdl: Ports"):
        return enable
    return [*enable, *of_line(call, line, run)]


def explain(said: list[str], status: int, run: Runner | None, line: str | None = None) -> list[str]:
    """The explanation of a status, in some lines, none where nothing sure can be said. `said` are the words that the program was given,
    and `line` is what it printed, which is found by running it again where it is not given. Of status 0 it is what good rows show."""
    if status == 2:
        return words.explain(said)
    try:
        call = call_of(said)
    except BadWords:
        return []
    match status:
        case 0:
            return certified.explain(call, os.environ.get(certified.SEEN, ""))
        case 3:
            return files.read_fault(call)
        case 4:
            return files.write_fault(call)
        case 5:
            return files.out_of_memory(call)
        case 9:
            return files.too_long(call)
    if status in HAVE_LINES and line is None and run:
        line = again.line_of(run, call, status)
    return of_call(call, line, run) if line else []
