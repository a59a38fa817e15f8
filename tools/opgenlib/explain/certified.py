"""Says after `check` with status 0 that a circuit is good for every input, for ever, if the law `good_rows_serve` says so; or, if the
rows hold nearly every input, why they do not show it.

The law is proved. That its conditions hold is decided here, which is tested, not proved:

- the specification is valid, the design is sound and has its ports, and each judged row is good: so says status 0 of the program;
- good outputs depend on the inputs of one row: each kind but filters of two coefficients or taps and more, as the operator's `memory`;
- each output shows the inputs LATENCY rows before: `aligned.py`;
- each word of the inputs is in a row with LATENCY rows or more after it (`HoldEachWord`), also those with a divisor of 0: the rows but
  the last LATENCY are as many different texts as there are words. In lower case and without carriage returns a row that the program
  has accepted is the one text of its words.

Nothing is said of files that have changed since the program was started: `seen` has what they were then, by `state_of`.
"""
import os
import tomllib
from collections.abc import Sequence
from pathlib import Path
from typing import Any

from .. import aligned, vhdl
from ..commands import Call
from ..drawing import every_row
from ..places import Lines
from ..rows import row_text

# 100,000 rows, the most that `check` takes, hold the words of no more bits.
MOST_BITS = 16
# Bytes, and pieces of VHDL, each up to its semicolon: more VHDL takes this reader too long, and longer rows are of more bits.
MOST_BYTES = {"SPEC": 1 << 20, "VHDL": 4 << 20, "VECTORS": 4 << 20}
MOST_PIECES = 40_000
# If at most one word in so many is missing, that is said.
NEARLY = 16
# In the environment: a line of `stat` for each file that `check` reads, from before the program was started.
SEEN = "OPGEN_SEEN"
# The kinds whose good outputs depend on the inputs of one row, and the lists of those whose outputs depend on as many rows as the list has
# numbers. Of another kind nothing is said.
WITHOUT_MEMORY = {"constdiv", "divide", "mcm", "multiply", "poly", "root", "scale", "sop"}
LISTS = {"fir": "coefficients", "tfir": "taps"}


def state_of(file: str) -> str:
    """What tells a file from what it was: device, inode, bytes, and the times of its contents and its state, as bin/opgen writes it."""
    found = os.stat(file)
    times = (f"{time // 10**9}.{time % 10**9:09d}" for time in (found.st_mtime_ns, found.st_ctime_ns))
    return " ".join([str(found.st_dev), str(found.st_ino), str(found.st_size), *times])


def contents_of(call: Call, seen: str) -> dict[str, bytes] | None:
    """The files of a call as the program has read them; none if one has changed, is no file, or is long."""
    files = dict(call.inputs)
    if any(not os.path.isfile(file) or os.path.getsize(file) > MOST_BYTES[what] for what, file in files.items()):
        return None
    contents = {what: Path(file).read_bytes() for what, file in files.items()}
    return contents if seen.splitlines() == [state_of(file) for file in files.values()] else None


def has_memory(spec: dict[str, Any]) -> bool:
    """Whether good outputs depend on rows before the last one."""
    kind = spec.get("kind")
    return len(spec[LISTS[kind]]) > 1 if kind in LISTS else kind not in WITHOUT_MEMORY


def first_missing(widths: Sequence[int], held: set[str]) -> str:
    """The first row, in the order of the inputs' words, that is not among those held."""
    return next(text for text in (row_text(row, widths) for row in every_row(widths)) if text not in held)


def missing_line(widths: Sequence[int], rows: list[str], latency: int) -> str:
    """What is missing to rows that hold nearly every input; nothing to those that hold each, and are followed by enough rows."""
    held, count = set(rows[: max(0, len(rows) - latency)]), 1 << sum(widths)
    missing = count - len(held)
    if missing == 0:
        return ""
    if len(set(rows)) == count:
        return f"they hold every input, but outputs come {latency} row{'s'[: latency > 1]} later: add {latency} behind them"
    is_one = "inputs is" if missing == 1 else "inputs are"
    return f"{missing} of {count} {is_one} missing, the first {first_missing(widths, held)}"


def good_line(spec: dict[str, Any], file: str, latency: int) -> str:
    given = " with b other than 0" if spec["kind"] == "divide" else ""
    return (f"opgen: {file} is good for every input{given}, for ever: the rows hold each input, and each path from an input to an output "
            f"passes {aligned.registers_text(latency)}, by a test that is not proved")


def lines_of(call: Call, contents: dict[str, bytes]) -> list[str]:
    """What is said of files that the program has accepted, with good rows."""
    spec = tomllib.loads(contents["SPEC"].decode())
    text = contents["VHDL"].decode("latin-1")
    file, latency = call.words["VHDL"], int(call.words["LATENCY"])
    widths = [port.width for port in vhdl.entity_of(text)[1] if port.is_input]
    if sum(widths) > MOST_BITS or has_memory(spec) or text.count(";") > MOST_PIECES:
        return []
    rows = contents["VECTORS"].decode("latin-1").lower().replace("\r\n", "\n").removesuffix("\n").split("\n")
    if NEARLY * ((1 << sum(widths)) - len(set(rows))) > 1 << sum(widths):
        return []
    if missing := missing_line(widths, rows, latency):
        return [f"opgen: good for these rows alone: {missing}"]
    if fault := aligned.fault_of(vhdl.design_of(text), latency):
        place = Lines(text).place(fault.at)
        return [f"opgen: good for these rows alone, though they hold every input: {file}:{place}: {fault.words}"]
    return [good_line(spec, file, latency)]


def explain(call: Call, seen: str) -> list[str]:
    """A line on the rows of a `check` that has found all good, none if they are not nearly all inputs, or nothing sure can be said."""
    try:
        contents = contents_of(call, seen) if call.command == "check" else None
        return lines_of(call, contents) if contents else []
    except (OSError, UnicodeDecodeError, tomllib.TOMLDecodeError, vhdl.NotRead):
        return []
