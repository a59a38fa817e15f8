"""Explains a row that is not good: what was put in, what came out, what would be good, and another latency."""
import os
from collections.abc import Sequence
from itertools import islice

from .. import evidence, rows, specification
from ..asking import NoPorts
from ..commands import Call
from ..operators import Operator, Row, operator_of
from .again import STORED, Runner, is_readable, ports_by

MOST_BYTES = 8 << 20
# The rows that latencies are looked for by, and the latencies that `check` is asked about.
MOST_ROWS, MOST_TRIED = 1000, 5


class NotFound(Exception):
    """There is no evidence that agrees with the program."""


def rows_of(call: Call, operator: Operator, run: Runner, count: int) -> list[Row]:
    """The first rows of inputs and outputs, by `simulate`."""
    if not is_readable(call) or os.path.getsize(call.words["VHDL"]) > MOST_BYTES:
        raise NotFound
    files = [os.path.abspath(call.words[what]) for what in ("VHDL", "VECTORS")]
    status, _, text = run("simulate", [*files, STORED], [])
    if status:
        raise NotFound
    widths = [[port.width for port in side] for side in (operator.inputs, operator.outputs)]
    return [evidence.numbers_of(row, operator) for row in islice(rows.read_rows(text, *widths), count)]


def latency_lines(call: Call, operator: Operator, found: Sequence[Row], run: Runner) -> list[str]:
    """The least latency at which all rows are good: `check` says which of those is at which the first rows are."""
    files = [os.path.abspath(call.words[what]) for what in ("SPEC", "VHDL", "VECTORS")]
    tried = list(islice(evidence.good_latencies(operator, found), MOST_TRIED + 1))
    for latency in tried[:MOST_TRIED]:
        status, line, _ = run("check", [*files, str(latency)], [])
        if status == 0:
            return ["  " + evidence.latency_text(latency, int(line.split()[1]))]
    return ["  " + evidence.latency_text(None, 0)] if len(tried) <= MOST_TRIED else []


def explain(call: Call, row: int, run: Runner | None) -> list[str]:
    """What is to be seen at a row, from 0, whose outputs are not good."""
    file, latency = call.words["VECTORS"], int(call.words["LATENCY"])
    said = f"{file}:{row + 1}: the outputs of row {row} are not good for the inputs up to row {row - latency}, {latency} before"
    try:
        if run is None:
            raise NotFound
        spec = specification.load(call.words["SPEC"]).table
        operator = operator_of(spec, ports_by(run, spec))
        found = rows_of(call, operator, run, max(row + 1, MOST_ROWS))
        if next(operator.bad_rows(found, latency), None) != row:
            raise NotFound
    except (NotFound, NoPorts, specification.NotToml):
        return [said, "  look at the latency in the report, and at the row's outputs"]
    seen = [f"  {line}" for line in evidence.evidence(operator, found, row, latency)]
    return [said, *seen, *latency_lines(call, operator, found[:MOST_ROWS], run)]
