"""Says what is wrong with a row whose outputs are not good: its inputs, what was found, what would be good, and by how much."""
from collections.abc import Iterator, Sequence
from fractions import Fraction

from . import rows
from .operators import Numbers, Operator, Row
from .report import Port

MOST_LATENCY = 64
MOST_SHOWN = 6


def numbers_of(found: rows.Row, operator: Operator) -> Row:
    """The numbers of a row of words."""
    entered, left = found
    return (
        tuple(map(rows.unit_count, entered, operator.inputs)),
        tuple(map(rows.unit_count, left or [], operator.outputs)),
    )


def port_text(port: Port, units: int) -> str:
    """A port with its word and, in parentheses, its number."""
    return f"{port.name} = {rows.row_text([rows.word_in(units, port)], [port.width])} ({rows.value_text(units, port.lsb)})"


def side_text(ports: Sequence[Port], numbers: Numbers) -> str:
    return ", ".join(map(port_text, ports, numbers))


def units_text(error: Fraction) -> str:
    """A number of units, with up to three places."""
    text = f"{float(error):+.3f}".rstrip("0").rstrip(".")
    return f"{text} unit{'' if abs(error) == 1 else 's'}"


def inputs_text(operator: Operator, found: Sequence[Row], at: int) -> str:
    """The inputs that the outputs belong to, with their row."""
    entered = operator.last_inputs([row[0] for row in found], at)[:MOST_SHOWN]
    if operator.memory == 1:
        return f"inputs of row {at}: {side_text(operator.inputs, entered[0])}"
    shown = ", ".join(port_text(operator.inputs[0], one[0]) for one in entered)
    more = f" and {operator.memory - len(entered)} before" if operator.memory > len(entered) else ""
    return f"inputs up to row {at}, the newest first: {shown}{more}"


def outputs_text(operator: Operator, found: Sequence[Row], at: int, latency: int) -> str:
    """The outputs found, those that would be good, and the errors."""
    inputs = [row[0] for row in found]
    left, exact = found[at][1], operator.exact(inputs, at - latency) or []
    fits = [
        good
        for good in operator.good(inputs, at - latency) or []
        if all(port.least <= one <= port.greatest for port, one in zip(operator.outputs, good))
    ]
    good = " or ".join(side_text(operator.outputs, one) for one in fits)
    errors = [(port, one - value) for port, one, value in zip(operator.outputs, left, exact) if one != value]
    said = ", ".join(f"{port.name} {units_text(error)}" for port, error in errors)
    return f"found {side_text(operator.outputs, left)}; good: {good}; error: {said}"


def good_latencies(operator: Operator, found: Sequence[Row]) -> Iterator[int]:
    """The latencies at which all rows are good, and at least one is judged."""
    most = min(MOST_LATENCY, len(found) - 1)
    return (one for one in range(most + 1) if next(operator.bad_rows(found, one), None) is None)


def latency_text(latency: int | None, judged: int) -> str:
    """At which latency all rows are good, and how many are judged then."""
    if latency is None:
        return f"at no latency of 0 to {MOST_LATENCY} are all rows good"
    return f"at latency {latency} all rows are good ({judged} row{'' if judged == 1 else 's'} judged)"


def evidence(operator: Operator, found: Sequence[Row], at: int, latency: int) -> list[str]:
    """What there is to see at a row whose outputs are not good, but for other latencies."""
    return [inputs_text(operator, found, at - latency), outputs_text(operator, found, at, latency)]
