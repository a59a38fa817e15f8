"""Which outputs of an operator are good, as docs/SPECIFICATION.md says, by exact fractions. Its ports are those of a report.

This is for tests and explanations, and nothing of it is proved: `opgen check` is."""
import math
from collections.abc import Iterator, Sequence
from dataclasses import dataclass
from fractions import Fraction
from typing import Any

from .exact import Exact, coefficients_of, exact_of, exact_values, turned, wraps
from .report import Port
from .specification import is_always_exact

Numbers = tuple[int, ...]
# A row: the numbers of the inputs and of the outputs, in units of their last places.
Row = tuple[Numbers, Numbers]
# The key with what each of the last inputs is multiplied by, of kinds that have a filter's memory.
TAPS = {"fir": "coefficients", "tfir": "taps"}


def memory_of(spec: dict[str, Any]) -> int:
    """How many of the last inputs an output depends on, the newest counted."""
    return max(1, len(spec.get(TAPS.get(spec["kind"], ""), ())))


@dataclass(frozen=True)
class Operator:
    """An operator with what is needed to judge its rows: its exact values, and what each of the last inputs is multiplied by."""

    spec: dict[str, Any]
    ports: tuple[Port, ...]
    exact: Exact
    factors: tuple[Fraction, ...] = ()

    @property
    def inputs(self) -> tuple[Port, ...]:
        return tuple(port for port in self.ports if port.is_input)

    @property
    def outputs(self) -> tuple[Port, ...]:
        return tuple(port for port in self.ports if not port.is_input)

    @property
    def memory(self) -> int:
        """How many inputs an output depends on."""
        return memory_of(self.spec)

    @property
    def is_exact(self) -> bool:
        return self.spec["exact"] or is_always_exact(self.spec)

    def last_inputs(self, inputs: Sequence[Numbers], at: int) -> list[Numbers]:
        """The inputs of a row and of those before it, the newest first, as many as an output depends on; 0 before row 0."""
        nothing = (0,) * len(self.inputs)
        return [inputs[row] if row >= 0 else nothing for row in range(at, at - self.memory, -1)]

    def good(self, inputs: Sequence[Numbers], at: int) -> list[Numbers] | None:
        """The good outputs for the inputs up to a row; none where nothing is claimed."""
        values = self.exact(inputs, at)
        if values is None:
            return None
        if self.is_exact:
            return [tuple(map(int, values))] if all(value.denominator == 1 for value in values) else []
        if wraps(self.spec):
            return self.good_wrapped(inputs, at)
        return [(whole,) for whole in sorted({math.floor(values[0]), math.ceil(values[0])})]

    def good_wrapped(self, inputs: Sequence[Numbers], at: int) -> list[Numbers]:
        """The good outputs that wrap: what is good without a chosen width, which a polynomial's format may not hold, by turns."""
        value = exact_of(self.spec)(inputs, at)[0]
        least, greatest = ends_of_polynomial(self.spec) if self.spec["kind"] == "poly" else (math.floor(value), math.ceil(value))
        wholes = [whole for whole in (math.floor(value), math.ceil(value)) if least <= whole <= greatest]
        return sorted({(int(turned(Fraction(whole), self.outputs[0])),) for whole in wholes})

    def bad_rows(self, rows: Sequence[Row], latency: int) -> Iterator[int]:
        """The rows, from the latency on, whose outputs are not good for the inputs up to the row so many before."""
        inputs = [entered for entered, _ in rows]
        for at in range(latency, len(rows)):
            good = self.good(inputs, at - latency)
            if good is not None and rows[at][1] not in good:
                yield at


def ends_of_polynomial(spec: dict[str, Any]) -> tuple[int, int]:
    """The least and the greatest number of a polynomial's format without a chosen width: by the bounds of Horner's rule."""
    coefficients = coefficients_of(spec)
    guard = (3 * (len(coefficients) - 1)).bit_length()
    low = high = 0
    for number in reversed([math.floor(coefficient * 2**guard + Fraction(1, 2)) for coefficient in coefficients]):
        low, high = number + min(low, 0), number + max(high, 0)
    least, greatest = (math.floor(Fraction(end, 2**guard) + Fraction(1, 2)) for end in (low, high))
    if least >= 0:
        return 0, (1 << max(1, greatest.bit_length())) - 1
    half = 1 << max(1, (~least).bit_length(), greatest.bit_length())
    return -half, half - 1


def operator_of(spec: dict[str, Any], ports: Sequence[Port]) -> Operator:
    """The operator of a specification that the program accepts, with the ports of its report."""
    factors = tuple(coefficients_of(spec)) if spec["kind"] in ("scale", *TAPS) else ()
    outputs = [port for port in ports if not port.is_input]
    return Operator(spec, tuple(ports), exact_values(spec, outputs), factors)
