"""The exact values of an operator's outputs, by its specification alone: the sums of docs/SPECIFICATION.md, in fractions."""
from __future__ import annotations

import math
from fractions import Fraction
from functools import reduce
from operator import mul
from typing import Callable, Iterable, List, Optional, Sequence

from .report import Port
from .terms import Term, input_ports, terms_of

# The inputs of each cycle so far, in units of their last places, and a cycle: the exact values of the outputs in that cycle in
# units of theirs, none where nothing is claimed.
Exact = Callable[[Sequence[Sequence[int]], int], Optional[List[Fraction]]]
# A root that is no whole number is taken to this many further bits.
ROOT_BITS = 64


def common_denominator(numbers: Iterable[Fraction]) -> int:
    """The least number by which all are whole."""
    return reduce(lambda over, number: over * number.denominator // math.gcd(over, number.denominator), numbers, 1)


def coefficients_of(spec: dict) -> list[Fraction]:
    """The coefficients, or the taps, in units of the output's last place for each unit of the input."""
    lsb = 0 if spec["kind"] == "poly" else spec["lsb"]
    weight = Fraction(2) ** (lsb - spec.get("out_lsb", lsb)) / spec.get("denominator", 1)
    return [Fraction(coefficient) * weight for coefficient in spec["taps" if spec["kind"] == "tfir" else "coefficients"]]


def sum_over_taps(taps: Sequence[Fraction]) -> Exact:
    """The sum over the last inputs, those before the first being 0."""
    over = common_denominator(taps)
    numerators = [int(tap * over) for tap in taps]

    def exact(inputs: Sequence[Sequence[int]], cycle: int) -> list[Fraction]:
        last = (inputs[at][0] for at in range(cycle, max(cycle - len(taps), -1), -1))
        return [Fraction(sum(map(mul, numerators, last)), over)]

    return exact


def polynomial(spec: dict) -> Exact:
    coefficients = coefficients_of(spec)

    def exact(inputs: Sequence[Sequence[int]], cycle: int) -> list[Fraction]:
        at = Fraction(inputs[cycle][0], 1 << spec["width"])
        return [sum((coefficient * at**power for power, coefficient in enumerate(coefficients)), Fraction(0))]

    return exact


def divided(number: int, by: int) -> list[Fraction]:
    """The quotient rounded towards 0, and what is left, which is 0 or has the sign of the number."""
    size = abs(number) // abs(by)
    whole = size if (number < 0) == (by < 0) else -size
    return [Fraction(whole), Fraction(number - whole * by)]


def quotient(spec: dict, shift: int, divisor: int | None) -> Exact:
    """The quotient by a divisor, or by the second input; where exact rounded towards 0, with its remainder."""

    def exact(inputs: Sequence[Sequence[int]], cycle: int) -> list[Fraction] | None:
        number, by = inputs[cycle][0] << shift, divisor or inputs[cycle][1]
        if not by:
            return None
        return divided(number, by) if spec["exact"] else [Fraction(number, by)]

    return exact


def root(spec: dict) -> Exact:
    shift = spec["lsb"] - 2 * spec["out_lsb"]

    def exact(inputs: Sequence[Sequence[int]], cycle: int) -> list[Fraction]:
        number = inputs[cycle][0] << shift
        if spec["exact"]:
            whole = math.isqrt(number)
            return [Fraction(whole), Fraction(number - whole * whole)]
        return [Fraction(math.isqrt(number << 2 * ROOT_BITS), 1 << ROOT_BITS)]

    return exact


def sum_of_terms(terms: Sequence[Term], inputs: Sequence[Port]) -> Exact:
    """The sum over the terms of a cycle's inputs, each multiplied by its factor."""
    places = {port.name: at for at, port in enumerate(inputs)}
    over = common_denominator(term.factor for term in terms)
    parts = [(int(term.factor * over), [places[port.name] for port in term.inputs]) for term in terms]

    def exact(inputs: Sequence[Sequence[int]], cycle: int) -> list[Fraction]:
        row = inputs[cycle]
        return [Fraction(sum(number * math.prod(row[at] for at in factors) for number, factors in parts), over)]

    return exact


def exact_of(spec: dict) -> Exact:
    """The exact values of a kind."""
    kind = spec["kind"]
    if kind in ("scale", "fir", "tfir"):
        return sum_over_taps(coefficients_of(spec))
    if kind == "mcm":
        return lambda inputs, cycle: [Fraction(constant * inputs[cycle][0]) for constant in spec["constants"]]
    if kind == "multiply":
        weight = Fraction(2) ** (spec["lsb_a"] + spec["lsb_b"] - spec["out_lsb"])
        return lambda inputs, cycle: [inputs[cycle][0] * inputs[cycle][1] * weight]
    if kind == "divide":
        return quotient(spec, spec["lsb_a"] - spec["lsb_b"] - spec["out_lsb"], None)
    if kind == "constdiv":
        return quotient(spec, 0, spec["divisor"])
    if kind == "root":
        return root(spec)
    if kind == "poly":
        return polynomial(spec)
    if kind == "sop":
        return sum_of_terms(terms_of(spec), input_ports(spec))
    raise KeyError(kind)


def exact_values(spec: dict, outs: Sequence[Port]) -> Exact:
    """The exact values of a kind; of an output of a chosen width brought into its range, by its least or greatest number or by turns."""
    exact = exact_of(spec)
    if "out_width" not in spec:
        return exact
    least, greatest = Fraction(outs[0].least), Fraction(outs[0].greatest)

    def chosen(inputs: Sequence[Sequence[int]], cycle: int) -> list[Fraction]:
        values = exact(inputs, cycle) or []
        return [turned(value, outs[0]) if wraps(spec) else min(max(value, least), greatest) for value in values]

    return chosen


def turned(value: Fraction, port: Port) -> Fraction:
    """A value modulo 2 to the power of an output's width, in its range or less than one unit above."""
    return port.least + (value - port.least) % (1 << port.width)


def wraps(spec: dict) -> bool:
    """Whether the output of a chosen width wraps, and does not saturate."""
    return spec.get("overflow") == "wrap"


def error_of(spec: dict, found: int, value: Fraction) -> Fraction:
    """How far an output is from its exact value; of one that wraps by the turn that is nearest."""
    if not wraps(spec):
        return found - value
    turn = 1 << spec["out_width"]
    return (found - value + turn // 2) % turn - turn // 2
