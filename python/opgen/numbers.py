"""Numbers of ports: real values and raw ones, which count units of the last place, as lists or numpy arrays."""
from __future__ import annotations

import math
import operator
from fractions import Fraction
from functools import lru_cache
from typing import TYPE_CHECKING, Any, Sequence

if TYPE_CHECKING:
    from opgenlib.report import Port

# The most bits of a number of an array of numpy; wider ones are objects.
WIDEST = 63


@lru_cache(maxsize=None)
def numpy() -> Any:
    """numpy, or None where it is not installed."""
    try:
        import numpy as found
    except ImportError:
        return None
    return found


def plain(value: Any) -> Any:
    """A number or an array of numpy as Python has it, and all else as it is."""
    return value.tolist() if hasattr(value, "tolist") else value


def nearest(value: Any, port: Port) -> int:
    """The number of units nearest to a value, halves to the even one."""
    if isinstance(value, float):
        if not math.isfinite(value):
            raise ValueError(f"{port.name} is {value}")
        return round(math.ldexp(value, -port.lsb))
    return round(Fraction(value) / port.unit)


def units_of(values: Sequence[Any], port: Port, raw: bool, saturate: bool) -> list[int]:
    """The units of each value of a port. A value out of range is set to its end, or refused."""
    units = [operator.index(value) if raw else nearest(value, port) for value in plain(values)]
    for at, number in enumerate(units):
        if not port.least <= number <= port.greatest:
            if not saturate:
                ends = [end if raw else float(end * port.unit) for end in (port.least, port.greatest)]
                raise ValueError(f"{port.name}[{at}] is {plain(values)[at]}; the port takes {ends[0]} to {ends[1]}")
            units[at] = min(max(number, port.least), port.greatest)
    return units


def column(units: Sequence[int], port: Port, raw: bool) -> Any:
    """Units as an array, or as a list where numpy is not there: raw, or the values that they stand for."""
    found = list(units) if raw else [math.ldexp(number, port.lsb) for number in units]
    arrays = numpy()
    if arrays is None:
        return found
    return arrays.array(found, dtype=float if not raw else arrays.int64 if port.width <= WIDEST else object)
