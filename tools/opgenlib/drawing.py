"""Rows of inputs: all of them, those at the ends of ranges and around them, and those drawn as docs/COMMANDS.md says."""
import itertools
import math
from collections.abc import Iterator, Sequence

from .operators import Numbers, Operator
from .report import Port
from .rows import unit_count


# Up to so many combinations of ends of all inputs are taken, and of more the pairs.
MOST_COMBINATIONS = 20_000


def every_row(widths: Sequence[int]) -> Iterator[Numbers]:
    """Each row of words of inputs of these widths, in bits, once; the last input changes first."""
    return itertools.product(*(range(1 << width) for width in widths))


def is_divisor(operator: Operator, port: Port) -> bool:
    """Whether nothing is claimed where this input is 0."""
    return operator.spec["kind"] == "divide" and port.name == "b"


def ends_of(operator: Operator, port: Port) -> list[int]:
    """The numbers at the ends of a port's range, 0, and those beside them; of a divisor those about 0 in place of it."""
    ends = {port.least, 0, port.greatest} if not is_divisor(operator, port) else {port.least or 1, -1, 1, port.greatest}
    near = {end + step for end in ends for step in (-1, 0, 1)}
    return sorted(one for one in near if port.least <= one <= port.greatest and (one or not is_divisor(operator, port)))


def sequences(operator: Operator) -> Iterator[Numbers]:
    """For a sum of the last inputs: each end as long as the sum, and the inputs of the greatest and of the least sum."""
    (port,), taps = operator.inputs, operator.factors
    for end in (port.greatest, port.least, 0):
        yield from [(end,)] * len(taps)
    for high, low in ((port.greatest, port.least), (port.least, port.greatest)):
        yield from [(high if tap >= 0 else low,) for tap in reversed(taps)]
    yield from [(0,)] * len(taps)


def pairs_of(ends: Sequence[Sequence[int]]) -> Iterator[Numbers]:
    """For each two inputs all pairs of their ends, the other inputs at their least and at their greatest numbers."""
    for rest in ([one[0] for one in ends], [one[-1] for one in ends]):
        for left, right in itertools.combinations(range(len(ends)), 2):
            for pair in itertools.product(ends[left], ends[right]):
                row = list(rest)
                row[left], row[right] = pair
                yield tuple(row)


def end_rows(operator: Operator) -> Iterator[Numbers]:
    """The rows at the ends of ranges, all pairs of them, and for a filter those at the ends of its sum."""
    ends = [ends_of(operator, port) for port in operator.inputs]
    yield from itertools.product(*ends) if math.prod(map(len, ends)) <= MOST_COMBINATIONS else pairs_of(ends)
    if operator.memory > 1:
        yield from sequences(operator)


def drawn_rows(operator: Operator, seed: int, count: int) -> Iterator[Numbers]:
    """The stimulus of `opgen vectors` with a seed."""
    for _ in range(count):
        row = []
        for port in operator.inputs:
            seed = (seed * 6364136223846793005 + 1442695040888963407) % (1 << 64)
            number = unit_count(seed >> (64 - port.width), port)
            row.append(number or 1 if is_divisor(operator, port) else number)
        yield tuple(row)
