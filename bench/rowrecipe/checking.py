"""Whether the outputs of a net are good, over all inputs or over drawn ones."""
from __future__ import annotations

import itertools
import random
from collections.abc import Iterable, Iterator

from .circuits import Circuit
from .net import Machine, Net

CORNERS = 0.3


def signed(word: int, width: int, is_signed: bool) -> int:
    return word - (1 << width) if is_signed and word >> width - 1 else word


def all_inputs(circuit: Circuit) -> Iterator[tuple[int, ...]]:
    return itertools.product(*(range(1 << width) for _, width, _ in circuit.inputs))


def drawn_inputs(circuit: Circuit, count: int, seed: int = 1) -> Iterator[list[int]]:
    """Words of which many are at the ends of their range."""
    draw = random.Random(seed)
    for _ in range(count):
        row = []
        for _, width, _ in circuit.inputs:
            top = 1 << width - 1
            row.append(draw.choice([0, 1, top - 1, top, 2 * top - 1]) if draw.random() < CORNERS else draw.getrandbits(width))
        yield row


def fault(circuit: Circuit, net: Net, rows: Iterable[Iterable[int]], is_exact: bool) -> str:
    """The first row whose outputs are not good, or nothing."""
    machine, history = Machine(net), []
    for row in rows:
        found = machine.run(list(row))
        history.append([signed(word, width, is_signed) for word, (_, width, is_signed) in zip(row, circuit.inputs)])
        wanted = circuit.exact(history[-64:])
        for word, value, (name, width, is_signed) in zip(found, wanted, circuit.outputs):
            off = abs(signed(word, width, is_signed) - value)
            if off >= 1 or is_exact and off:
                return f"{name} of {history[-1]} is {signed(word, width, is_signed)}, not {value}"
    return ""
