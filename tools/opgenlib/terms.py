"""The terms of a sum of products: what each is multiplied by, in units of the output's last place."""
from __future__ import annotations

from collections.abc import Sequence
from dataclasses import dataclass
from fractions import Fraction
from functools import cached_property
from math import prod
from typing import Any

from .report import Port


def input_ports(spec: dict[str, Any]) -> list[Port]:
    """The inputs of a sum of products."""
    return [Port(one["name"], True, one["signed"], one["width"], one["lsb"]) for one in spec["input"]]


def size_of(port: Port) -> int:
    """The greatest number of a port without its sign."""
    return max(-port.least, port.greatest)


@dataclass(frozen=True)
class Term:
    """A term: `number` times its inputs times 2^shift, over a denominator."""

    key: str
    line: int
    number: int
    over: int
    shift: int
    inputs: tuple[Port, ...]

    @cached_property
    def factor(self) -> Fraction:
        """What the inputs are multiplied by, in units of the output's last place."""
        return Fraction(self.number, self.over) * Fraction(2) ** self.shift

    @property
    def is_whole(self) -> bool:
        return self.factor.denominator == 1

    @property
    def words(self) -> str:
        """The term without its sign, as `3/4 * x` or `a * b`."""
        names = [port.name for port in self.inputs]
        size = Fraction(abs(self.number), self.over)
        below = f"{abs(self.number)}/{self.over}" if self.over != 1 else str(size)
        return " * ".join([below, *names] if size != 1 or not names else names)

    def size_bits(self, over: int) -> int:
        """The bits of the greatest size of the term over the common denominator, its power of two left out."""
        return (abs(self.number) * (over // self.over) * prod(map(size_of, self.inputs))).bit_length()


def terms_of(spec: dict[str, Any]) -> list[Term]:
    """The terms in their order: those of `scaled`, those of `product`, and the offset where it is not 0."""
    ports = {port.name: port for port in input_ports(spec)}
    out, over, offset = spec["out_lsb"], spec.get("denominator", 1), spec.get("offset", 0)
    found = []
    for line, one in enumerate(spec.get("scaled", []), 1):
        port = ports[one["input"]]
        found.append(Term("scaled", line, one["coefficient"], over, port.lsb - out, (port,)))
    for line, one in enumerate(spec.get("product", []), 1):
        pair = ports[one["a"]], ports[one["b"]]
        found.append(Term("product", line, -1 if one.get("negative", False) else 1, 1, pair[0].lsb + pair[1].lsb - out, pair))
    return found + ([Term("offset", 0, offset, over, -out, ())] if offset else [])


def total_bits(spec: dict[str, Any]) -> int:
    """The bits of the greatest term in units of the lowest place of all terms, and those of the number of terms."""
    terms = terms_of(spec)
    depth = max(0, *(-term.shift for term in terms))
    greatest = max(term.size_bits(spec.get("denominator", 1)) + term.shift + depth for term in terms)
    return greatest + len(terms).bit_length()


def formula_of(terms: Sequence[Term], most: int) -> str:
    """The sum in words: its first terms, as many as may be shown, and its last."""
    shown = [*terms] if len(terms) <= most else [*terms[: most - 1], terms[-1]]
    text = ""
    for at, term in enumerate(shown):
        skips = len(shown) < len(terms) and at == len(shown) - 1
        sign = " - " if term.number < 0 else " + "
        text += (" + .." if skips else "") + (sign if at else sign.strip(" +") and "-") + term.words
    return text
