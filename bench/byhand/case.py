"""A circuit to be measured: what it is asked for, what is written by hand for it, and when its outputs are good."""
from collections.abc import Callable
from dataclasses import dataclass, field

# Whether the outputs of a cycle are good: the inputs up to it, the latest last, and the outputs.
Good = Callable[[list[list[int]], list[int]], bool]
COUNTERS = 'compressor = "counters"\n'


@dataclass(frozen=True)
class Case:
    """A circuit: its keys, what is written by hand for it, and when outputs are good. `others` are further specifications. With
    `beside` it is several circuits of the same inputs, measured together; the outputs of the further ones are called `z` and `v`.
    `sums` says of texts by hand how many sums are in series."""

    name: str
    words: str
    keys: str
    hands: dict[str, str]
    good: Good
    others: dict[str, str] = field(default_factory=dict)
    beside: tuple[str, ...] = ()
    sums: dict[str, int] = field(default_factory=dict)


def module(ports: str, body: str) -> str:
    """A text by hand; `clk` is not read where nothing is registered."""
    return f"module circuit(input clk, {ports});\n{body}endmodule\n"
