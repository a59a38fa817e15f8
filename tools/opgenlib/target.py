"""The delays of cells, by the target of a specification and its delay lines."""
from collections.abc import Callable
from typing import Any

# The delays of `plain`, base and per bit, and of `fixed`.
PLAIN = {"wire": (0, 0), "logic": (400, 0), "add": (500, 30), "choice": (450, 0), "table": (600, 50), "register": (100, 0)}
FIXED = {"wire": 0, "logic": 350, "choice": 400, "table": 700, "register": 80}
# The most bits of a sum that every period takes in version 4, of a table's address, and of a word.
MOST_OF_A_PIECE, MOST_OF_AN_ADDRESS, MOST_OF_A_WORD = 4, 6, 96
# How a cell is called, by its class, and the most bits by which its delay is found.
CELLS = {"table": ("a table of {} bits", MOST_OF_AN_ADDRESS), "choice": ("a choice", MOST_OF_A_WORD), "logic": ("a gate", MOST_OF_A_WORD),
         "wire": ("a wire", MOST_OF_A_WORD)}


def delays(spec: dict[str, Any]) -> Callable[[str, int], int]:
    """The delay of a cell by class and width."""
    lines = {line["class"]: (line["base"], line["per_bit"]) for line in spec.get("delay", [])}
    if spec["target"] == "fixed":
        return lambda kind, width: FIXED[kind] if kind != "add" else 400 + 100 * ((width + 7) // 8)
    table = PLAIN | lines
    return lambda kind, width: table[kind][0] + table[kind][1] * width


def cells_of(spec: dict[str, Any], need: int) -> list[str]:
    """The cells, sums aside, that need a period of this many picoseconds with the setup time, in words."""
    delay = delays(spec)
    slow = need - delay("register", 1)
    found = []
    for kind, (words, most) in CELLS.items():
        width = next((width for width in range(1, most + 1) if delay(kind, width) == slow), None)
        found += [words.format(width)] if width else []
    return found


def sum_of(spec: dict[str, Any], need: int) -> int | None:
    """The bits of a sum that needs a period of this many picoseconds with the setup time, the fewest; none if no sum does."""
    delay = delays(spec)
    return next((width for width in range(1, MOST_OF_A_WORD + 1) if delay("add", width) + delay("register", 1) == need), None)
