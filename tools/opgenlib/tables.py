"""Tables of text."""
from collections.abc import Iterable, Iterator, Sequence


def aligned(lines: Sequence[Sequence[str]], left: Iterable[int]) -> Iterator[str]:
    """The lines of a table, its columns as wide as they need; those at `left` begin on the left, and the others end on the right."""
    at_left = set(left)
    widths = [max(len(line[at]) for line in lines) for at in range(len(lines[0]))]
    for line in lines:
        cells = (cell.ljust(width) if at in at_left else cell.rjust(width) for at, (cell, width) in enumerate(zip(line, widths)))
        yield "  ".join(cells).rstrip()
