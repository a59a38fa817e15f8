"""Lines and columns of a text, both from 1."""
from bisect import bisect_right
from dataclasses import dataclass


@dataclass(frozen=True)
class Place:
    line: int
    column: int

    def __str__(self) -> str:
        return f"{self.line}:{self.column}"


class Lines:
    """Where the lines of a text begin."""

    def __init__(self, text: str | bytes) -> None:
        mark = b"\n" if isinstance(text, bytes) else "\n"
        self.starts = [0]
        end = text.find(mark)
        while end >= 0:
            self.starts.append(end + 1)
            end = text.find(mark, end + 1)

    def place(self, at: int) -> Place:
        """The line and column of an offset."""
        line = bisect_right(self.starts, at)
        return Place(line, at - self.starts[line - 1] + 1)
