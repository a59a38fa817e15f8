"""What an explanation may take: seconds, bytes of memory, and lines on the screen."""
import os
import resource
import signal
import unicodedata
from collections.abc import Iterable
from types import FrameType

MOST_SECONDS = 2
# The timer ends before, so that what was read is given up and the line is printed in time.
SPARED = 0.5
# In the environment, other seconds: for tests beside other work, in which a process waits longer for a processor.
SECONDS = "OPGEN_EXPLAIN_SECONDS"
MOST_MEMORY = 256 << 20
MOST_LINES, MOST_LETTERS = 20, 300
NO_CLOSER_LOOK = f"no closer look: it would take more than {MOST_SECONDS} s or {MOST_MEMORY >> 20} MiB"


class TooLong(Exception):
    """The time of an explanation is over."""


def end(_number: int, _frame: FrameType | None) -> None:
    raise TooLong


def lowered(kind: int, most: int) -> None:
    """Lowers a limit of this process and of those that it starts."""
    hard = resource.getrlimit(kind)[1]
    least = most if hard == resource.RLIM_INFINITY else min(most, hard)
    resource.setrlimit(kind, (least, least))


def begin() -> None:
    """Sets the limits. When the time is over, the code that runs then fails with `TooLong`; without memory, with `MemoryError`."""
    for kind in (resource.RLIMIT_AS, resource.RLIMIT_DATA):
        lowered(kind, MOST_MEMORY)
    seconds = int(os.environ.get(SECONDS, MOST_SECONDS))
    lowered(resource.RLIMIT_CPU, seconds)
    signal.signal(signal.SIGALRM, end)
    signal.setitimer(signal.ITIMER_REAL, seconds - SPARED)


def stop() -> None:
    """Stops the timer, so that what is said is printed."""
    signal.setitimer(signal.ITIMER_REAL, 0)


def visible(text: str) -> str:
    """A text on one line without control characters, which are written by their numbers."""
    return "".join(letter if not unicodedata.category(letter).startswith("C") else ascii(letter)[1:-1] for letter in text)


def shortened(lines: Iterable[str]) -> list[str]:
    """The lines as they are printed: not too many, and none too long."""
    cut = (visible(line[: MOST_LETTERS + 1]) for line in list(lines)[:MOST_LINES])
    return [line if len(line) <= MOST_LETTERS else f"{line[:MOST_LETTERS - 2]}.." for line in cut]
