"""How high a heap is: the bits of each column before the compression, of which two rows are left after it."""
from collections import Counter
from collections.abc import Iterator

from opgenlib.drawings.example import Example, NotDrawn
from opgenlib.drawings.parts import Circuit, heaps_of
from opgenlib.svg import LETTER, Picture

HIGH, TOP, LEFT, BELOW = 110, 34, 90, 40


def counts_of(example: Example) -> list[Counter]:
    """For each heap, how many bits its columns have at first."""
    found = []
    for columns, gates in heaps_of(Circuit(example.whole_design)):
        counts = Counter(column for (node, _), column in columns.items() if node not in gates)
        if counts:
            found.append(counts)
    if not found:
        raise NotDrawn("this circuit has no heap: one table is enough")
    return found


def draw_profile(picture: Picture, counts: Counter, step: float, top: float) -> None:
    tallest, last = max(counts.values()), max(counts)
    for column in range(last + 1):
        x, high = LEFT + (last - column) * step, HIGH * counts[column] / tallest
        picture.rect(x, top + HIGH - high, step - 3, high, "steelblue")
        picture.text(x + step / 2 - 1.5, top + HIGH - high - 4, str(counts[column] or ""), "middle", 10)
        picture.text(x + step / 2 - 1.5, top + HIGH + 14, str(column), "middle", 10)
    picture.text(8, top + HIGH + 14, "column")


def captions(steps: int) -> Iterator[str]:
    for step in range(1, steps + 1):
        yield "bits" if steps == 1 else f"step {step}"


def profile(example: Example) -> Picture:
    heaps = counts_of(example)
    step = max(min(26, 640 / (1 + max(max(counts) for counts in heaps))), 14)
    wide = LEFT + step * (1 + max(max(counts) for counts in heaps)) + 12
    words = f"{example.caption}: bits of each column before compression"
    picture = Picture(max(wide, LETTER * len(words) + 16), len(heaps) * (TOP + HIGH + BELOW) + 16)
    for at, (counts, name) in enumerate(zip(heaps, captions(len(heaps)))):
        top = at * (TOP + HIGH + BELOW) + TOP
        picture.text(8, top + HIGH, name)
        draw_profile(picture, counts, step, top)
    picture.text(8, len(heaps) * (TOP + HIGH + BELOW) + 4, words)
    return picture
