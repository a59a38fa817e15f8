"""The layers of the crates: the headings of crates.txt with their crates, which layer rests on which, and a picture of them."""
import re
from pathlib import Path

from opgenlib.svg import Picture

WIDE, EDGE, CHIP, GAP, LETTER = 860, 14, 22, 34, 6.9
COLORS = {"layer": "#eef2f8", "crate": "#ffffff"}


def read_layers(path: Path) -> dict[str, dict[str, list[str]]]:
    """The headings of crates.txt, with their crates, and what each of these lists as its dependencies."""
    found: dict[str, dict[str, list[str]]] = {}
    heading = ""
    for line in path.read_text().splitlines():
        if re.fullmatch(r"# \w[\w ]*", line):
            heading = line[2:]
            found[heading] = {}
        elif crate := re.match(r"(\w+)(?: \w+=\S+)*:(.*)", line):
            found[heading][crate[1]] = crate[2].split()
    return found


def rests_on(layers: dict[str, dict[str, list[str]]]) -> dict[str, set[str]]:
    """For each layer all layers that its crates depend on, directly or through others."""
    layer_of = {crate: heading for heading, crates in layers.items() for crate in crates}
    below: dict[str, set[str]] = {}
    for heading, crates in layers.items():
        near = {layer_of[name] for names in crates.values() for name in names if name in layer_of} - {heading}
        below[heading] = near.union(*(below[other] for other in near))
    return below


def next_below(below: dict[str, set[str]], heading: str) -> list[str]:
    """The layers right below one: those that no other layer below it rests on."""
    return [other for other in below if other in below[heading] and not any(other in below[more] for more in below[heading])]


def rows_of(layers: dict[str, dict[str, list[str]]], below: dict[str, set[str]]) -> list[list[str]]:
    """The layers by their height, the highest first: those of a row do not rest on each other."""
    height: dict[str, int] = {}
    for heading in layers:
        height[heading] = 1 + max((height[other] for other in below[heading]), default=-1)
    return [[heading for heading in layers if height[heading] == at] for at in range(max(height.values()), -1, -1)]


def chips_of(names: list[str], width: float) -> list[list[tuple[str, float, float]]]:
    """The names in lines of at most this width, each with its place and its own width."""
    lines: list[list[tuple[str, float, float]]] = [[]]
    x = 0.0
    for name in names:
        own = LETTER * len(name) + 12
        if lines[-1] and x + own > width:
            lines.append([])
            x = 0.0
        lines[-1].append((name, x, own))
        x += own + 6
    return lines


def draw_layer(picture: Picture, x: float, y: float, width: float, height: float, heading: str,
               lines: list[list[tuple[str, float, float]]]) -> None:
    picture.rect(x, y, width, height, COLORS["layer"])
    picture.text(x + EDGE, y + 18, heading)
    for at, line in enumerate(lines):
        for name, place, own in line:
            top = y + 26 + at * (CHIP + 5)
            picture.rect(x + EDGE + place, top, own, CHIP, COLORS["crate"])
            picture.text(x + EDGE + place + own / 2, top + 15, name, "middle")


def draw_arrow(picture: Picture, x1: float, y1: float, x2: float, y2: float) -> None:
    picture.line(x1, y1, x2, y2, "black")
    picture.line(x2 - 4, y2 - 7, x2, y2, "black")
    picture.line(x2 + 4, y2 - 7, x2, y2, "black")


def picture_of(layers: dict[str, dict[str, list[str]]]) -> Picture:
    """A box for each layer with its crates in it, and an arrow to each layer right below it."""
    below = rests_on(layers)
    rows = rows_of(layers, below)
    boxes: dict[str, tuple[float, float, float, float]] = {}
    chips: dict[str, list[list[tuple[str, float, float]]]] = {}
    y = 10.0
    for row in rows:
        width = (WIDE - 20 - 20 * (len(row) - 1)) / len(row)
        for heading in row:
            names = [name.removeprefix("opgen_") for name in layers[heading]]
            chips[heading] = chips_of(names, width - 2 * EDGE)
        height = 32 + (CHIP + 5) * max(len(chips[heading]) for heading in row)
        for at, heading in enumerate(row):
            boxes[heading] = (10 + at * (width + 20), y, width, height)
        y += height + GAP
    picture = Picture(WIDE, y + 4)
    for heading, (x, top, width, height) in boxes.items():
        draw_layer(picture, x, top, width, height, heading, chips[heading])
        for other in next_below(below, heading):
            left, lower, wide, _ = boxes[other]
            middle = x + width / 2 if width < wide else left + wide / 2
            draw_arrow(picture, middle, top + height, middle, lower)
    picture.text(10, y - 10, "An arrow: depends on. Crates are named without opgen_; within a layer, a crate depends on crates before it.")
    return picture
