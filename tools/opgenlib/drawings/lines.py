"""The columns of a CSV as lines over its rows, as numbers that are to be seen beside each other."""
from __future__ import annotations

import csv
from pathlib import Path

from opgenlib.drawings.example import NotDrawn
from opgenlib.svg import LETTER, Picture

WIDTH, HEIGHT, LEFT, RIGHT, TOP, BOTTOM = 760, 320, 64, 12, 40, 32
COLORS = ("#bbbbbb", "#c08030", "steelblue", "#7f9f3f", "#a05080")


def columns_of(path: Path) -> dict[str, list[float]]:
    """The columns of a CSV by the names in its first line."""
    with path.open(newline="") as file:
        names, *rows = csv.reader(file)
    try:
        columns = {name: [float(row[at]) for row in rows] for at, name in enumerate(names)}
    except (ValueError, IndexError):
        raise NotDrawn(f"{path} has a row that is not a number for each of {', '.join(names)}") from None
    if len(rows) < 2 or not 1 <= len(columns) <= len(COLORS):
        raise NotDrawn(f"{path} has {len(rows)} rows of {len(columns)} columns; drawn are two or more of 1 to {len(COLORS)}")
    return columns


def draw_scale(picture: Picture, least: float, greatest: float, unit: float) -> None:
    """The least and the greatest number, and 0 where it is between."""
    for number in {least, greatest} | ({0.0} if least < 0 < greatest else set()):
        y = TOP + (greatest - number) * unit
        picture.line(LEFT, y, WIDTH - RIGHT, y, "#dddddd")
        picture.text(LEFT - 6, y + 4, f"{number:.4g}", "end")


def lines(path: Path) -> Picture:
    """The lines of a CSV; the last column has a point for each row too."""
    columns = columns_of(path)
    count = len(next(iter(columns.values())))
    least, greatest = min(map(min, columns.values())), max(map(max, columns.values()))
    unit = (HEIGHT - TOP - BOTTOM) / ((greatest - least) or 1)
    step = (WIDTH - LEFT - RIGHT) / (count - 1)
    picture = Picture(WIDTH, HEIGHT)
    draw_scale(picture, least, greatest, unit)
    right = LEFT
    for (name, numbers), color in zip(columns.items(), COLORS):
        points = [(LEFT + at * step, TOP + (greatest - number) * unit) for at, number in enumerate(numbers)]
        picture.path(points, stroke=color)
        if name == list(columns)[-1]:
            for x, y in points:
                picture.circle(x, y, 1.6, color, color)
        picture.rect(right, 12, 10, 10, color)
        picture.text(right + 14, 21, name)
        right += 34 + LETTER * len(name)
    picture.text(LEFT, HEIGHT - 10, "row 0")
    picture.text(WIDTH - RIGHT, HEIGHT - 10, f"row {count - 1}", "end")
    return picture
