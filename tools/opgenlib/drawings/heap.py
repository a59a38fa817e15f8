"""The bit heap of a product: its bits by columns, and the two rows that compression leaves; and that of a sum of products."""
from collections.abc import Iterator

from opgenlib import vhdl
from opgenlib.drawings.example import Example, NotDrawn
from opgenlib.drawings.sums import sum_heap
from opgenlib.svg import LETTER, Picture

STEP = 26


def products(design: vhdl.Design) -> Iterator[tuple[int, int]]:
    """The places of the bits `a_i and b_j` that the design has."""
    for driver in design.drivers:
        inner = driver.exprs[0][1] if driver.exprs[0][0] == "not" else driver.exprs[0]
        match inner:
            case ("chain", "and", [("part", "s0", i, _), ("part", "s1", j, _)]):
                yield i, j


def word_bits(design: vhdl.Design, name: str) -> Iterator[str]:
    """The bits of a word that a signal puts together, the highest first: `0`, `1` or `*`."""
    widths = {signal.name: signal.width for signal in design.signals}
    expr = next(driver.exprs[0] for driver in design.drivers if driver.to == name.split("_")[0])
    for piece in expr[2] if expr[0] == "chain" else [expr]:
        match piece:
            case ("bits", bits):
                yield from bits
            case ("part", _, high, low):
                yield from "*" * (high - low + 1)
            case ("name", inner):
                yield from "*" * widths[inner]


def heap_constant(spec: dict, width: int) -> int:
    """The constant of the heap of a product."""
    m, n, left_out = spec["width_a"], spec["width_b"], max(spec["out_lsb"] - spec["lsb_a"] - spec["lsb_b"], 0)
    signs = (1 << (m - 1)) + (1 << (n - 1)) - (1 << (m + n - 1)) if spec["signed"] else 0
    return (signs + (1 << left_out >> 1)) % (1 << width)


def columns_before(spec: dict, made: set[tuple[int, int]], width: int) -> list[list[str]]:
    """What each column of the heap has: `*` a bit, `x` one that is left out, `1` of the constant."""
    columns = [[] for _ in range(width)]
    pairs = ((i, j) for i in range(spec["width_a"]) for j in range(spec["width_b"]) if i + j < width)
    for i, j in pairs:
        columns[i + j].append("*" if (i, j) in made else "x")
    for column, bits in enumerate(columns):
        bits.extend("1" * (heap_constant(spec, width) >> column & 1))
    return columns


def draw_columns(picture: Picture, columns: list, top: int) -> None:
    """Draws the bits of each column, the highest column on the left."""
    for column, bits in enumerate(columns):
        for row, kind in enumerate(bits):
            x, y = 100 + (len(columns) - 1 - column) * STEP, top + row * STEP
            if kind in "01":
                picture.text(x, y + 4, kind, "middle")
            else:
                picture.circle(x, y, 6, "steelblue" if kind == "*" else "white")


def draw_heads(picture: Picture, count: int, lowest: int) -> None:
    """The numbers of the columns and the exponents of two that they weigh, the highest on the left."""
    picture.text(8, 20, "column")
    picture.text(8, 40, "weight 2^")
    for column in range(count):
        x = 100 + (count - 1 - column) * STEP
        picture.text(x, 20, str(column), "middle", 11)
        picture.text(x, 40, str(lowest + column), "middle", 11)


def heap(example: Example) -> Picture:
    spec, design = example.spec, example.whole_design
    if spec["kind"] == "sop":
        return sum_heap(example)
    rows = next((driver.exprs[0][2] for driver in design.drivers if driver.exprs[0][:2] == ("chain", "+")), None)
    if rows is None:
        raise NotDrawn("this heap needs no sum")
    after = [list(reversed(column)) for column in zip(*(word_bits(design, row[1]) for row in reversed(rows)))][::-1]
    made = set(products(design))
    before = columns_before(spec, made, len(after))
    first = 62
    second = first + (max(map(len, before)) + 1) * STEP
    left_out = "; white: left out" if any("x" in bits for bits in before) else ""
    caption = f"{example.caption}: {len(made)} bits a_i b_j and a constant{left_out}"
    picture = Picture(max(len(after) * STEP + 120, LETTER * len(caption) + 16), second + 3 * STEP)
    draw_heads(picture, len(after), spec["lsb_a"] + spec["lsb_b"])
    for words, columns, top in (("before", before, first), ("after", after, second)):
        picture.text(8, top + 4, words)
        draw_columns(picture, columns, top)
    picture.text(8, second + 2 * STEP + 8, caption)
    return picture
