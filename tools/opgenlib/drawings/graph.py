"""The adders that make several constants, or the taps of a transposed filter: as an SVG, or as Graphviz DOT.

In the SVG every number runs along a row of its own to the columns that read it, so that its line to each reader ends in a
piece that no other line has: there its sign and shift are written.
"""
from collections.abc import Iterator
from dataclasses import dataclass, field

from opgenlib.drawings.adders import Sum, sums_of
from opgenlib.drawings.example import Example, NotDrawn, cycles
from opgenlib.specification import shift_of
from opgenlib.svg import LETTER, Picture


# The most numbers of a graph that its caption names.
MOST_NAMED = 16


@dataclass(frozen=True)
class Adders:
    """What is drawn: how the numbers are made, and the constants or taps that read them."""

    caption: str
    made: dict[int, Sum]
    numbers: list[int]
    is_filter: bool


def cut_text(spec: dict) -> str:
    """How a transposed filter comes to fewer places than its sum."""
    low = -(shift_of(spec) or 0)
    return f"; in y half a unit is added, and {low} low bit{' is' if low == 1 else 's are'} left out" if low else ""


def adders_of(example: Example) -> Adders:
    facts, is_filter = example.report, example.spec["kind"] == "tfir"
    numbers = example.spec["taps" if is_filter else "constants"]
    if not facts.graph and any(abs(number) & abs(number) - 1 for number in numbers):
        raise NotDrawn(f"the report {example.beside('.rpt')} has no graph")
    made = sums_of(example.whole_design, list(facts.graph))
    if missing := [number for number in facts.graph if number not in made]:
        raise NotDrawn(f"{example.beside('.vhd')} does not make {missing[0]} of the report's graph: run `opgen generate` again")
    words = f"graph {graph_text(facts.graph)}{cut_text(example.spec)}"
    return Adders(f"{example.caption}: {words}", made, numbers, is_filter)


def graph_text(members: tuple[int, ...]) -> str:
    """The numbers of a graph, where they are few, and how many adders make them."""
    adders = f"{len(members)} adder{'' if len(members) == 1 else 's'}"
    if len(members) > MOST_NAMED:
        return f"of {adders}"
    return f"{' '.join(map(str, members)) or 'of no adder'}, {adders}"


def times(number: int) -> str:
    return "x" if number == 1 else f"{number} x"


def label_of(is_minus: bool, shift: int) -> str:
    """The sign and, where there is one, the shift of what goes into a sum."""
    return ("-" if is_minus else "+") + (f" << {shift}" if shift else "")


def odd_and_shift(number: int) -> tuple[int, int]:
    """The odd part of a number without its sign, and how far it is shifted."""
    shift = (number & -number).bit_length() - 1 if number else 0
    return abs(number) >> shift, shift


# As Graphviz DOT.


def edge(source: str, to: str, is_minus: bool, shift: int) -> str:
    """A line of DOT: an arrow with its sign, and its shift where it has one."""
    return f'  {source} -> {to} [label="{label_of(is_minus, shift)}"];'


def adder_lines(made: dict[int, Sum]) -> Iterator[str]:
    """The adders, and what they read."""
    for f, step in made.items():
        right = f"\\n>> {step.right}" if step.right else ""
        yield f'  n{f} [label="{times(f)}{right}"];'
        yield edge(f"n{step.u}", f"n{f}", step.u_minus, step.u_shift)
        yield edge(f"n{step.v}", f"n{f}", step.v_minus, 0)


def output_lines(constants: list[int]) -> Iterator[str]:
    """The outputs, and the numbers that they are, with sign and shift."""
    for at, constant in enumerate(constants):
        odd, shift = odd_and_shift(constant)
        yield f'  y{at} [label="y{at} = {constant} x", shape=box, style=solid];'
        if odd:
            yield edge(f"n{odd}", f"y{at}", constant < 0, shift).replace(' [label="+"]', "").replace('"+ <<', '"<<')


def tap_lines(taps: list[int]) -> Iterator[str]:
    """The sums of a transposed filter in one column, from the last tap that is not 0: each with its product and the sum before,
    as many cycles later as there are taps between."""
    places = [at for at, tap in enumerate(taps) if tap][::-1]
    yield f"  {{rank=same; {' '.join(f'z{at};' for at in places)}}}" if places else "  z0;"
    for at in places:
        odd, shift = odd_and_shift(taps[at])
        yield f'  z{at} [label="tap {at}: {taps[at]}", shape=box, fillcolor="#f4ecdd"];'
        yield edge(f"n{odd}", f"z{at}", taps[at] < 0, shift)
    for later, earlier in zip(places, places[1:]):
        yield f'  z{later} -> z{earlier} [label="  {cycles(later - earlier)}", style=dashed];'
    if places:
        yield '  y [label="y", shape=box, style=solid];'
        yield f"  z{places[-1]} -> y" + (f' [label="  {cycles(places[-1])}", style=dashed];' if places[-1] else ";")
    else:
        yield '  z0 [label="y = 0", shape=box, style=solid];'


def dot_of(adders: Adders, name: str) -> str:
    lines = [
        f'digraph "{name}" {{',
        '  rankdir=LR; fontname="sans-serif"; labelloc=b;',
        '  node [fontname="sans-serif", shape=ellipse, style=filled, fillcolor="#dde8f4"];',
        '  edge [fontname="sans-serif"];',
        f'  label="{adders.caption}";',
        '  n1 [label="x", fillcolor=white];',
        *adder_lines(adders.made),
        *(tap_lines(adders.numbers) if adders.is_filter else output_lines(adders.numbers)),
        "}",
    ]
    return "\n".join(lines) + "\n"


# As SVG.

ROW, TOP, NODE_HIGH, TRACK, LAST_PIECE = 56, 30, 26, 10, 58


@dataclass(frozen=True)
class Reader:
    """A box that reads numbers: its column, the middle of its height, and of each number that it reads the label and the place."""

    column: int
    y: float
    words: str
    reads: list[tuple[int, str, float]]
    is_sum: bool


@dataclass
class Layout:
    """Where all is: the readers, the row of each number and its column, and the tracks between columns."""

    readers: list[Reader] = field(default_factory=list)
    rows: dict[int, float] = field(default_factory=dict)
    columns: dict[int, int] = field(default_factory=dict)
    last: int = 1

    def tracks(self, column: int) -> list[int]:
        """The numbers that are read in a column, those from the rows above first."""
        read = {number for reader in self.readers if reader.column == column for number, _, _ in reader.reads}
        return sorted(read, key=self.rows.__getitem__)

    def widths(self) -> list[float]:
        """How wide the boxes of each column are."""
        words = {column: ["x"] for column in range(self.last + 1)}
        for reader in self.readers:
            words[reader.column].append(reader.words)
        return [max(map(len, words[column])) * LETTER + 24 for column in range(self.last + 1)]

    def lefts(self) -> list[float]:
        """Where the boxes of each column begin, behind the tracks of what they read."""
        left, found = 8.0, []
        for column, width in enumerate(self.widths()):
            left += TRACK * (len(self.tracks(column)) + 1) + LAST_PIECE if column else 0
            found.append(left)
            left += width
        return found

    def track_x(self, column: int, number: int) -> float:
        tracks = self.tracks(column)
        return self.lefts()[column] - LAST_PIECE - TRACK * (len(tracks) - tracks.index(number) - 0.5)


def depths_of(made: dict[int, Sum]) -> dict[int, int]:
    """How many adders, one behind the other, each number takes."""
    depths = {1: 0}
    for number, step in made.items():
        depths[number] = 1 + max(depths[step.u], depths[step.v])
    return depths


def placed(adders: Adders) -> Layout:
    """The adders one below the other, in columns by their depth; what reads them for an output in the last column."""
    layout, depths = Layout(), depths_of(adders.made)
    order = sorted(depths, key=lambda number: (depths[number], number))
    layout.columns, layout.last = depths, 1 + max(depths.values())
    layout.rows = {number: TOP + at * ROW for at, number in enumerate(order)}
    for number, step in adders.made.items():
        y = layout.rows[number]
        reads = [(step.u, label_of(step.u_minus, step.u_shift), y - 9), (step.v, label_of(step.v_minus, 0), y + 9)]
        reads.sort(key=lambda read: layout.rows[read[0]])
        reads = [(source, label, y + offset) for (source, label, _), offset in zip(reads, (-9, 9))]
        right = f" (>> {step.right})" if step.right else ""
        layout.readers.append(Reader(depths[number], y, times(number) + right, reads, True))
    layout.readers += readers_of(adders, layout.last)
    return layout


def readers_of(adders: Adders, column: int) -> Iterator[Reader]:
    """The outputs, or the taps from the last that is not 0."""
    places = [at for at, number in enumerate(adders.numbers) if number or not adders.is_filter]
    for row, at in enumerate(places[::-1] if adders.is_filter else places):
        number = adders.numbers[at]
        odd, shift = odd_and_shift(number)
        # Half a row below the rows of numbers, so that no line lies on another.
        y = TOP + (row + 0.5) * ROW
        label = label_of(number < 0, shift)
        label = label if adders.is_filter else label.removeprefix("+").strip()
        words = f"tap {at}: {number} x" if adders.is_filter else f"y{at} = {number} x" if number else f"y{at} = 0"
        yield Reader(column, y, words, [(odd, label, y)] if odd else [], False)


def draw_lines(picture: Picture, layout: Layout) -> None:
    """Each number's row, its tracks and the pieces to its readers."""
    lefts, widths = layout.lefts(), layout.widths()
    for number, y in layout.rows.items():
        right = lefts[layout.columns[number]] + widths[layout.columns[number]]
        ends = [layout.track_x(column, number) for column in range(layout.last + 1) if number in layout.tracks(column)]
        if ends:
            picture.line(right, y, max(ends), y, "black")
    for reader in layout.readers:
        for number, label, y in reader.reads:
            x, row = layout.track_x(reader.column, number), layout.rows[number]
            picture.line(x, row, x, y, "black")
            picture.circle(x, row, 2.5, "black")
            picture.arrow([(x, y), (lefts[reader.column], y)])
            below = len(reader.reads) > 1 and y > reader.y
            picture.text(lefts[reader.column] - LAST_PIECE + 8, y + (13 if below else -5), label)


def draw_boxes(picture: Picture, layout: Layout) -> None:
    lefts, widths = layout.lefts(), layout.widths()
    picture.box(lefts[0], TOP - NODE_HIGH / 2, widths[0], NODE_HIGH, "white")
    picture.text(lefts[0] + widths[0] / 2, TOP + 4, "x", "middle")
    for reader in layout.readers:
        high = NODE_HIGH + 8 if reader.is_sum else NODE_HIGH
        left, wide = lefts[reader.column], widths[reader.column]
        picture.box(left, reader.y - high / 2, wide, high, "#dde8f4" if reader.is_sum else "#f4ecdd")
        picture.text(left + wide / 2, reader.y + 4, reader.words, "middle")


def draw_delays(picture: Picture, layout: Layout, taps: list[int]) -> None:
    """Between taps the registers that delay the sum, and the output below the first."""
    boxes = [reader for reader in layout.readers if not reader.is_sum]
    places = [at for at, tap in enumerate(taps) if tap][::-1]
    middle = layout.lefts()[-1] + layout.widths()[-1] / 2
    for reader, at, later in zip(boxes, places, [*places[1:], 0]):
        bottom, end = reader.y + NODE_HIGH / 2, reader.y + ROW - NODE_HIGH / 2
        if at == later:
            picture.arrow([(middle, bottom), (middle, end)])
            continue
        picture.rect(middle - 30, bottom + 3, 60, 15, "#e4e4e4", ' stroke="black" stroke-dasharray="3 2"')
        picture.text(middle, bottom + 14.5, cycles(at - later), "middle", 11)
        picture.line(middle, bottom, middle, bottom + 3, "black")
        picture.arrow([(middle, bottom + 18), (middle, end)])
    picture.text(middle, boxes[-1].y + ROW - NODE_HIGH / 2 + 14, "y", "middle")


def drawn_whole(adders: Adders) -> Picture:
    """Every adder, and every output or tap that is not 0."""
    layout = placed(adders)
    rows = [*layout.rows.values(), *(reader.y + (ROW if adders.is_filter else 0) for reader in layout.readers if not reader.is_sum)]
    right = layout.lefts()[-1] + layout.widths()[-1]
    picture = Picture(max(right + 16, LETTER * len(adders.caption) + 16), max(rows) + ROW)
    draw_lines(picture, layout)
    draw_boxes(picture, layout)
    if adders.is_filter and any(adders.numbers):
        draw_delays(picture, layout, adders.numbers)
    if adders.is_filter and not any(adders.numbers):
        picture.text(right + 24, TOP + 4, "y = 0")
    picture.text(8, max(rows) + ROW - 10, adders.caption)
    return picture


# Summed up, where a picture of all adders and taps would be too large.

# The most adders and taps together that are drawn one by one; the height of a line of words, and of the boxes.
MOST_BOXES, LINE, BOX_HIGH = 80, 17, 70


def counted(count: int, word: str) -> str:
    return f"{count} {word}{'' if count == 1 else 's'}"


def sums_by_depth(made: dict[int, Sum]) -> Iterator[list[str]]:
    """What is made at each depth, in words."""
    numbers: dict[int, list[int]] = {}
    for number, depth in depths_of(made).items():
        numbers.setdefault(depth, []).append(number)
    for depth in sorted(numbers.keys() - {0}):
        found = numbers[depth]
        yield [f"depth {depth}", counted(len(found), "adder"), f"{min(found)} x to {max(found)} x" if len(found) > 1 else times(found[0])]


def readers_in_words(adders: Adders) -> list[str]:
    """What reads the numbers, in words."""
    different = len({odd_and_shift(number)[0] for number in adders.numbers if number})
    lines = [f"{len(adders.numbers)} {'taps' if adders.is_filter else 'constants'}", counted(different, "odd part")]
    if adders.is_filter:
        zeros = adders.numbers.count(0)
        last = max(at for at, number in enumerate(adders.numbers) if number)
        lines[0] += f", {zeros} of them 0" if zeros else ""
        lines.append(f"{len(adders.numbers) - zeros} products, {counted(last, 'delay')}")
    return lines


def summed_up(adders: Adders) -> Picture:
    """A box for the adders of each depth, and one for all that reads them."""
    boxes = [(words, "#dde8f4") for words in sums_by_depth(adders.made)] + [(readers_in_words(adders), "#f4ecdd")]
    widths = [LETTER * max(map(len, words)) + 24 for words, _ in boxes]
    middle, left = TOP + BOX_HIGH / 2 - 10, 8.0
    wide = left + 34 + sum(width + 28 for width in widths) + 60
    picture = Picture(max(wide, LETTER * len(adders.caption) + 16), TOP + BOX_HIGH + 40)
    picture.box(left, middle - NODE_HIGH / 2, 30, NODE_HIGH, "white")
    picture.text(left + 15, middle + 4, "x", "middle")
    left += 30
    for (words, fill), width in zip(boxes, widths):
        picture.arrow([(left, middle), (left + 28, middle)])
        left += 28
        picture.box(left, middle - BOX_HIGH / 2, width, BOX_HIGH, fill)
        for at, line in enumerate(words):
            picture.text(left + width / 2, middle + 4 + LINE * (at - (len(words) - 1) / 2), line, "middle")
        left += width
    picture.arrow([(left, middle), (left + 28, middle)])
    picture.text(left + 34, middle + 4, "y" if adders.is_filter else "y0 ..")
    picture.text(8, TOP + BOX_HIGH + 22, adders.caption)
    return picture


def is_large(adders: Adders) -> bool:
    return len(adders.made) + len(adders.numbers) - adders.numbers.count(0) > MOST_BOXES


def words_of(adders: Adders) -> str:
    """What the picture shows, in words."""
    if is_large(adders):
        return "The adders, counted by how many stand one behind the other, and what reads them."
    delays = " A dashed box holds the sum for so many cycles." if adders.is_filter else ""
    return f"The adders: an arrow has the sign and the shift with which a number goes into a sum.{delays}"


def picture_of(adders: Adders) -> Picture:
    return summed_up(adders) if is_large(adders) else drawn_whole(adders)


def graph(example: Example) -> Picture:
    return picture_of(adders_of(example))
