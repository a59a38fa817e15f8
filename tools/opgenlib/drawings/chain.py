"""The chain of tables of a division by a constant, one for each digit, with the numbers of a run's first row."""
from collections.abc import Iterator
from dataclasses import dataclass

from opgenlib import vhdl
from opgenlib.drawings.example import Example
from opgenlib.drawings.adders import read_place
from opgenlib.drawings.error import counted_rows
from opgenlib.drawings.schedule import Slot, checked_schedule
from opgenlib.svg import LETTER, Picture
from opgenlib.target import delays

MOST_LINKS, LINK, LINE_OF_LINKS = 6, 124, 150


@dataclass(frozen=True)
class Link:
    """A table of the chain: its name and cycle, the highest and the lowest bit of its digit, and its rows by address."""

    name: str
    cycle: int
    high: int
    low: int
    rows: dict[int, int]

    def bits_of(self, port: str) -> str:
        return f"{port}({self.high})" if self.high == self.low else f"{port}({self.high}..{self.low})"


def rows_of(table: vhdl.Driver) -> dict[int, int]:
    """The rows of a table by address, the last of which is that of `others`."""
    return {at if bits is None else int(bits, 2): int(word, 2) for at, (bits, word) in enumerate(table.rows)}


def links_of(design: vhdl.Design, slots: dict[str, Slot], width: int) -> Iterator[Link]:
    """The tables in their order; the digit is what stands last in the address."""
    words = {driver.to: driver.exprs[0] for driver in design.drivers}
    for driver in design.drivers:
        if driver.kind == "table":
            address = words[read_place(driver.exprs[0][1])[0]]
            digit = address[2][-1]
            high, low = digit[2:] if digit[0] == "part" else (width - 1, 0)
            yield Link(driver.to, slots[driver.to].cycle, high, low, rows_of(driver))


def first_input(example: Example) -> int | None:
    """The input of the first row, none where no run is there."""
    try:
        row = next(counted_rows(example), None)
    except FileNotFoundError:
        return None
    return row[0][0] if row else None


def steps_of(links: list[Link], rest_width: int, number: int) -> Iterator[tuple[int, int, int]]:
    """For each table the digit of a number, the digit of its quotient and the next remainder."""
    rest = 0
    for link in links:
        digit = number >> link.low & (1 << link.high - link.low + 1) - 1
        row = link.rows[rest << 6 - rest_width | digit]
        rest = row & (1 << rest_width) - 1
        yield digit, row >> rest_width, rest


def draw_link(picture: Picture, x: float, y: float, link: Link, words: tuple[str, str, str]) -> None:
    """A table, with its digit above, that of the quotient below and the next remainder on the right."""
    picture.box(x, y, 56, 40, "#dde8f4")
    picture.text(x + 28, y + 24, link.name, "middle")
    for top, port, number in ((y - 22, "x", words[0]), (y + 40, "q", words[1])):
        picture.line(x + 28, top, x + 28, top + 22, "black")
        picture.text(x + 28, top - 4 if port == "x" else top + 34, link.bits_of(port) + number, "middle", 11)
    picture.line(x + 56, y + 20, x + LINK, y + 20, "black")
    picture.text(x + 60, y + 15, words[2], size=11)


def chain(example: Example) -> Picture:
    spec, design = example.spec, example.design
    slots = checked_schedule(example, {}, delays(spec))
    links, rest_width = list(links_of(design, slots, spec["width"])), (spec["divisor"] - 1).bit_length()
    number = first_input(example)
    steps = list(steps_of(links, rest_width, number)) if number is not None else []
    lines = -(-len(links) // MOST_LINKS)
    caption = f"{example.caption}: {len(links)} tables of 6 address bits; remainders have {rest_width} bits"
    picture = Picture(max(min(len(links), MOST_LINKS) * LINK + 100, LETTER * len(caption) + 16), lines * LINE_OF_LINKS + 60)
    for at, link in enumerate(links):
        x, y = 60 + at % MOST_LINKS * LINK, 60 + at // MOST_LINKS * LINE_OF_LINKS
        words = tuple(f" = {number}" for number in steps[at][:2]) if steps else ("", "")
        draw_link(picture, x, y, link, (*words, f"r = {steps[at][2]}" if steps else "r"))
        if at % MOST_LINKS == 0:
            picture.line(x - 40, y + 20, x, y + 20, "black")
            picture.text(x - 44, y + 15, "0" if at == 0 else "r", size=11)
        if at and link.cycle != links[at - 1].cycle:
            picture.dashed(x - 12, y - 40, x - 12, y + 84)
            picture.text(x - 8, y - 44, f"cycle {link.cycle}", size=11)
    if number is not None:
        quotient, rest = divmod(number, spec["divisor"])
        picture.text(8, lines * LINE_OF_LINKS + 28, f"the first row: {number} = {quotient} * {spec['divisor']} + {rest}")
    picture.text(8, lines * LINE_OF_LINKS + 48, caption)
    return picture
