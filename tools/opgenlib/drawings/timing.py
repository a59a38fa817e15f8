"""When outputs come: the signals of a circuit over some cycles, each output in the color of the inputs that it belongs to."""
from opgenlib.drawings.example import cycles
from opgenlib.report import Report
from opgenlib.svg import LETTER, Picture

COLORS = ("#cfe0f3", "#d9ecc8", "#f6dfb8", "#e4d3ee", "#f3cfcf", "#cfecea")
WIDE, HIGH, ROW, TOP, GAP = 84, 24, 36, 34, 44
# Cycles in a row, and of a longer latency those at its begin and at its end.
MOST_CYCLES, AT_END = 9, 3
# The cycle that a clock enable leaves out.
PAUSE = 1


class Timing:
    """Which cycles are seen, and what each port has in them."""

    def __init__(self, facts: Report, has_enable: bool) -> None:
        self.facts, self.has_enable = facts, has_enable
        self.first = facts.latency + has_enable
        whole = self.first + AT_END
        self.shown = list(range(whole)) if whole <= MOST_CYCLES else [*range(AT_END), *range(self.first, whole)]
        self.margin = 20 + LETTER * max(3, *(len(port.name) for port in facts.ports))

    def is_on(self, cycle: int) -> bool:
        return not (self.has_enable and cycle == PAUSE)

    def inputs_before(self, cycle: int) -> int:
        """How many inputs were taken before a cycle."""
        return sum(map(self.is_on, range(cycle)))

    def output_of(self, cycle: int) -> int:
        """The number of the inputs to which the outputs of a cycle belong; below 0 none."""
        return self.inputs_before(cycle) - self.facts.latency

    def x(self, place: int) -> float:
        """Where the cycle at a place begins; a gap is before those at the end."""
        return self.margin + place * WIDE + (GAP if self.has_gap and place >= AT_END else 0)

    @property
    def has_gap(self) -> bool:
        return self.shown != list(range(len(self.shown)))

    @property
    def right(self) -> float:
        return self.x(len(self.shown) - 1) + WIDE


def draw_word(picture: Picture, x: float, y: float, words: str, fill: str) -> None:
    """A cell of a bus."""
    left, right, middle = x + 2, x + WIDE + 2, y + HIGH / 2
    picture.path([(left, middle), (left + 5, y), (right - 5, y), (right, middle), (right - 5, y + HIGH), (left + 5, y + HIGH), (left, middle)],
                 fill=fill)
    picture.text((left + right) / 2, middle + 4, words, "middle")


def draw_clock(picture: Picture, timing: Timing, y: float) -> None:
    for place in range(len(timing.shown)):
        x = timing.x(place)
        picture.path([(x, y + HIGH), (x, y), (x + WIDE / 2, y), (x + WIDE / 2, y + HIGH), (x + WIDE, y + HIGH)])


def draw_enable(picture: Picture, timing: Timing, y: float) -> None:
    for place, cycle in enumerate(timing.shown):
        x, level = timing.x(place), y if timing.is_on(cycle) else y + HIGH
        before = y if place == 0 or timing.is_on(timing.shown[place - 1]) else y + HIGH
        picture.path([(x, before), (x + 2, level), (x + WIDE, level)])


def draw_port(picture: Picture, timing: Timing, is_input: bool, y: float) -> None:
    for place, cycle in enumerate(timing.shown):
        number = timing.inputs_before(cycle) if is_input else timing.output_of(cycle)
        is_seen = timing.is_on(cycle) if is_input else number >= 0
        fill = COLORS[number % len(COLORS)] if is_seen else "#f0f0f0"
        words = f"#{number}" if is_seen else "any" if is_input else "initial"
        draw_word(picture, timing.x(place), y, words, fill)


def draw_latency(picture: Picture, timing: Timing, y: float) -> None:
    """From the first input to its output."""
    start = timing.margin + WIDE / 2
    end = timing.x(timing.shown.index(timing.first)) + WIDE / 2
    words = f"latency {cycles(timing.facts.latency)}" + (", counted where ce is 1" if timing.has_enable else "")
    if timing.facts.latency:
        picture.arrow([(start, y), (end, y)])
        picture.line(start, y - 6, start, y + 6, "black")
        picture.text(start + 6, y + 18, words)
    else:
        picture.text(start + 6, y + 18, "latency 0: outputs follow their inputs in the same cycle")


def timing(facts: Report, has_enable: bool) -> Picture:
    found = Timing(facts, has_enable)
    rows = 1 + has_enable + len(facts.ports)
    picture = Picture(max(found.right + 16, 420), TOP + rows * ROW + 44)
    for place, cycle in enumerate(found.shown):
        picture.line(found.x(place), TOP - 6, found.x(place), TOP + rows * ROW, "#dddddd")
        picture.text(found.x(place) + 4, TOP - 12, f"cycle {cycle}", size=11)
    if found.has_gap:
        picture.text(found.x(AT_END) - GAP / 2, TOP + ROW, "...", "middle")
    names = ["clk", *(["ce"] if has_enable else []), *(port.name for port in facts.ports)]
    for row, name in enumerate(names):
        picture.text(8, TOP + row * ROW + 16, name)
    draw_clock(picture, found, TOP)
    if has_enable:
        draw_enable(picture, found, TOP + ROW)
    for row, port in enumerate(facts.ports, 1 + has_enable):
        draw_port(picture, found, port.is_input, TOP + row * ROW)
    draw_latency(picture, found, TOP + rows * ROW + 8)
    return picture
