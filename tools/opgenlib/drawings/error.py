"""The error of each output of a run: what it lies above the exact value, in units of its last place."""
from collections.abc import Iterator
from dataclasses import dataclass
from fractions import Fraction

from opgenlib.drawings.example import Example, NotDrawn
from opgenlib.exact import error_of, exact_of, exact_values, wraps
from opgenlib.operators import Row
from opgenlib.rows import BadRow, read_rows, unit_count
from opgenlib.svg import LETTER, Picture
from opgenlib.words import reference

MOST_BARS = 340
WIDTH, HEIGHT, LEFT, RIGHT, TOP = 760, 356, 52, 12, 34


def checked_rows(example: Example, found: Iterator[Row]) -> Iterator[Row]:
    """The rows of a run, which have to be of the operator."""
    try:
        yield from found
    except BadRow as fault:
        raise NotDrawn(f"{example.beside('.out')}, {fault}: these are no rows of {example.path.name}") from None


def counted_rows(example: Example) -> Iterator[Row]:
    """The inputs and the outputs of each cycle that counts: with a clock enable, those in which it is 1."""
    facts, text = example.report, example.rows()
    has_enable = len(text.partition(" :")[0].split()) == len(facts.inputs) + 1
    ins = [1] * has_enable + [port.width for port in facts.inputs]
    for entered, left in checked_rows(example, read_rows(text, ins, [port.width for port in facts.outputs])):
        if left is None:
            raise NotDrawn(f"{example.beside('.out')} has rows without outputs: store it by `opgen simulate`")
        if not has_enable or entered[0]:
            yield tuple(map(unit_count, entered[has_enable:], facts.inputs)), tuple(map(unit_count, left, facts.outputs))


@dataclass(frozen=True)
class Found:
    """The greatest error of each cycle of which something is claimed and that does not saturate, and how many cycles do."""

    errors: list[Fraction]
    saturated: int

    @property
    def count_text(self) -> str:
        """Over how many rows the errors are, where some saturate."""
        return f"{len(self.errors)} of {len(self.errors) + self.saturated} rows, those that do not saturate" if self.saturated else ""


def errors_of(example: Example) -> Iterator[tuple[list[Fraction], bool]]:
    """For each cycle from the latency on the errors of its outputs, none where nothing is claimed of them, and whether it saturates."""
    rows, latency = list(counted_rows(example)), example.report.latency
    exact, unlimited = exact_values(example.spec, example.report.outputs), exact_of(example.spec)
    inputs = [entered for entered, _ in rows]
    for cycle in range(latency, len(rows)):
        wanted = exact(inputs, cycle - latency)
        saturates = "out_width" in example.spec and not wraps(example.spec) and wanted != unlimited(inputs, cycle - latency)
        yield [] if wanted is None else [error_of(example.spec, *pair) for pair in zip(rows[cycle][1], wanted)], saturates


def measured(example: Example) -> Found:
    """The errors of a run, each of which has to be below one unit."""
    rows = [(max(errors, key=abs), saturates) for errors, saturates in errors_of(example) if errors]
    if not rows:
        raise NotDrawn(f"{example.beside('.out')} has no row from the latency on")
    worst = next((at for at, (error, _) in enumerate(rows) if abs(error) >= 1), None)
    if worst is not None:
        raise NotDrawn(f"output {worst} is off by {float(rows[worst][0]):.3g} units: are these rows of this specification?")
    return Found([error for error, saturates in rows if not saturates], sum(saturates for _, saturates in rows))


def found_errors(example: Example) -> list[Fraction]:
    """The greatest error of each cycle of which something is claimed and that does not saturate."""
    return measured(example).errors


def ulp_text(value: Fraction) -> str:
    """An error below one unit with three places, or as many as tell it from one unit."""
    return next(text for places in range(3, 40) if abs(Fraction(text := f"{float(value):.{places}f}")) < 1)


def spans(found: list[Fraction]) -> list[tuple[float, float]]:
    """For each bar the least and the greatest error, with 0: each error of a short run, and groups of a long one."""
    each = -(-len(found) // MOST_BARS)
    groups = (found[at : at + each] for at in range(0, len(found), each))
    return [(float(min(0, *group)), float(max(0, *group))) for group in groups]


EXACT = {
    "scale": "x times the constant",
    "fir": "the sum over the taps",
    "tfir": "the sum over the taps",
    "multiply": "a times b",
    "divide": "a over b",
    "root": "the square root of x",
    "poly": "the polynomial (not of the function that it approximates)",
    "mcm": "x times each constant",
    "constdiv": "x over the divisor",
    "sop": "the sum of the products",
}


def exact_text(spec: dict) -> str:
    """What the error is taken from."""
    return f"{reference(spec)} of {EXACT[spec['kind']]}"


def draw_axis(picture: Picture, middle: float, unit: float) -> None:
    """The bound above and below, and the lines between."""
    for at, name in ((1, "1 ulp"), (0.5, "0.5"), (0, "0"), (-0.5, "-0.5"), (-1, "-1 ulp")):
        y = middle - at * unit
        (picture.line if abs(at) < 1 else picture.dashed)(LEFT, y, WIDTH - RIGHT, y, "gray" if at in (0, 1, -1) else "#dddddd")
        picture.text(LEFT - 6, y + 4, name, "end")


def error(example: Example, has_command: bool = True) -> Picture:
    """The errors of a run, below them the command that stored its rows, if they are there to stay."""
    name, run = example.spec["name"], measured(example)
    found = run.errors
    if not found:
        raise NotDrawn("every row saturates, so that there is no error to draw")
    bars, each = spans(found), -(-len(found) // MOST_BARS)
    command = f"opgen simulate {name}.vhd {name}.in {name}.out"
    picture = Picture(max(WIDTH, LETTER * len(command) + 16), HEIGHT)
    what = "Error of each output" if each == 1 else f"Least and greatest error of each {each} outputs"
    rows = f", over {run.count_text}" if run.saturated else ""
    picture.text(8, 16, f"{what}, from {exact_text(example.spec)}{rows}")
    step, unit = (WIDTH - LEFT - RIGHT) / len(bars), (HEIGHT - TOP - 72) / 2
    middle = TOP + unit
    draw_axis(picture, middle, unit)
    for place, (least, greatest) in enumerate(bars):
        high = max((greatest - least) * unit, 0.5)
        picture.rect(LEFT + place * step, middle - greatest * unit, max(step * 0.7, 1), high, "steelblue")
    picture.text((LEFT + WIDTH - RIGHT) / 2, HEIGHT - 50, f"cycle, from the latency on ({len(found)} cycles)", "middle")
    weight = example.report.outputs[0].lsb
    ends = f"From {ulp_text(min(found))} to {ulp_text(max(found))} ulp; an ulp is 2^{weight}, the output's last place"
    picture.text(8, HEIGHT - 28, f"{ends}. Dashed: the proved bound.")
    if has_command:
        picture.text(8, HEIGHT - 8, command)
    return picture
