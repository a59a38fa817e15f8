"""The frequency response of a filter: its gain in dB over the frequency."""
import cmath
import math
from fractions import Fraction
from typing import Any

from opgenlib.operators import memory_of
from opgenlib.svg import Picture

WIDTH, HEIGHT, LEFT, RIGHT, TOP, BOTTOM = 760, 320, 60, 16, 34, 56
POINTS = 512
# The least gain that is drawn, in dB below the greatest, and the step of the lines between.
DEPTH, STEP = 120, 20


def factors_of(spec: dict[str, Any]) -> list[Fraction]:
    """What each of the last inputs is multiplied by, as values: the exact coefficients of the formula."""
    over = spec.get("denominator", 1)
    if spec["kind"] == "tfir":
        return [Fraction(tap) for tap in spec["taps"]]
    return [Fraction(one) if isinstance(one, str) else Fraction(one, over) for one in spec["coefficients"]]


def is_filter(spec: dict[str, Any]) -> bool:
    """Whether outputs depend on earlier inputs."""
    return memory_of(spec) > 1


def gain_at(factors: list[Fraction], frequency: float) -> float:
    """The gain in dB at a part of the sample rate, minus infinity where nothing comes through."""
    turn = cmath.exp(-2j * math.pi * frequency)
    size = abs(sum(float(factor) * turn**at for at, factor in enumerate(factors)))
    # what is left of sums that cancel each other is of the size of their rounding
    least = 1e-14 * sum(abs(float(factor)) for factor in factors)
    return 20 * math.log10(size) if size > least else -math.inf


def gain_text(gain: float) -> str:
    return f"{gain:.2f}" if math.isfinite(gain) else "nothing"


def response(spec: dict[str, Any]) -> Picture:
    """The gain from frequency 0 to half the sample rate."""
    factors = factors_of(spec)
    gains = [gain_at(factors, at / (2 * POINTS)) for at in range(POINTS + 1)]
    top = STEP * math.ceil(max(gains) / STEP) if math.isfinite(max(gains)) else 0
    wide, high = WIDTH - LEFT - RIGHT, HEIGHT - TOP - BOTTOM
    picture = Picture(WIDTH, HEIGHT)
    picture.text(8, 16, f"Gain in dB: at frequency 0 {gain_text(gains[0])}, at half the sample rate {gain_text(gains[-1])}, at most {gain_text(max(gains))}")
    for gain in range(top - DEPTH, top + 1, STEP):
        y = TOP + (top - gain) * high / DEPTH
        picture.line(LEFT, y, WIDTH - RIGHT, y, "gray" if gain == 0 else "#dddddd")
        picture.text(LEFT - 8, y + 4, str(gain), "end")
    for tenth in range(6):
        x = LEFT + wide * tenth / 5
        picture.line(x, TOP, x, TOP + high, "#dddddd")
        picture.text(x, TOP + high + 18, f"{tenth / 10:g}", "middle")
    picture.text(LEFT + wide / 2, HEIGHT - 14, "frequency as a part of the sample rate", "middle")
    places = [(LEFT + wide * at / POINTS, TOP + min(top - gain, DEPTH) * high / DEPTH) for at, gain in enumerate(gains)]
    picture.path(places, stroke="steelblue")
    return picture
