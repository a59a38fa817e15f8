"""A low pass designed in numpy, generated, run over samples, and plotted beside the ideal one. Copy it and change it.

    python3 filter.py [FOLDER]

It stores softer.vhd, softer.rpt, softer.csv and softer.svg in FOLDER, by default the current one. Without numpy the same is computed
in plain Python. The picture is drawn by tools/pictures, which needs Python 3.11.
"""
import csv
import math
import subprocess
import sys
from pathlib import Path

# The module stands beside this folder in a checkout and in an installation; a copy elsewhere takes the one that is installed.
TOP = Path(__file__).resolve().parent.parent
sys.path.append(str(TOP / "python"))

import opgen

TAPS, SAMPLES, POWER = 31, 200, 15


def designed():
    """The taps of a windowed sinc that passes a fifth of the band, and a sample of two tones, the second of which it stops."""
    try:
        import numpy
    except ImportError:
        middle = TAPS // 2
        taps = [(math.sin(0.2 * math.pi * n) / (0.2 * math.pi * n) if n else 1) * (0.54 + 0.46 * math.cos(math.pi * n / middle))
                for n in range(-middle, middle + 1)]
        tones = [0.4 * math.sin(2 * math.pi * 0.02 * t) + 0.4 * math.sin(2 * math.pi * 0.35 * t) for t in range(SAMPLES)]
        return [tap / sum(taps) for tap in taps], [round(tone * 2**11) / 2**11 for tone in tones]
    n, t = numpy.arange(TAPS) - TAPS // 2, numpy.arange(SAMPLES)
    taps = numpy.sinc(0.2 * n) * numpy.hamming(TAPS)
    tones = 0.4 * numpy.sin(2 * numpy.pi * 0.02 * t) + 0.4 * numpy.sin(2 * numpy.pi * 0.35 * t)
    return taps / taps.sum(), numpy.round(tones * 2**11) / 2**11


def filtered(taps, x):
    """The ideal filter, in floating point."""
    return [sum(float(tap) * float(x[t - at]) for at, tap in enumerate(taps) if at <= t) for t in range(len(x))]


def main():
    folder = Path(sys.argv[1] if len(sys.argv) > 1 else ".")
    taps, x = designed()
    softer = opgen.Operator({
        "version": 3, "name": "softer", "kind": "fir", "exact": False, "target": "plain", "period": 4000,
        "signed": True, "width": 12, "lsb": -11, "out_lsb": -11, **opgen.rounded(taps, POWER),
    })
    softer.generate(folder)
    y, ideal, unit = softer.run(x), filtered(taps, x), float(softer.outputs[0].unit)
    worst = max(abs(found - wanted) for found, wanted in zip(y, ideal)) / unit
    print(f"{softer.name}: latency {softer.latency}; {len(y)} outputs, at most {worst:.2f} units in the last place from the ideal filter")
    table = folder / "softer.csv"
    with table.open("w", newline="") as file:
        csv.writer(file).writerows([("samples", "ideal", "output"), *zip(map(float, x), ideal, map(float, y))])
    return subprocess.run([TOP / "tools/pictures", "lines", table, "-o", folder / "softer.svg"]).returncode


if __name__ == "__main__":
    sys.exit(main())
