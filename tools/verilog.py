#!/usr/bin/env python3
"""Prints a design of the VHDL subset as Verilog, for tools that read no VHDL.

    tools/verilog.py FILE.vhd > FILE.v

Ports, signals and registers keep their names and initial values. A table is a `case` with a `default`.
"""
import sys

sys.dont_write_bytecode = True

import opgenlib.quiet  # before all that takes time to load
from pathlib import Path

from opgenlib import answer_help, running, vhdl
from opgenlib.verilog import text_of


def main() -> int:
    answer_help(__doc__)
    if len(sys.argv) != 2:
        sys.exit("usage: tools/verilog.py FILE.vhd")
    try:
        print(text_of(vhdl.design_of(Path(sys.argv[1]).read_text(encoding="latin-1"))), end="")
    except OSError as fault:
        return running.told("verilog", fault)
    except vhdl.NotRead as fault:
        sys.exit(f"verilog: {sys.argv[1]}: {fault}")
    return 0


if __name__ == "__main__":
    running.run(main)
