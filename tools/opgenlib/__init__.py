"""What the tools share: specifications, reports, rows and VHDL of the subset, read with their places.

This file is written so that an older Python reads it too, and says what is missing."""
import os
import sys

LEAST = (3, 11)
# The module `opgen` takes the parts that are written for Python 3.8: exact, report, rows, running, terms and writing. Tools in turn take
# the module that is beside them, and no other that is installed.
if "opgen" not in sys.modules:
    if sys.version_info < LEAST:
        sys.exit("opgen: Python 3.11 or later is needed here, and this is Python %d.%d" % sys.version_info[:2])
    sys.path.insert(0, os.path.join(os.path.dirname(os.path.realpath(__file__)), "..", "..", "python"))


def answer_help(text):
    """Prints a tool's text and ends, if that is what its words ask for."""
    if sys.argv[1:] in (["-h"], ["--help"]):
        print(text.strip())
        sys.exit(0)
