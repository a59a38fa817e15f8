"""Taken first by a tool: from here on Ctrl-C ends it without a trace, until `running.run` takes signals. A script of another folder
that takes a tool as a module is interrupted as before."""
import os
import signal
import sys

TOOLS = os.path.dirname(os.path.dirname(os.path.realpath(__file__)))
script = getattr(sys.modules["__main__"], "__file__", None)
if script and os.path.dirname(os.path.realpath(script)) == TOOLS and signal.getsignal(signal.SIGINT) is signal.default_int_handler:
    signal.signal(signal.SIGINT, signal.SIG_DFL)
