"""Fixed-point operators of opgen from Python: generate a circuit, run it over numbers, and compare with exact values.

    from opgen import Operator
    operator = Operator("lowpass.toml")         # or a dict with the keys of a specification
    y = operator.run([0.5, 0.25, -1.0])         # by `opgen simulate`, beside the inputs that they belong to

Numbers come back as numpy arrays where numpy is installed, and as lists elsewhere. Python 3.8 or later.
"""
from .calls import Error, NotGood, Program, Rejected
from .documents import rounded
from .operators import Operator

__all__ = ["Error", "NotGood", "Operator", "Program", "Rejected", "rounded"]
