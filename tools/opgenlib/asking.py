"""Asks the program for the ports of a specification: by the report of a circuit that is made for nothing else."""
import tempfile
from collections.abc import Callable
from pathlib import Path
from typing import Any

from . import schema
from .report import Port, report_of
from .storing import store
from .writing import document

# Has the program make the circuit of a specification that is in a folder of its own: the text of its report.
Generate = Callable[[Path], str]


class NoPorts(Exception):
    """A document of which no circuit is made: why."""


def plainest(table: dict[str, Any]) -> dict[str, Any]:
    """The document with the same ports and the least to do for them: its target is one that there is, as `check` takes any, without
    delay lines at the longest period, in picoseconds, and the search for adders is the shortest."""
    properties = schema.SCHEMA["properties"]
    plain = {"target": properties["target"]["enum"][0], "period": properties["period"]["maximum"]}
    if "extra" in table:
        plain["extra"] = properties["extra"]["minimum"]
    return {key: value for key, value in (table | plain).items() if key != "delay"}


def ports_of(table: dict[str, Any], generate: Generate) -> tuple[Port, ...]:
    """The ports of a specification, but for `clk`. Its target may be any."""
    plain = plainest(table)
    if fault := schema.first_fault(table | {"target": plain["target"]}):
        raise NoPorts(f"the specification is refused: {fault}")
    with tempfile.TemporaryDirectory(prefix="opgen-ports-") as name:
        spec = Path(name) / "spec.toml"
        store(spec, document(plain))
        return report_of(generate(spec)).ports
