"""An operator: its circuit, its runs, its exact values."""
from __future__ import annotations

import os
import re
import shutil
import tempfile
import weakref
from collections import namedtuple
from fractions import Fraction
from pathlib import Path
from typing import Any, Mapping, Sequence

from .calls import call
from .documents import plain_table, table_of
from .numbers import column, units_of

from opgenlib.exact import exact_values
from opgenlib.report import Port, Report, read_report
from opgenlib.rows import read_rows, row_text, unit_count, word_in
from opgenlib.writing import document

SPECIFICATION = "specification.toml"
# The most rows of a run.
MOST_ROWS = 100000


class Operator:
    """The operator of a specification, which is the path of a TOML document or a dict with its keys. Its circuit is made at once, in a
    folder of its own; a specification that is rejected raises `Rejected`."""

    def __init__(self, specification: str | os.PathLike[str] | Mapping[str, Any]) -> None:
        self._folder = Path(tempfile.mkdtemp(prefix="opgen-"))
        weakref.finalize(self, shutil.rmtree, self._folder, ignore_errors=True)
        self._document: dict[str, Any] | None
        kept = self._folder / SPECIFICATION
        if isinstance(specification, Mapping):
            self._document = plain_table(specification)
            kept.write_text(document(self._document), encoding="utf-8")
            said = call("generate", SPECIFICATION, folder=self._folder)
        else:
            said = call("generate", "-o", str(self._folder), "--", os.fspath(specification))
            shutil.copyfile(specification, kept)
            self._document = None
        # The line `wrote NAME.vhd and NAME.rpt, latency L`.
        self.name: str = re.findall(r"^wrote (\w+)\.vhd and ", said)[0]
        self.report: Report = read_report(self._folder / f"{self.name}.rpt")

    def __repr__(self) -> str:
        ports = ", ".join(f"{port.name} {port.sign} {port.width} {port.lsb}" for port in self.report.ports)
        return f"<Operator {self.name}: {self.report.kind}, {self.report.mode}, latency {self.latency}; {ports}>"

    @property
    def inputs(self) -> tuple[Port, ...]:
        """The input ports: `name`, `is_signed`, `width`, `lsb`, and `least` and `greatest` in units of `unit`."""
        return self.report.inputs

    @property
    def outputs(self) -> tuple[Port, ...]:
        """The output ports, as `inputs`."""
        return self.report.outputs

    @property
    def latency(self) -> int:
        """How many cycles an output comes after its inputs."""
        return self.report.latency

    @property
    def bound(self) -> Fraction:
        """What each output's distance from the exact value is proved to be below; 0 where they are equal."""
        return Fraction(0) if self.report.is_exact else self.outputs[0].unit

    def generate(self, folder: str | os.PathLike[str] = ".") -> tuple[Path, Path]:
        """Stores the VHDL and the report in a folder that is there: their paths."""
        call("generate", "-o", os.path.abspath(folder), SPECIFICATION, folder=self._folder)
        return Path(folder) / f"{self.name}.vhd", Path(folder) / f"{self.name}.rpt"

    def run(self, *inputs: Sequence[Any], raw: bool = False, saturate: bool = False, **named: Sequence[Any]) -> Any:
        """What `opgen simulate` gives of the circuit over inputs, of each port a sequence in the ports' order or by its name. Values are
        rounded to the nearest number of the port; `raw` numbers count units of its last place. The outputs are of the inputs at the
        same place: an array, or of several ports a tuple of arrays with their names."""
        columns = self._columns(inputs, named, raw, saturate)
        with tempfile.TemporaryDirectory(dir=self._folder) as name:
            self._write_rows(columns, self.latency, Path(name) / "rows.in")
            call("simulate", str(self._folder / f"{self.name}.vhd"), "rows.in", "rows.out", folder=Path(name))
            rows = list(read_rows((Path(name) / "rows.out").read_text(), *self._widths))[self.latency :]
        words = zip(*(row[1] or [] for row in rows)) if rows else [()] * len(self.outputs)
        return self._named([column([unit_count(word, port) for word in found], port, raw) for port, found in zip(self.outputs, words)])

    def exact(self, *inputs: Sequence[Any], raw: bool = False, saturate: bool = False, **named: Sequence[Any]) -> Any:
        """The exact values of the outputs as fractions, of inputs as in `run`, by the specification and not by the circuit: values, or
        where `raw` in units of the outputs' last places. Of a cycle with the divisor 0 they are None. This is not proved."""
        rows = list(zip(*self._columns(inputs, named, raw, saturate)))
        table = self._document or table_of((self._folder / SPECIFICATION).read_text(encoding="utf-8"))
        exact = exact_values(table, self.outputs)
        found = [exact(rows, cycle) or [None] * len(self.outputs) for cycle in range(len(rows))]
        units = [Fraction(1) if raw else port.unit for port in self.outputs]
        return self._named([[None if row[at] is None else row[at] * unit for row in found] for at, unit in enumerate(units)])

    def check(self, file: str | os.PathLike[str], *inputs: Sequence[Any], latency: int | None = None, cycles: int = 10000, seed: int = 1,
              raw: bool = False, saturate: bool = False, **named: Sequence[Any]) -> int:
        """Has `opgen check` judge a VHDL file by the specification, over inputs as in `run` or, where none are given, over drawn rows: how
        many outputs are good. An output that is not raises `NotGood`."""
        latency = self.latency if latency is None else latency
        with tempfile.TemporaryDirectory(dir=self._folder) as name:
            rows = Path(name) / "rows.in"
            if inputs or named:
                self._write_rows(self._columns(inputs, named, raw, saturate), latency, rows)
            else:
                call("vectors", "--cycles", str(cycles), "--seed", str(seed), "-o", name, "--", str(self._folder / SPECIFICATION))
                rows.write_text(re.sub(r" : .*", "", (Path(name) / f"{self.name}.vec").read_text()))
            said = call("check", "--", str(self._folder / SPECIFICATION), os.path.abspath(file), str(rows), str(latency))
        return int(said.split()[1])

    @property
    def _widths(self) -> tuple[list[int], list[int]]:
        return [port.width for port in self.inputs], [port.width for port in self.outputs]

    def _columns(self, inputs: Sequence[Any], named: Mapping[str, Any], raw: bool, saturate: bool) -> list[list[int]]:
        """The units of each input port, by their order or their names."""
        names = [port.name for port in self.inputs]
        given = dict(zip(names, inputs))
        if len(inputs) > len(names) or given.keys() & named.keys() or given.keys() | named.keys() != set(names):
            raise TypeError(f"{self.name} takes a sequence for each of {', '.join(names)}")
        columns = [units_of({**given, **named}[port.name], port, raw, saturate) for port in self.inputs]
        if len({len(units) for units in columns}) > 1:
            raise ValueError(f"the sequences of {', '.join(names)} have {', '.join(str(len(units)) for units in columns)} numbers")
        return columns

    def _write_rows(self, columns: list[list[int]], latency: int, path: Path) -> None:
        """Writes rows of inputs, and further ones of 0 in which the last outputs come."""
        if len(columns[0]) + latency > MOST_ROWS:
            raise ValueError(f"a run has at most {MOST_ROWS - latency} rows beside its latency, and not {len(columns[0])}")
        words = [[word_in(units, port) for units in found] + [0] * latency for port, found in zip(self.inputs, columns)]
        path.write_text("".join(row_text(row, self._widths[0]) + "\n" for row in zip(*words)))

    def _named(self, columns: list[Any]) -> Any:
        """The only column, or all with the names of their ports."""
        return columns[0] if len(columns) == 1 else namedtuple("Outputs", [port.name for port in self.outputs])(*columns)
