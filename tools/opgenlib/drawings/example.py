"""A specification with the files that the program stored for it, as a drawing reads them."""
from functools import cached_property
from pathlib import Path

from opgenlib import vhdl
from opgenlib.report import Report, read_report
from opgenlib.specification import load


class NotDrawn(Exception):
    """Files of which there is no such drawing."""


class Example:
    """A specification, and the files beside it."""

    def __init__(self, path: Path) -> None:
        self.path = path
        self.spec = load(path).table
        if not isinstance(self.spec.get("name"), str):
            raise NotDrawn(f"{path} has no name")

    def beside(self, ending: str) -> Path:
        """The file of the specification's name beside it."""
        return self.path.with_name(self.spec["name"] + ending)

    def rows(self) -> str:
        return self.beside(".out").read_text()

    @cached_property
    def design(self) -> vhdl.Design:
        return vhdl.design_of(self.beside(".vhd").read_text(encoding="latin-1"))

    @property
    def has_whole_sums(self) -> bool:
        """Whether its sums are as the recipe of its kind has them: version 4 passes on their lowest places and cuts them."""
        return self.spec["version"] < 4

    @property
    def whole_design(self) -> vhdl.Design:
        """The design, if its sums are whole, from which heaps and graphs are read."""
        if not self.has_whole_sums:
            raise NotDrawn("heaps and graphs are drawn of whole sums, and those of version 4 are cut to the period")
        return self.design

    @cached_property
    def report(self) -> Report:
        return read_report(self.beside(".rpt"))

    @property
    def caption(self) -> str:
        return f"opgen generate {self.path.name}" + (" --enable" if self.design.enable else "")


def cycles(count: int) -> str:
    return f"{count} cycle{'' if count == 1 else 's'}"
