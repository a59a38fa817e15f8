"""The program that a script runs: the one that bin/opgen runs, proved or not, built where that is due, or another. Tools call it by the
module `opgen`: `program_of().call(..)`, with the lock of the folder that is stored into, and errors as exceptions."""
import argparse
import os
from functools import cache
from pathlib import Path
from typing import TYPE_CHECKING, Any

from opgen import Error, Program, Rejected

from .running import process

if TYPE_CHECKING:
    from .report import Port

__all__ = ["Error", "NoProgram", "Program", "Rejected", "add_option", "built", "ports_by", "program_of"]

TOP = Path(__file__).resolve().parent.parent.parent


class NoProgram(Exception):
    """Where no program is, or that none was built."""


def add_option(words: argparse.ArgumentParser, *names: str) -> None:
    """Adds the option that names the program, and further names of it."""
    told = "another program than the one that bin/opgen runs, which is built where that is due"
    words.add_argument("--bin", *names, metavar="PATH", type=Path, help=told)


def taken_by(front: Path) -> Path:
    """The program that a bin/opgen takes."""
    done = process([front, "--program"], stderr=None)
    if done.returncode:
        raise NoProgram("bin/opgen has built no program")
    return Path(done.stdout.removesuffix("\n"))


def is_front(path: Path) -> bool:
    """Whether this is the bin/opgen of a checkout or an installation, and no program."""
    top = path.resolve().parent.parent
    return path.resolve() == top / "bin/opgen" and (top / "docs/help/opgen.txt").is_file()


@cache
def built(path: Path | None = None) -> Path:
    """The file of the program there, or of that of bin/opgen, which is built first where that is due: for scripts that test or measure
    the program itself."""
    if path is None or is_front(path):
        path = taken_by(path or TOP / "bin/opgen")
    if not (path.is_file() and os.access(path, os.X_OK)):
        raise NoProgram(f"{path} is no program")
    return path.resolve()


def program_of(path: Path | None = None) -> Program:
    """The same program as a tool calls it."""
    return Program(built(path))


def ports_by(program: Program, table: dict[str, Any]) -> "tuple[Port, ...]":
    """The ports of a specification, by a program that makes its circuit. Of a document of which it makes none: `NoPorts`. Only here is
    the schema read, which a folder with the program alone has not."""
    from .asking import NoPorts, ports_of

    def generate(spec: Path) -> str:
        try:
            program.call("generate", spec.name, folder=spec.parent)
        except Rejected as fault:
            raise NoPorts(f"the specification is refused: {fault.cause}") from None
        return next(spec.parent.glob("*.rpt")).read_text()

    return ports_of(table, generate)
