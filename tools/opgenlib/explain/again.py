"""Runs the program again over the files of a call, in a folder of its own, where it stores nothing of the caller's."""
import os
import subprocess
import tempfile
from collections.abc import Callable
from pathlib import Path
from typing import Any

from ..asking import NoPorts, ports_of
from ..commands import FILES, Call
from ..report import Port
from ..running import process

MOST_SECONDS = 60
# What runs the program: the command, its words and its options to the status, what is printed, and what is stored as OUT or as report.
Runner = Callable[[str, list[str], list[str]], tuple[int, str, str]]
STORED = "stored"
# In place of a status where the program took too long.
TOO_LONG = -1


def runner_of(program: str) -> Runner:
    """What runs this program."""

    def run(command: str, words: list[str], options: list[str]) -> tuple[int, str, str]:
        with tempfile.TemporaryDirectory(prefix="opgen-explain-") as folder:
            try:
                called = [os.path.abspath(program), command, *options, "--", *words]
                done = process(called, MOST_SECONDS, cwd=folder)
            except subprocess.TimeoutExpired:
                return TOO_LONG, "", ""
            stored = [*Path(folder).glob(STORED), *Path(folder).glob("*.rpt")]
            return done.returncode, done.stdout, stored[0].read_text() if stored else ""

    return run


def ports_by(run: Runner | None, table: dict[str, Any]) -> tuple[Port, ...]:
    """The ports of a specification, by the program that makes its circuit. Where it makes none, or cannot be run: `NoPorts`."""

    def generate(spec: Path) -> str:
        status, line, report = run("generate", [str(spec)], []) if run else (TOO_LONG, "", "")
        if status:
            raise NoPorts(line.strip())
        return report

    return ports_of(table, generate)


def is_readable(call: Call) -> bool:
    """Whether each file of a call can be read twice."""
    return all(os.path.isfile(file) for _, file in call.inputs)


def line_of(run: Runner, call: Call, status: int) -> str | None:
    """The line that the program prints with this status, none where that is not sure."""
    if not is_readable(call):
        return None
    words = [os.path.abspath(word) if FILES.get(what) else word for what, word in call.words.items() if what != "OUT"]
    found, line, _ = run(call.command, [*words, *([STORED] if "OUT" in call.words else [])], call.options)
    return line if found == status else None
