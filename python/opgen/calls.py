"""Calls of opgen, from Python and from the tools, and what it says where it does not do what was asked."""
from __future__ import annotations

import os
import re
from dataclasses import dataclass
from pathlib import Path

from .shared import TOP

from opgenlib.running import process

# Before what is wrong with a specification.
OF_SPECIFICATION = "specification: "


class Error(Exception):
    """A call that ended with a status other than 0: the status, the line that the program printed, and the explanation."""

    def __init__(self, status: int, line: str, explanation: str) -> None:
        super().__init__("\n".join(filter(None, [line, explanation])) or f"opgen ended with status {status}")
        self.status, self.line, self.explanation = status, line, explanation

    @property
    def cause(self) -> str:
        """The line without `specification: ` before it, or the status of a call that printed none."""
        return self.line[len(OF_SPECIFICATION) :] if self.line.startswith(OF_SPECIFICATION) else self.line or f"status {self.status}"

    @property
    def summary(self) -> str:
        """The line and the first of those that explain it, on one line."""
        return ": ".join(filter(None, [self.line, *self.explanation.splitlines()[:1]])) or self.cause


class Rejected(Error):
    """A specification, a circuit or rows that are rejected: statuses 1, 6, 7 and 9."""


class NotGood(Error):
    """Outputs that are not good for the specification: status 8. `row` is the first such row, from 0."""

    @property
    def row(self) -> int:
        return int(re.findall(r"\d+", self.line)[0])


KINDS = {1: Rejected, 6: Rejected, 7: Rejected, 8: NotGood, 9: Rejected}


@dataclass(frozen=True)
class Program:
    """What answers: the program that bin/opgen takes, or another one. Each call is one of bin/opgen, which takes the lock of the folder
    that it stores into and explains what it rejects. The call ends with all that it started if an exception breaks it off, as Ctrl-C."""

    path: Path | None = None

    def call(self, *words: str, folder: Path | None = None) -> str:
        """The line that is printed over these words, run in a folder, or in the current one; an error for a status other than 0."""
        known = {**os.environ, "OPGEN_PROGRAM": str(self.path)} if self.path else None
        done = process([TOP / "bin/opgen", *words], cwd=folder, env=known)
        if done.returncode:
            raise KINDS.get(done.returncode, Error)(done.returncode, done.stdout.strip(), done.stderr.strip())
        return done.stdout.strip()


call = Program().call
