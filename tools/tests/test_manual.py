"""Tests that the manual's way to check a circuit works as it is written, in a folder of its own."""
import os
import re
import subprocess
import tempfile
import unittest
from pathlib import Path
from unittest import mock

from opgenlib.explain.limits import SECONDS
from tests.loading import module_of
from tests.test_explain import NO_PROGRAM, PROGRAM, TOP

MANUAL = (TOP / "docs/MANUAL.md").read_text()


def section(heading: str) -> str:
    return MANUAL.partition(f"## {heading}\n")[2].partition("\n## ")[0]


def blocks(heading: str = "Check a circuit that someone else wrote") -> list[str]:
    """The indented texts of a section, those of its steps too."""
    found = re.findall(r"(?m)(?:^(?: {4}| {7}).*\n(?:\n(?= {4}[^ ]| {5,}[^ ]))?)+", section(heading))
    return [re.sub(rf"(?m)^ {{{len(block) - len(block.lstrip(' '))}}}", "", block).rstrip("\n") for block in found]


@unittest.skipUnless(PROGRAM.exists(), NO_PROGRAM)
class Check(unittest.TestCase):
    def test_commands(self) -> None:
        commands = [block for block in blocks() if re.match(r"for |sed |bin/", block)]
        self.assertEqual(len(commands), 5)
        with tempfile.TemporaryDirectory() as name:
            folder = Path(name)
            for shared in ("bin", "examples", "templates", "tools"):
                (folder / shared).symlink_to(TOP / shared)
            for text in commands:
                typed, _, answer = text.partition("\n\n")
                done = subprocess.run(["sh", "-c", typed], cwd=folder, capture_output=True, text=True,
                                      env=os.environ | {"OPGEN_PROGRAM": str(PROGRAM), SECONDS: "600"})
                with self.subTest(typed):
                    self.assertIn(answer.strip(), (done.stdout.strip(), (done.stdout + done.stderr).strip(), ""))
                if "check exact.toml wrong.vhd" in typed:
                    self.assertIn(done.stderr.rstrip("\n"), blocks())


@unittest.skipUnless(PROGRAM.exists(), NO_PROGRAM)
class FromPython(unittest.TestCase):
    def test_page(self) -> None:
        """The lines of Python and the commands print what the page has."""
        lines, filtered = blocks("From Python")
        text, command, answer = lines.split("\n\n")
        with tempfile.TemporaryDirectory() as name:
            folder = Path(name)
            for shared in ("bin", "examples", "python", "templates", "tools"):
                (folder / shared).symlink_to(TOP / shared)
            (folder / "third.py").write_text(text + "\n")
            for typed, wanted in ((command, answer), filtered.split("\n\n")):
                done = subprocess.run(["sh", "-c", typed], cwd=folder, capture_output=True, text=True,
                                      env=os.environ | {"OPGEN_PROGRAM": str(PROGRAM)})
                self.assertEqual((done.stdout.rstrip("\n"), done.stderr), (wanted, ""))
            self.assertTrue((folder / "third.vhd").exists() and (folder / "softer.svg").exists())


SAMPLE = """# Manual

## One

Files, as `make.py`:

    import os
    print(1)

    python3 make.py

    1

1. A step:

       cat FILE.vhd

   It has no output.

       not a command

## Two

    version = 1

    bin/opgen generate a.toml
    cat a.rpt

    operator a
"""


class Commands(unittest.TestCase):
    """What .ci/manual-commands takes from a manual, and when it says that something is not as printed."""

    def setUp(self) -> None:
        self.tool = module_of(TOP / ".ci/manual-commands")

    def test_steps(self) -> None:
        steps = list(self.tool.steps_of(list(self.tool.blocks_of(SAMPLE))))
        self.assertEqual((steps[0].file, steps[0].paragraphs), ("make.py", ("import os\nprint(1)",)))
        self.assertEqual([(step.commands, step.printed) for step in steps[1:]],
                         [("python3 make.py", "1"), ("cat FILE.vhd", None), ("bin/opgen generate a.toml\ncat a.rpt", "operator a")])
        self.assertEqual(self.tool.why_left_out(steps[2], True, set()), "it has a word to be replaced")
        self.assertEqual(self.tool.why_left_out(steps[1], False, {"One"}), "there is no numpy")
        self.assertEqual(self.tool.why_left_out(steps[3], False, {"One"}), "")

    def test_a_python_with_numpy(self) -> None:
        """The first that imports numpy is python3 for the blocks; without one they are left out."""
        with tempfile.TemporaryDirectory() as name:
            folder = Path(name)
            for place, status in (("without", 1), ("with", 0)):
                (folder / place).mkdir()
                (folder / place / "python3").write_text(f"#!/bin/sh\nexit {status}\n")
                (folder / place / "python3").chmod(0o755)
            system = self.tool.SYSTEM
            for path, of_system, found in (("with", "without", "with"), ("without", "with", "with"), ("without", "without", "")):
                self.tool.SYSTEM = str(folder / of_system / "python3")
                with mock.patch.dict(os.environ, {"PATH": str(folder / path)}):
                    self.assertEqual(self.tool.with_numpy(), str(folder / found / "python3") if found else "")
            self.tool.SYSTEM = system
            self.tool.fresh(folder / "fresh", str(folder / "with/python3"))
            block = next(self.tool.blocks_of(SAMPLE))
            self.assertEqual(self.tool.fault_of(self.tool.Step(block, "python3 none", None), folder / "fresh"), "")

    def test_faults(self) -> None:
        block = next(self.tool.blocks_of(SAMPLE))
        with tempfile.TemporaryDirectory() as name:
            for commands, printed, is_good in (("echo one; echo two", "two", True), ("echo one", "two", False), ("false", None, False),
                                               ("false; echo one", "one", False), ("echo one; exit 8", "one", True), ("echo one >&2", "one", True)):
                fault = self.tool.fault_of(self.tool.Step(block, commands, printed), Path(name))
                self.assertEqual(fault == "", is_good, commands)


if __name__ == "__main__":
    unittest.main()
