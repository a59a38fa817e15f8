"""Tests of what bin/opgen says after a status other than 0: on each line of the manual's index, with the place."""
import contextlib
import os
import re
import signal
import subprocess
import tempfile
import unittest
from collections.abc import Iterator
from pathlib import Path

from opgenlib.explain import explain as explain_with
from opgenlib.explain.again import Runner
from opgenlib.explain.limits import SECONDS, TooLong
from tests.faulty import CASES, JUDGED_CASES, SCALE, VHDL, Case
from tests.loading import has_ended

TOP = Path(__file__).resolve().parent.parent.parent
OPGEN = TOP / "bin/opgen"
# The proved program, or else the other. .ci/tools names the one that bin/opgen runs.
BUILT = [path for path in (TOP / "crates/opgen/out/opgen", TOP / "crates/opgen/out/unproved/opgen") if path.exists()]
PROGRAM = Path(os.environ.get("OPGEN_PROGRAM", [*BUILT, TOP / "no program"][0]))
NO_PROGRAM = "the program is not built"
NO_PYTHON = "opgen: Python 3.11 or later would explain this, and there is no python3\n"


def explain(words: list[str], status: int, line: str | None) -> list[str]:
    """What is explained where the program is not run again."""
    return explain_with(words, status, None, line)


def report_by(report: str) -> Runner | None:
    """What runs a program that makes a circuit with this report, and does nothing else; none without a report."""
    return (lambda command, *_: (0, "", report) if command == "generate" else (5, "", "")) if report else None


@contextlib.contextmanager
def folder_of(files: dict[str, str | bytes]) -> Iterator[Path]:
    """A folder with these files, which is the current one for the while."""
    before = os.getcwd()
    with tempfile.TemporaryDirectory() as name:
        folder = Path(name)
        for file, content in files.items():
            (folder / file).parent.mkdir(parents=True, exist_ok=True)
            (folder / file).write_bytes(content if isinstance(content, bytes) else content.encode())
        os.chdir(folder)
        try:
            yield folder
        finally:
            os.chdir(before)


def run(words: list[str], program: Path = PROGRAM, **other) -> subprocess.CompletedProcess:
    """What bin/opgen does with these words."""
    environment = os.environ | {"OPGEN_PROGRAM": str(program), SECONDS: "600"} | other.pop("env", {})
    return subprocess.run([OPGEN, *words], capture_output=True, text=True, env=environment, **other)


def without_python(folder: Path) -> str:
    """A path for commands that has no python3."""
    tools = folder / "tools"
    tools.mkdir()
    for name in ("sh", "dirname", "readlink", "sed", "cat", "head", "find", "env"):
        found = subprocess.run(["sh", "-c", f"command -v {name}"], capture_output=True, text=True, check=True)
        (tools / name).symlink_to(found.stdout.strip())
    return str(tools)


def stub(folder: Path, text: str) -> Path:
    """A program of its own in place of opgen."""
    path = folder / "stub"
    path.write_text(f"#!/bin/sh\n{text}\n")
    path.chmod(0o755)
    return path


class Explained(unittest.TestCase):
    """What is said of a status and a line."""

    def test_cases(self) -> None:
        for case in CASES:
            with self.subTest(case.name), folder_of(case.files):
                self.assertEqual(explain_with(case.words, case.status, report_by(case.report), case.line), case.explained)

    def test_at_most_three_lines(self) -> None:
        for case in CASES:
            self.assertIn(len(case.explained), (1, 2, 3), case.name)
        for case in JUDGED_CASES:
            self.assertIn(len(case.explained), (4, 5), case.name)

    def test_each_line_of_the_index(self) -> None:
        index = (TOP / "docs/MANUAL.md").read_text().partition("## Index of lines")[2].partition("\n## ")[0]
        told = {re.sub(r"^\w+: ", "", case.line).split(" ")[0] for case in CASES}
        for fault in re.findall(r"^\| `([A-Z][a-z]\w+)", index, re.MULTILINE):
            self.assertIn(fault, told)
        rules = set(re.findall(r"^\| `Unsound (\d+)", index, re.MULTILINE))
        self.assertEqual(rules - {case.line.split(" ")[2] for case in CASES if "Unsound" in case.line}, set())
        statuses = set(re.findall(r"^\| (\d) \|", index, re.MULTILINE))
        self.assertEqual(statuses - {str(case.status) for case in CASES + JUDGED_CASES} - {"5"}, set())

    def test_memory(self) -> None:
        with folder_of({"first.toml": SCALE}):
            self.assertEqual(explain(["generate", "first.toml"], 5, None)[0].split(";")[0],
                             f"out of memory over first.toml with {len(SCALE)} bytes")

    def test_bad_row(self) -> None:
        with folder_of({"first.toml": SCALE, "my.vhd": VHDL}):
            said = explain(["check", "first.toml", "my.vhd", "my.vec", "2"], 8, "row 16 not good\n")
        self.assertEqual(said[0], "my.vec:17: the outputs of row 16 are not good for the inputs up to row 14, 2 before")

    def test_no_permission(self) -> None:
        if os.geteuid() != 0:
            self.skipTest("only root can take another user's rights")
        with folder_of({"first.toml": SCALE}) as folder:
            folder.chmod(0o555)
            child = os.fork()
            if child == 0:
                os.setuid(65534)
                said = explain(["generate", "first.toml"], 4, None)
                os._exit(0 if said == ["cannot write first.vhd in this folder: permission denied"] else 1)
            self.assertEqual(os.waitpid(child, 0)[1], 0)


class NotGuessed(unittest.TestCase):
    """Where the place is not sure, less is said."""

    def test_a_piece_that_fits(self) -> None:
        with folder_of({"my.vhd": VHDL, "h.in": ""}):
            said = explain(["simulate", "my.vhd", "h.in", "out"], 6, "vhdl: Syntax 2")
            self.assertEqual(len(said), 1)
            self.assertTrue(said[0].startswith("my.vhd:2:1: `use ieee.std_logic_1164.all;` does not fit its place"))

    def test_a_good_row(self) -> None:
        with folder_of({"my.vhd": VHDL, "h.in": "001\n"}):
            said = explain(["simulate", "my.vhd", "h.in", "out"], 7, "vectors: BadLine 1")
            self.assertEqual(said, ["h.in:1: this line is no row of inputs"])

    def test_a_good_specification(self) -> None:
        with folder_of({"first.toml": SCALE}):
            self.assertEqual(explain(["generate", "first.toml"], 1, "specification: NotToml"),
                             ["first.toml: no TOML document as opgen reads it"])

    def test_ports_that_are_not_known(self) -> None:
        """Without the program, and where it makes no circuit or takes too long, which port differs is not said."""
        def late(*_: object) -> tuple[int, str, str]:
            raise TooLong

        for how in (None, late, lambda *_: (1, "specification: TooLarge\n", "")):
            with folder_of({"first.toml": SCALE, "my.vhd": VHDL}):
                said = explain_with(["check", "first.toml", "my.vhd", "my.vec", "1"], 6, how, "vhdl: Ports")
            self.assertEqual(said, ["my.vhd: its ports are not those of first.toml, in names, directions, widths or order"])

    def test_newer_toml(self) -> None:
        newer = 'delay = [{class = "add", base = 1,\nper_bit = 1}]\n'
        with folder_of({"first.toml": SCALE.replace("width", "widht") + newer}):
            said = explain(["generate", "first.toml"], 1, "specification: UnknownKey 0 11")
            self.assertTrue(said[0].startswith("first.toml: no closer look, as Python reads TOML 1.0"), said)

    def test_no_line(self) -> None:
        self.assertEqual(explain(["generate", "first.toml"], 1, None), [])


@unittest.skipUnless(PROGRAM.exists(), NO_PROGRAM)
class Told(unittest.TestCase):
    """What bin/opgen prints, with the built program."""

    def check(self, case: Case) -> None:
        with folder_of(case.files):
            done = run(case.words)
        self.assertEqual(done.returncode, case.status)
        self.assertEqual(done.stdout, f"{case.line}\n" if case.line else "")
        self.assertEqual(done.stderr.splitlines()[: len(case.explained)], case.explained)

    def test_cases(self) -> None:
        for case in CASES + JUDGED_CASES:
            with self.subTest(case.name):
                self.check(case)

    def test_nothing_is_stored_for_an_explanation(self) -> None:
        with folder_of({"first.toml": SCALE.replace("width", "widht")}) as folder:
            run(["generate", "first.toml"])
            self.assertEqual([file.name for file in folder.iterdir()], ["first.toml"])

    def test_without_python(self) -> None:
        with folder_of({"first.toml": SCALE}) as folder:
            path = without_python(folder)
            done = run(["generate", "first.toml"], env={"PATH": path})
            self.assertEqual((done.returncode, done.stderr), (0, ""))
            self.assertEqual(done.stdout, "wrote first.vhd and first.rpt, latency 0\n")
            done = run(["generate", "no.toml"], env={"PATH": path})
            self.assertEqual((done.returncode, done.stdout, done.stderr), (3, "read fault\n", NO_PYTHON))

    def test_a_pipe_is_not_read_twice(self) -> None:
        with folder_of({}):
            done = run(["generate", "/dev/stdin"], input=SCALE.replace("width", "widht"))
        self.assertEqual((done.returncode, done.stdout, done.stderr), (1, "specification: UnknownKey 0 10\n", ""))

    def test_output_full(self) -> None:
        with folder_of({"first.toml": SCALE}), open("/dev/full", "w") as full:
            done = subprocess.run([OPGEN, "generate", "first.toml"], stdout=full, stderr=subprocess.PIPE, text=True,
                                  env=os.environ | {"OPGEN_PROGRAM": str(PROGRAM)})
        self.assertEqual(done.returncode, 4)
        self.assertEqual(done.stderr, "cannot write the line: standard output is /dev/full\n"
                                      "  first.vhd and first.rpt may be complete\n")

    def test_a_list_of_commands(self) -> None:
        done = run(["genrate"])
        self.assertEqual(done.returncode, 2)
        for command in ("generate", "vectors", "simulate", "check", "workload", "install"):
            self.assertIn(f"\n  opgen {command} ", done.stderr)


class Passed(unittest.TestCase):
    """What passes through bin/opgen, whatever the program is."""

    def test_status_and_streams(self) -> None:
        with folder_of({}) as folder:
            program = stub(folder, 'read line; echo "out $line $1"; echo "err" >&2; exit 37')
            done = run(["generate"], program=program, input="in\n")
        self.assertEqual((done.returncode, done.stdout, done.stderr), (37, "out in generate\n", "err\n"))

    def test_closed_input(self) -> None:
        with folder_of({}) as folder:
            program = stub(folder, "echo out; exit 37")
            done = subprocess.run(["sh", "-c", f"{OPGEN} generate <&-"], capture_output=True, text=True,
                                  env=os.environ | {"OPGEN_PROGRAM": str(program)})
        self.assertEqual((done.returncode, done.stdout, done.stderr), (37, "out\n", ""))

    def test_memory(self) -> None:
        with folder_of({"first.toml": SCALE}) as folder:
            done = run(["generate", "first.toml"], program=stub(folder, "exit 5"))
        self.assertEqual((done.returncode, done.stdout), (5, ""))
        self.assertTrue(done.stderr.startswith("out of memory over first.toml"))

    def test_signals(self) -> None:
        for number in (signal.SIGTERM, signal.SIGINT, signal.SIGHUP):
            with self.subTest(number), folder_of({}) as folder:
                program = stub(folder, "echo $$\nexec sleep 100")
                # a test that is run by `nohup`, or in the background, hands on signals that are ignored
                started = subprocess.Popen([OPGEN, "generate"], stdout=subprocess.PIPE, text=True,
                                           preexec_fn=lambda: signal.signal(number, signal.SIG_DFL),
                                           env=os.environ | {"OPGEN_PROGRAM": str(program)})
                child = int(started.stdout.readline())
                started.send_signal(number)
                self.assertEqual(started.wait(timeout=120), -number)
                self.assertTrue(has_ended(child))
                started.stdout.close()

    def test_death_by_a_signal(self) -> None:
        with folder_of({}) as folder:
            done = run(["generate"], program=stub(folder, "kill -KILL $$"))
        self.assertEqual(done.returncode, -signal.SIGKILL)


if __name__ == "__main__":
    unittest.main()
