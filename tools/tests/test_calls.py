"""Tests of the one way in which tools and the module `opgen` call the program: by bin/opgen, with the lock of the folder that is stored
into, errors as exceptions, and all that was started ended with the call."""
import fcntl
import os
import re
import shutil
import signal
import subprocess
import sys
import tempfile
import threading
import time
import unittest
from pathlib import Path

from opgenlib import program
from tests.loading import EXAMPLES, TOOLS, has_ended
from tests.test_explain import OPGEN, TOP, folder_of, run, stub

import opgen

SLEEPS = "echo $$ >pid.new; mv pid.new pid; exec sleep 1000"
# Calls a program, as a user's Python does.
CALL = """
import sys
from pathlib import Path
sys.path[:0] = [{python!r}]
import opgen
assert "numpy" not in sys.modules
opgen.Program(Path({stub!r})).call("workload", "1")
"""
# A tool to which a signal comes while it starts a process.
STARTS = """
import os, signal, subprocess, sys
sys.path[:0] = [{tools!r}]
from opgenlib import running

class Slow(subprocess.Popen):
    def __init__(self, *words, **how):
        super().__init__(*words, **how)
        open("pid", "w").write(str(self.pid))
        os.kill(os.getpid(), signal.SIGTERM)

running.subprocess.Popen = Slow
running.run(lambda: running.process(["sleep", "1000"]).returncode)
"""


def wait_for(path: Path, started: subprocess.Popen) -> None:
    """Waits until a file is there, or the process that makes it has ended."""
    while not path.exists() and started.poll() is None:
        time.sleep(0.01)


class Calls(unittest.TestCase):
    """`Program.call` over programs that say what a test asks for."""

    def fault(self, said: str) -> opgen.Error:
        """The error of a program that does this."""
        with folder_of({}) as folder, self.assertRaises(opgen.Error) as caught:
            opgen.Program(stub(folder, said)).call("workload", "1", folder=folder)
        return caught.exception

    def test_what_is_printed(self) -> None:
        with folder_of({"out/kept": ""}) as folder:
            program = opgen.Program(stub(folder, 'pwd; echo "$@"'))
            self.assertEqual(program.call("workload", "1", folder=folder / "out").splitlines(), [os.path.realpath(folder / "out"), "workload 1"])

    def test_errors(self) -> None:
        """Each status with its class, its line and what is said of it."""
        for status, kind in ((1, opgen.Rejected), (2, opgen.Error), (3, opgen.Error), (4, opgen.Error), (5, opgen.Error), (6, opgen.Rejected),
                             (7, opgen.Rejected), (8, opgen.NotGood), (9, opgen.Rejected)):
            found = self.fault(f"echo 'row 7 not good'; exit {status}")
            self.assertEqual((type(found), found.status, found.line), (kind, status, "row 7 not good"))
        self.assertEqual(self.fault("echo 'row 7 not good'; exit 8").row, 7)
        self.assertEqual(self.fault("kill -s KILL $$").status, -signal.SIGKILL)

    def test_lines(self) -> None:
        """The cause without the word before it, and the line with the first line of its explanation."""
        found = self.fault("echo 'specification: PeriodTooShort 900'; exit 1")
        self.assertEqual(found.cause, "PeriodTooShort 900")
        self.assertEqual(self.fault("echo 'read fault'; exit 3").cause, "read fault")
        found = self.fault("echo told >&2; exit 37")
        self.assertEqual((found.cause, found.summary, str(found)), ("status 37", "told", "told"))
        found = opgen.Rejected(1, "specification: NotToml", "a.toml:1:1: why\n  what to do")
        self.assertEqual((found.summary, found.cause), ("specification: NotToml: a.toml:1:1: why", "NotToml"))
        self.assertEqual(opgen.Error(5, "", "").summary, "status 5")

    def test_lock(self) -> None:
        """A call that stores waits for the folder into which another one stores."""
        with folder_of({"out/kept": ""}) as folder:
            program = opgen.Program(stub(folder, "touch stored"))
            call = threading.Thread(target=program.call, args=("generate", "a.toml"), kwargs={"folder": folder / "out"})
            held = os.open(folder / "out", os.O_RDONLY)
            fcntl.flock(held, fcntl.LOCK_EX)
            call.start()
            call.join(1)
            self.assertEqual((call.is_alive(), (folder / "out/stored").exists()), (True, False))
            os.close(held)
            call.join(120)
            self.assertEqual((call.is_alive(), (folder / "out/stored").exists()), (False, True))

    def test_an_interrupt(self) -> None:
        """Ctrl-C in a user's Python ends what was called. numpy is not loaded for a call."""
        with folder_of({}) as folder:
            text = CALL.format(python=str(TOP / "python"), stub=str(stub(folder, SLEEPS)))
            started = subprocess.Popen([sys.executable, "-c", text], stderr=subprocess.PIPE, text=True,
                                       preexec_fn=lambda: signal.signal(signal.SIGINT, signal.default_int_handler))
            wait_for(folder / "pid", started)
            started.send_signal(signal.SIGINT)
            said = started.communicate(timeout=120)[1]
            self.assertTrue(said.rstrip().endswith("KeyboardInterrupt"), said)
            self.assertTrue(has_ended(int((folder / "pid").read_text())))

    def test_a_signal_while_a_process_starts(self) -> None:
        with folder_of({}) as folder:
            done = subprocess.run([sys.executable, "-c", STARTS.format(tools=str(TOOLS))], capture_output=True, text=True, timeout=120)
            self.assertEqual((done.returncode, done.stdout, done.stderr), (-signal.SIGTERM, "", ""))
            self.assertTrue(has_ended(int((folder / "pid").read_text())))


class Named(unittest.TestCase):
    """Which program is called."""

    def installed(self, folder: Path) -> Path:
        """The bin/opgen of an installation whose program is a stub that prints its words."""
        top = folder / "lib/opgen"
        (top / "bin").mkdir(parents=True)
        (top / "docs/help").mkdir(parents=True)
        shutil.copy(OPGEN, top / "bin/opgen")
        shutil.copy(TOP / "docs/help/opgen.txt", top / "docs/help/opgen.txt")
        shutil.copy(stub(folder, 'echo "stub $*"'), top / "program")
        return top / "bin/opgen"

    def test_another_front(self) -> None:
        """A bin/opgen that is named in place of a program is none that runs: its program is."""
        with folder_of({"a.toml": ""}) as folder:
            front = self.installed(folder)
            (folder / "link").symlink_to(front)
            for named in (front, folder / "link"):
                for words in (["generate", "a.toml"], ["check", "a", "b", "c", "0"]):
                    done = run(words, program=named, timeout=120)
                    self.assertEqual((done.returncode, done.stdout), (0, f"stub {' '.join(words)}\n"), done.stderr)
                    done = subprocess.run([named, *words], capture_output=True, text=True, timeout=120, env=os.environ | {"OPGEN_PROGRAM": str(named)})
                    self.assertEqual((done.returncode, done.stdout), (0, f"stub {' '.join(words)}\n"), done.stderr)
            path = f"{front.parent}:{os.environ['PATH']}"
            self.assertEqual(run(["workload", "1"], program=Path("opgen"), env={"PATH": path}, timeout=120).stdout, "stub workload 1\n")

    def test_of_a_tool(self) -> None:
        with folder_of({}) as folder:
            front = self.installed(folder)
            kept = os.environ.pop("OPGEN_PROGRAM", None)
            try:
                self.assertEqual(program.program_of(front).path, (front.parent.parent / "program").resolve())
            finally:
                os.environ.update({"OPGEN_PROGRAM": kept} if kept else {})
            self.assertEqual(program.built(folder / "stub"), (folder / "stub").resolve())
            with self.assertRaises(program.NoProgram):
                program.built(folder / "none")

    def test_the_module_beside(self) -> None:
        """A tool takes the module that is beside it, whatever else has its name."""
        with folder_of({"other/opgen/__init__.py": "raise SystemExit('another module')\n"}) as folder:
            done = subprocess.run([TOOLS / "sweep", "--help"], capture_output=True, text=True, env=os.environ | {"PYTHONPATH": str(folder / "other")})
            self.assertEqual((done.returncode, done.stderr), (0, ""))

    def test_one_way(self) -> None:
        """No tool but the explanation, which bin/opgen calls, runs the program's file itself."""
        for path in sorted(TOOLS.rglob("*")):
            if path.is_file() and not {"tests", "__pycache__"} & {*path.parts} and path.name not in ("again.py", "README.md"):
                text = path.read_text()
                found = re.findall(r'(?:run|process|Popen)\(\s*\[[^\]]*"(?:generate|vectors|simulate|check|workload)"', text)
                self.assertEqual(found, [], path.name)
                self.assertFalse(path.name != "program.py" and re.search(r"\bbuilt\(", text), path.name)


class Terminated(unittest.TestCase):
    """Each tool that has temporary files, ended while what it runs is at work, leaves nothing."""

    def ended(self, folder: Path, *words: object, name: str = "program") -> None:
        """Ends a tool once a command of this name runs, which does not end by itself."""
        for other in (name, "nextpnr-ice40", "yosys", "ghdl"):
            path = folder / "path" / other
            path.parent.mkdir(exist_ok=True)
            path.write_text(f"#!/bin/sh\n[ {other} = {name} ] || exit 1\ncd {folder} && {SLEEPS}\n")
            path.chmod(0o755)
        (folder / "temporary").mkdir(exist_ok=True)
        known = {"TMPDIR": str(folder / "temporary"), "PATH": f"{folder / 'path'}:{os.environ['PATH']}"}
        started = subprocess.Popen(list(map(str, words)), env=os.environ | known, stdout=subprocess.PIPE, stderr=subprocess.PIPE, text=True)
        wait_for(folder / "pid", started)
        started.terminate()
        out, said = started.communicate(timeout=120)
        self.assertEqual((started.returncode, out, said), (-signal.SIGTERM, "", ""), words)
        self.assertEqual(list((folder / "temporary").iterdir()), [], words)
        self.assertTrue(has_ended(int((folder / "pid").read_text())), words)
        (folder / "pid").unlink()

    def test_tools(self) -> None:
        with folder_of({}) as folder:
            of_program = ["--bin", folder / "path/program"]
            self.ended(folder, TOOLS / "sheet", EXAMPLES / "times3.toml", *of_program)
            self.ended(folder, TOOLS / "place", EXAMPLES / "times3.toml", *of_program)
            self.ended(folder, TOOLS / "rows", "draw", EXAMPLES / "times3.toml", *of_program)
            self.ended(folder, TOOLS / "sweep", EXAMPLES / "times3.toml", "width=4,5", "--jobs", "1", *of_program)
            self.ended(folder, TOOLS / "delays", "--device", "hx8k", name="yosys")
            self.ended(folder, TOOLS / "judge", EXAMPLES / "duty.vhd", EXAMPLES / "duty.vec", name="ghdl")
            self.ended(folder, TOOLS / "package", "--unproved", folder, name="cp")


if __name__ == "__main__":
    unittest.main()
