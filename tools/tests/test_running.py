"""Tests of how tools write files and end: a failed write leaves the old file, messages name the file that failed, a closed output is
status 1, and a signal leaves nothing behind."""
import os
import signal
import stat
import subprocess
import sys
import tempfile
import time
import unittest
from pathlib import Path
from unittest import mock

from opgenlib import running, storing
from tests import loading
from tests.loading import EXAMPLES, TOOLS, has_ended

OPGEN = TOOLS.parent / "bin/opgen"


class Folder(unittest.TestCase):
    """A folder of its own."""

    def setUp(self) -> None:
        place = tempfile.TemporaryDirectory()
        self.addCleanup(place.cleanup)
        self.folder = Path(place.name)

    def names(self) -> list[str]:
        return sorted(path.name for path in self.folder.iterdir())


class Stored(Folder):
    """What `store` leaves."""

    def test_failed_write(self) -> None:
        path = self.folder / "old.txt"
        path.write_text("old")
        for failing in ("fchmod", "replace"):
            with mock.patch(f"os.{failing}", side_effect=OSError(28, "No space left on device")), self.assertRaises(OSError) as found:
                storing.store(path, "new")
            self.assertEqual((found.exception.filename, found.exception.errno), (str(path), 28))
            self.assertEqual((path.read_text(), self.names()), ("old", ["old.txt"]))

    def test_ended_write(self) -> None:
        path = self.folder / "old.txt"
        path.write_text("old")
        with mock.patch("os.replace", side_effect=running.Ended), self.assertRaises(running.Ended):
            storing.store(path, "new")
        self.assertEqual((path.read_text(), self.names()), ("old", ["old.txt"]))

    def test_rights_and_links(self) -> None:
        path, link = self.folder / "old.txt", self.folder / "link.txt"
        path.write_text("old")
        path.chmod(0o640)
        link.symlink_to("old.txt")
        storing.store(link, "new")
        self.assertTrue(link.is_symlink())
        self.assertEqual((path.read_text(), stat.S_IMODE(path.stat().st_mode)), ("new", 0o640))
        before = os.umask(0o027)
        self.addCleanup(os.umask, before)
        storing.store(self.folder / "new.txt", "new")
        self.assertEqual(stat.S_IMODE((self.folder / "new.txt").stat().st_mode), 0o640)

    def test_folders(self) -> None:
        for path in (self.folder, self.folder / "none/new.txt"):
            with self.assertRaises(OSError) as found:
                storing.store(path, "new")
            self.assertEqual(found.exception.filename, str(path))

    def test_pipe(self) -> None:
        pipe = self.folder / "pipe"
        os.mkfifo(pipe)
        reader = subprocess.Popen(["cat", pipe], stdout=subprocess.PIPE, text=True)
        storing.store(pipe, "new")
        self.assertEqual(reader.communicate(), ("new", None))
        self.assertTrue(stat.S_ISFIFO(pipe.stat().st_mode))


class Outputs(Folder):
    """A tool whose output cannot be written, or whose file cannot."""

    def status(self, command: str) -> tuple[int, str]:
        """The status of a shell's command, in which TOOL and EXAMPLES are folders, and what it says."""
        known = os.environ | {"TOOLS": str(TOOLS), "EXAMPLES": str(EXAMPLES), "TMPDIR": str(self.folder)}
        done = subprocess.run(["bash", "-c", command], capture_output=True, text=True, env=known, cwd=self.folder)
        return done.returncode, done.stderr

    def test_closed_output(self) -> None:
        for words in ("report $EXAMPLES/times3.rpt", "pictures chain $EXAMPLES/weeks.toml", "verilog.py $EXAMPLES/times3.vhd",
                      "rows draw $EXAMPLES/times3.toml", "check-schema", "wrap --help", "place --help"):
            self.assertEqual(self.status(f"$TOOLS/{words} 2>/dev/null >&-")[0], 1, words)

    def test_full_output(self) -> None:
        status, said = self.status("$TOOLS/report $EXAMPLES/times3.rpt >/dev/full")
        self.assertEqual((status, said), (1, "report: cannot write standard output: No space left on device\n"))

    def test_a_reader_that_ends(self) -> None:
        for words in ("rows draw --cycles 50000 $EXAMPLES/times3.toml 2>/dev/null", "verilog.py $EXAMPLES/lowpass.vhd",
                      "pictures schedule $EXAMPLES/magnitude.toml", "sweep --help", "report --json $EXAMPLES/transform.rpt"):
            status, said = self.status(f"set -o pipefail; $TOOLS/{words} | head -c 1 >/dev/null")
            self.assertIn(status, (0, 1), words)
            self.assertEqual(said, "", words)

    def test_the_file_that_failed(self) -> None:
        (self.folder / "old.svg").write_text("old")
        full = "ulimit -f 0; trap '' XFSZ;"
        status, said = self.status(f"{full} $TOOLS/pictures schedule $EXAMPLES/magnitude.toml -o old.svg")
        self.assertEqual((status, said), (1, "pictures: old.svg: File too large\n"))
        status, said = self.status(f"{full} $TOOLS/rows decode $EXAMPLES/times3.rpt $EXAMPLES/times3.out -o new.csv")
        self.assertEqual((status, said), (1, "rows: new.csv: File too large\n"))
        self.assertEqual(self.status("$TOOLS/wrap -o none $EXAMPLES/duty")[1].partition(":")[2].split(": ")[0], " none/duty_wrap.vhd")
        self.assertEqual((self.names(), (self.folder / "old.svg").read_text()), (["old.svg"], "old"))

    def test_temporary_files(self) -> None:
        """Without a place for temporary files, and where one cannot be written, that is said and not that the output failed."""
        status, said = self.status("ulimit -f 0; trap '' XFSZ; $TOOLS/sheet $EXAMPLES/times3.toml -o new.html")
        self.assertEqual((status, said[:46]), (1, "sheet: No usable temporary directory found in "))
        status, said = self.status("ulimit -f 0; trap '' XFSZ; $TOOLS/rows draw $EXAMPLES/times3.toml -o new.in")
        self.assertEqual((status, said[:45]), (1, "rows: No usable temporary directory found in "))
        (self.folder / "ghdl").write_text("#!/bin/sh\nexit 1\n")
        (self.folder / "ghdl").chmod(0o755)
        status, said = self.status("ulimit -f 1; trap '' XFSZ; PATH=$PWD:$PATH $TOOLS/judge $EXAMPLES/duty.vhd $EXAMPLES/duty.vec")
        self.assertEqual(status, 2)
        self.assertRegex(said, r"\Ajudge: \S+/bench\.vhd: File too large\n\Z")
        self.assertEqual(self.names(), ["ghdl"])

    def test_sheet_leaves_the_old_one(self) -> None:
        (self.folder / "old.html").write_text("old")
        replace = os.replace

        def fail(name: str, place: Path) -> None:
            if str(place).endswith("old.html"):
                raise OSError(28, "No space left on device")
            replace(name, place)

        with mock.patch("os.replace", side_effect=fail):
            words = ["--no-yosys", EXAMPLES / "times3.toml", "-o", self.folder / "old.html"]
            status, out, said = loading.run(loading.tool_of("sheet"), *words)
        self.assertEqual((status, out, said), (1, "", f"sheet: {self.folder}/old.html: No space left on device\n"))
        self.assertEqual((self.folder / "old.html").read_text(), "old")


class Ends(Folder):
    """A tool that a signal ends."""

    def ended(self, number: int, is_group: bool) -> subprocess.Popen:
        """A sweep of a program that does not end, ended by a signal."""
        program = self.folder / "program"
        program.write_text(f"#!/bin/sh\nsleep 1000 &\necho $! >{self.folder}/$(basename $PWD).pid.new\n"
                           f"mv {self.folder}/$(basename $PWD).pid.new {self.folder}/$(basename $PWD).pid; wait\n")
        program.chmod(0o755)
        (self.folder / "temporary").mkdir()
        words = [TOOLS / "sweep", EXAMPLES / "times3.toml", "width=4:12", "--opgen", program, "--jobs", "2", "-o", self.folder / "runs"]
        known = os.environ | {"TMPDIR": str(self.folder / "temporary")}
        started = subprocess.Popen(words, env=known, stdout=subprocess.PIPE, stderr=subprocess.PIPE, text=True, start_new_session=True,
                                   preexec_fn=lambda: signal.signal(number, signal.SIG_DFL))
        while len(list(self.folder.glob("*.pid"))) < 2 and started.poll() is None:
            time.sleep(0.01)
        (os.killpg if is_group else os.kill)(started.pid, number)
        return started

    def test_signals(self) -> None:
        for number, is_group in ((signal.SIGTERM, False), (signal.SIGINT, True), (signal.SIGHUP, False)):
            with self.subTest(number):
                self.setUp()
                started = self.ended(number, is_group)
                out, said = started.communicate(timeout=60)
                self.assertEqual((started.returncode, out, said), (-number, "", ""))
                self.assertEqual(list((self.folder / "temporary").iterdir()), [])
                pids = [int(path.read_text()) for path in self.folder.glob("*.pid")]
                self.assertEqual(len(pids), 2)
                for pid in pids:
                    self.assertTrue(has_ended(pid))

    def test_temporary_folder(self) -> None:
        """A sheet that is ended while the program runs leaves nothing."""
        program = self.folder / "program"
        program.write_text(f"#!/bin/sh\ntouch {self.folder}/runs; exec sleep 1000\n")
        program.chmod(0o755)
        (self.folder / "temporary").mkdir()
        started = subprocess.Popen([sys.executable, TOOLS / "sheet", "--bin", program, EXAMPLES / "times3.toml"], cwd=self.folder,
                                   env=os.environ | {"TMPDIR": str(self.folder / "temporary")}, stderr=subprocess.PIPE, text=True)
        while not (self.folder / "runs").exists() and started.poll() is None:
            time.sleep(0.01)
        started.terminate()
        self.assertEqual((started.communicate(timeout=60)[1], started.returncode), ("", -signal.SIGTERM))
        self.assertEqual(list((self.folder / "temporary").iterdir()), [])


class Quiet(Folder):
    """Ctrl-C while a tool is still being loaded."""

    def test_loading(self) -> None:
        (self.folder / "argparse.py").write_text("import os, signal\nos.kill(os.getpid(), signal.SIGINT)\nraise SystemExit('a trace')\n")
        for tool in ("pictures", "place", "report", "rows", "sheet", "sweep", "wrap", "delays"):
            done = subprocess.run([TOOLS / tool, "--help"], capture_output=True, text=True, env=os.environ | {"PYTHONPATH": str(self.folder)},
                                  preexec_fn=lambda: signal.signal(signal.SIGINT, signal.SIG_DFL))
            self.assertEqual((done.returncode, done.stdout, done.stderr), (-signal.SIGINT, "", ""), tool)

    def test_a_module(self) -> None:
        """A script elsewhere that takes a tool as a module is interrupted as any other, and so removes its temporary files."""
        text = f"import sys; sys.path.insert(0, {str(TOOLS)!r}); import signal, verilog; print(signal.getsignal(2) is signal.default_int_handler)"
        (self.folder / "script.py").write_text(text)
        done = subprocess.run([sys.executable, self.folder / "script.py"], capture_output=True, text=True,
                              preexec_fn=lambda: signal.signal(signal.SIGINT, signal.SIG_DFL))
        self.assertEqual((done.stdout, done.stderr), ("True\n", ""))

    def test_ignored(self) -> None:
        """A signal that the caller ignores stays so."""
        (self.folder / "argparse.py").write_text("import os, signal\nos.kill(os.getpid(), signal.SIGINT)\nraise SystemExit('goes on')\n")
        done = subprocess.run([TOOLS / "rows", "--help"], capture_output=True, text=True, env=os.environ | {"PYTHONPATH": str(self.folder)},
                              preexec_fn=lambda: signal.signal(signal.SIGINT, signal.SIG_IGN))
        self.assertEqual((done.returncode, done.stderr), (1, "goes on\n"))


class Progress(Folder):
    def test_sweep(self) -> None:
        """Each run has a line on standard error, and none on standard output."""
        words = [TOOLS / "sweep", EXAMPLES / "times3.toml", "width=4,5", "--no-yosys", "--csv", "-o", self.folder / "runs"]
        done = subprocess.run(words, capture_output=True, text=True, env=os.environ | {"OPGEN": str(OPGEN)})
        self.assertEqual(sorted(done.stderr.splitlines()), ["sweep: 0001 of 2: ok", "sweep: 0002 of 2: ok"])
        self.assertEqual(len(done.stdout.splitlines()), 3)


if __name__ == "__main__":
    unittest.main()
