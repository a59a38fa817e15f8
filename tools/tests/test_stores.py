"""Tests of stores by bin/opgen: limits of the system, files that killed runs have left, standard output as OUT, and two runs at once."""
import os
import re
import resource
import signal
import subprocess
import time
import unittest
from pathlib import Path

from tests.faulty import SCALE
from tests.test_explain import NO_PROGRAM, OPGEN, PROGRAM, folder_of, run, stub

ROWS = "1\n2\n"
TEXT = "1 : 03\n2 : 06\n"
LINE = "simulated 2 cycles\n"


def leave(folder: Path, name: str, numbers: range, is_old: bool = True) -> None:
    """Leaves new files of a store, as killed runs do, two minutes ago or now."""
    made = time.time() - (120 if is_old else 0)
    for number in numbers:
        path = folder / f".{name}.opgen-{number}"
        path.write_bytes(b"")
        os.utime(path, (made, made))


def left(folder: Path) -> list[str]:
    """The names in a folder that begin with a dot."""
    return sorted(path.name for path in folder.iterdir() if path.name.startswith("."))


@unittest.skipUnless(PROGRAM.exists(), NO_PROGRAM)
class Limits(unittest.TestCase):
    """Limits under which the program runs."""

    def test_size_of_a_file(self) -> None:
        """A store over the limit fails with status 4, and leaves the old file alone."""

        def limit() -> None:
            signal.signal(signal.SIGXFSZ, signal.SIG_DFL)
            resource.setrlimit(resource.RLIMIT_FSIZE, (16, 16))

        with folder_of({"first.toml": SCALE, "first.vhd": "old"}) as folder:
            done = run(["generate", "first.toml"], preexec_fn=limit, restore_signals=False)
            self.assertEqual((done.returncode, done.stdout), (4, ""))
            self.assertEqual(done.stderr, "cannot write first.vhd in this folder: files are limited to 16 bytes (ulimit -f)\n")
            self.assertEqual(sorted(path.name for path in folder.iterdir()), ["first.toml", "first.vhd"])
            self.assertEqual((folder / "first.vhd").read_text(), "old")

    def test_size_of_the_stack(self) -> None:
        def limit() -> None:
            resource.setrlimit(resource.RLIMIT_STACK, (1 << 20, 1 << 20))
            resource.setrlimit(resource.RLIMIT_CORE, (0, 0))

        with folder_of({}) as folder:
            program = stub(folder, "kill -s SEGV $$")
            done = run(["generate"], program=program, preexec_fn=limit)
            self.assertEqual((done.returncode, done.stdout), (-signal.SIGSEGV, ""))
            said = "opgen: signal 11 ended the program, whose stack may have 1024 KB at most: write ulimit -s 8192 before\n"
            self.assertIn(said, done.stderr)
            done = run(["generate"], program=program)
            self.assertEqual((done.returncode, done.stdout), (-signal.SIGSEGV, ""))
            self.assertIn("opgen: signal 11 ended the program", done.stderr)


@unittest.skipUnless(PROGRAM.exists(), NO_PROGRAM)
class Leftovers(unittest.TestCase):
    """Files that killed runs have left."""

    def test_removed(self) -> None:
        """Old ones under the names of what is stored go, in its folder; all others stay."""
        with folder_of({"first.toml": SCALE, "first.vhd": "", "h.in": ROWS, "out/kept": ""}) as folder:
            for place in (folder, folder / "out"):
                for name in ("first.vhd", "first.rpt", "first.vec", "other.vhd", "h.out"):
                    leave(place, name, range(1, 3))
            run(["generate", "first.toml", "-o", "out"])
            gone = {f".first.{ending}.opgen-{number}" for ending in ("vhd", "rpt") for number in (1, 2)}
            self.assertEqual(len(left(folder)), 10)
            self.assertEqual(set(left(folder)) - set(left(folder / "out")), gone)
            run(["vectors", "first.toml"])
            self.assertEqual([name for name in left(folder) if name.startswith(".first.vec")], [])
            run(["simulate", "out/first.vhd", "h.in", "h.out"])
            self.assertEqual([name for name in left(folder) if name.startswith(".h.out")], [])
            self.assertEqual(len(left(folder)), 6)

    def test_kept(self) -> None:
        """One that is open, one of just now, a link, a folder and a name that is not quite such a one stay."""
        with folder_of({"first.toml": SCALE}) as folder:
            leave(folder, "first.vec", range(1, 3))
            leave(folder, "first.vec", range(3, 4), is_old=False)
            leave(folder, "first.vec", range(1000, 1001))
            (folder / "first.vec.opgen-5").write_text("")
            (folder / ".first.vec.opgen-4").symlink_to("first.vec.opgen-5")
            (folder / ".first.vec.opgen-6").mkdir()
            (folder / ".first.vec.opgen-7x").write_text("")
            before = left(folder)
            for path in folder.iterdir():
                os.utime(path, (1, 1), follow_symlinks=False) if "opgen-3" not in path.name else None
            with open(folder / ".first.vec.opgen-2"):
                self.assertEqual(run(["vectors", "first.toml"]).returncode, 0)
            self.assertEqual(left(folder), [name for name in before if name != ".first.vec.opgen-1"])

    def test_a_hundred(self) -> None:
        with folder_of({"first.toml": SCALE}) as folder:
            leave(folder, "first.vhd", range(1, 101), is_old=False)
            done = run(["generate", "first.toml"])
            self.assertEqual((done.returncode, done.stdout), (4, ""))
            self.assertEqual(done.stderr, "cannot write first.vhd in this folder: its new file has no free name: "
                             f"remove .first.vhd.opgen-1 to .first.vhd.opgen-100 in {os.path.realpath(folder)}, "
                             "which killed runs have left\n")
            leave(folder, "first.vhd", range(1, 101))
            self.assertEqual(run(["generate", "first.toml"]).returncode, 0)
            self.assertEqual(left(folder), [])


@unittest.skipUnless(PROGRAM.exists(), NO_PROGRAM)
class Output(unittest.TestCase):
    """Standard output as OUT."""

    def status(self, command: str) -> tuple[int, str]:
        """The status of a shell's command, and what it says."""
        known = os.environ | {"OPGEN_PROGRAM": str(PROGRAM), "OPGEN": str(OPGEN)}
        done = subprocess.run(["sh", "-c", command], capture_output=True, text=True, env=known)
        return done.returncode, done.stderr

    def test_a_file(self) -> None:
        with folder_of({"first.toml": SCALE, "h.in": ROWS, "log": "old\n"}) as folder:
            run(["generate", "first.toml"])
            (folder / "link").symlink_to("/dev/stdout")
            for out in ("/dev/stdout", "/dev/fd/1", "/proc/self/fd/1", "link"):
                for into in (">>log", "1<>log"):
                    status, said = self.status(f"$OPGEN simulate first.vhd h.in {out} {into}")
                    self.assertEqual((status, (folder / "log").read_text()), (4, "old\n"), out)
                    self.assertTrue(said.startswith(f"opgen: cannot write rows into {out}: standard output is a file"), said)

    def test_others(self) -> None:
        """A pipe has rows and line; a file of its own name has the rows."""
        with folder_of({"first.toml": SCALE, "h.in": ROWS}) as folder:
            run(["generate", "first.toml"])
            self.assertEqual(self.status("$OPGEN simulate first.vhd h.in /dev/stdout | cat >log"), (0, ""))
            self.assertEqual((folder / "log").read_text(), TEXT + LINE)
            self.assertEqual(self.status("$OPGEN simulate first.vhd h.in h.out >log"), (0, ""))
            self.assertEqual(((folder / "h.out").read_text(), (folder / "log").read_text()), (TEXT, LINE))
            self.assertEqual(self.status("$OPGEN simulate first.vhd /dev/stdout >log")[0], 2)


class Locks(unittest.TestCase):
    """Runs at once, of a program that says when it begins and ends."""

    def order(self, words: list[str], environment: dict[str, str] | None = None) -> list[str]:
        """What two runs say, in its order."""
        with folder_of({"a": "", "b": ""}) as folder:
            program = stub(folder, "echo $$ >>log; sleep 1; echo $$ >>log")
            known = os.environ | {"OPGEN_PROGRAM": str(program)} | (environment or {})
            both = [subprocess.Popen([OPGEN, *words, name], env=known) for name in ("a", "b")]
            self.assertEqual([started.wait() for started in both], [0, 0])
            return (folder / "log").read_text().split()

    def test_generate(self) -> None:
        """One run of `generate` ends before the next begins."""
        first, second, third, fourth = self.order(["generate"])
        self.assertEqual((first, third), (second, fourth))

    def test_without_flock(self) -> None:
        with folder_of({"a": "", "tools/kept": ""}) as folder:
            for name in ("sh", "dirname", "readlink", "sed", "head"):
                found = subprocess.run(["sh", "-c", f"command -v {name}"], capture_output=True, text=True, check=True)
                (folder / "tools" / name).symlink_to(found.stdout.strip())
            done = run(["generate", "a"], program=stub(folder, "echo out"), env={"PATH": str(folder / "tools")})
            self.assertEqual((done.returncode, done.stdout, done.stderr), (0, "out\n", ""))

    def test_a_folder_without_permission(self) -> None:
        """A folder that cannot be written, or cannot be read, has the status of the program."""
        with folder_of({"a": "", "out/kept": ""}) as folder:
            program = stub(folder, "echo out; exit 4")
            for mode in (0o555, 0o333):
                (folder / "out").chmod(mode)
                done = run(["generate", "a", "-o", "out"], program=program)
                (folder / "out").chmod(0o755)
                self.assertEqual((done.returncode, done.stdout), (4, "out\n"))

    def test_a_descriptor_of_the_caller(self) -> None:
        """A file that the caller names by the descriptor that the lock would take is that file."""
        with folder_of({"a": "text\n"}) as folder:
            program = stub(folder, 'cat "$2"')
            done = subprocess.run(["sh", "-c", f"{OPGEN} generate /dev/fd/9 9<a"], capture_output=True, text=True,
                                  env=os.environ | {"OPGEN_PROGRAM": str(program)})
            self.assertEqual((done.returncode, re.sub(r"\s", "", done.stdout)), (0, "text"))


if __name__ == "__main__":
    unittest.main()
