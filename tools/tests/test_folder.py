"""`-o FOLDER` of bin/opgen: what is stored goes there, files that are read are the caller's, and what is not plain is refused."""
import os
import shlex
import signal
import subprocess
import unittest
from pathlib import Path

from tests.faulty import SCALE
from tests.loading import has_ended
from tests.test_explain import NO_PROGRAM, OPGEN, PROGRAM, folder_of, run, stub

ROWS = "1\n2\n"
SHOW = 'pwd; printf "%s\\n" "$@"; exit 7'
USAGE = "usage: opgen COMMAND (generate, vectors, simulate, workload, check)\n"


@unittest.skipUnless(PROGRAM.exists(), NO_PROGRAM)
class Stored(unittest.TestCase):
    def test_all_that_store(self) -> None:
        with folder_of({"first.toml": SCALE, "h.in": ROWS, "out here/kept": ""}) as folder:
            out = folder / "out here"
            for words in (["generate", "first.toml", "-o", "out here", "--enable"], ["generate", "-o", str(out), "first.toml"],
                          ["vectors", "--seed", "3", "-o", "out here", "first.toml", "--cycles=4"],
                          ["simulate", "out here/first.vhd", "-o", "out here", "h.in", "h.out"]):
                done = run(words)
                self.assertEqual((done.returncode, done.stderr), (0, ""), words)
            self.assertEqual(sorted(path.name for path in out.iterdir()), ["first.rpt", "first.vec", "first.vhd", "h.out", "kept"])
            self.assertEqual(sorted(path.name for path in folder.iterdir()), ["first.toml", "h.in", "out here"])
            self.assertEqual((out / "h.out").read_text(), "1 : 03\n2 : 06\n")

    def test_refused(self) -> None:
        """The program refuses words that are not plain, and nothing is stored."""
        with folder_of({"first.toml": SCALE, "first.vhd": "", "h.in": ROWS, "out/kept": ""}) as folder:
            for words, why in (
                ("generate first.toml -o", "option -o has no folder; expected one, as -o out or -o ./-out"),
                ("generate first.toml -o ''", "option -o has no folder; expected one, as -o out or -o ./-out"),
                ("generate -o -x first.toml", "option -o has no folder; expected one, as -o out or -o ./-out"),
                ("generate -o out -o out first.toml", "option -o is there twice"),
                ("generate -o out", "too few words behind generate: found 0, expected 1, SPEC"),
                ("generate -o out first.toml first.toml", "too many words behind generate: found 2, expected 1, SPEC"),
                ("vectors first.toml --seed -o out", "--seed is '-o'; expected a whole number, 0 to 4294967295"),
                ("generate -oout first.toml", "generate has no option -oout; its options are --workers, --enable, -o"),
                ("simulate first.vhd h.in /tmp/h.out -o out", "OUT is '/tmp/h.out' beside -o; expected a name within that folder"),
                ("simulate first.vhd h.in ../h.out -o out", "OUT is '../h.out' beside -o; expected a name within that folder"),
                ("simulate first.vhd h.in a/.. -o out", "OUT is 'a/..' beside -o; expected a name within that folder"),
                ("check first.toml first.vhd h.in 0 -o out", "check stores no file, and has no option -o"),
                ("workload 1 -o out", "workload stores no file, and has no option -o"),
            ):
                done = run(shlex.split(words))
                self.assertEqual((done.returncode, done.stdout), (2, USAGE), words)
                self.assertEqual(done.stderr.splitlines()[0], f"opgen: {why}")
            self.assertEqual(sorted(path.name for path in folder.rglob("*")), ["first.toml", "first.vhd", "h.in", "kept", "out"])

    def test_statuses(self) -> None:
        """Refusals are explained by the caller's names; a folder that is not there is status 4."""
        with folder_of({"first.toml": SCALE, "bad.toml": SCALE.replace("= 4", "= 0"), "out/first.rpt/a": ""}):
            for words, status, line, said in (
                ("generate bad.toml -o out", 1, "specification: OutOfRange width 0\n", "bad.toml:8:9: width is 0; expected 1 to 32\n"),
                ("generate no.toml -o out", 3, "read fault\n", "cannot open no.toml: no such file\n"),
                ("generate first.toml -o out", 4, "", "cannot write out/first.rpt: a folder has this name\n"),
                ("generate first.toml -o none", 4, "", "opgen: cannot write into none: there is no such folder\n"),
                ("generate first.toml -o bad.toml", 4, "", "opgen: cannot write into bad.toml: there is no such folder\n"),
            ):
                done = run(words.split())
                self.assertEqual((done.returncode, done.stdout, done.stderr), (status, line, said), words)


class Passed(unittest.TestCase):
    """What the program is given, whatever it is."""

    def given(self, words: list[str], **other) -> list[str]:
        """The folder in which the program runs, and its words."""
        return run(words, **other).stdout.splitlines()

    def test_words(self) -> None:
        with folder_of({"out/kept": ""}) as folder:
            program = stub(folder, SHOW)
            here, out = os.path.realpath(folder), os.path.realpath(folder / "out")
            for words, passed in (
                (["generate", "a b.toml", "-o", "out"], [out, "generate", f"{here}/a b.toml"]),
                (["generate", "/a.toml", "-o", "out"], [out, "generate", "/a.toml"]),
                (["generate", "-o", "out", "--", "-o"], [out, "generate", "--", f"{here}/-o"]),
                (["vectors", "--seed", "7", "a", "-o", "out"], [out, "vectors", "--seed", "7", f"{here}/a"]),
                (["simulate", "a", "-", "b", "-o", "out"], [out, "simulate", f"{here}/a", f"{here}/-", "b"]),
                (["simulate", "a", "", "b/c", "-o", "out"], [out, "simulate", f"{here}/a", "", "b/c"]),
                (["generate", "--", "a", "-o", "out"], [here, "generate", "--", "a", "-o", "out"]),
                (["check", "a", "b", "c", "0", "-o", "out"], [here, "check", "a", "b", "c", "0", "-o", "out"]),
                (["genrate", "a", "-o", "out"], [here, "genrate", "a", "-o", "out"]),
            ):
                self.assertEqual(self.given(words, program=program), passed)
            self.assertEqual(self.given(["generate", "a", "-o", "out"], program=Path("stub"), env={"CDPATH": "/"}),
                             [out, "generate", f"{here}/a"])

    def test_streams_and_status(self) -> None:
        with folder_of({"out/kept": ""}) as folder:
            program = stub(folder, 'read line; echo "out $line"; echo "err" >&2; exit 37')
            done = run(["generate", "a", "-o", "out"], program=program, input="in\n")
            self.assertEqual((done.returncode, done.stdout, done.stderr), (37, "out in\n", "err\n"))
            done = subprocess.run(["sh", "-c", f"{OPGEN} generate a -o out <&-"], capture_output=True, text=True,
                                  env=os.environ | {"OPGEN_PROGRAM": str(program)})
            self.assertEqual((done.returncode, done.stdout), (37, "out \n"))

    def test_signals(self) -> None:
        for number in (signal.SIGTERM, signal.SIGINT, signal.SIGHUP):
            with self.subTest(number), folder_of({"out/kept": ""}) as folder:
                program = stub(folder, "echo $$\nexec sleep 100")
                started = subprocess.Popen([OPGEN, "generate", "a", "-o", "out"], stdout=subprocess.PIPE, text=True,
                                           preexec_fn=lambda: signal.signal(number, signal.SIG_DFL),
                                           env=os.environ | {"OPGEN_PROGRAM": str(program)})
                child = int(started.stdout.readline())
                started.send_signal(number)
                self.assertEqual(started.wait(timeout=120), -number)
                self.assertTrue(has_ended(child))
                started.stdout.close()


if __name__ == "__main__":
    unittest.main()
