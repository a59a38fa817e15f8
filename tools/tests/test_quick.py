"""Tests of .ci/quick and .ci/run in a checkout whose steps only say what they were given."""
import hashlib
import os
import re
import shutil
import subprocess
import tempfile
import unittest
from pathlib import Path

TOP = Path(__file__).resolve().parent.parent.parent
STEPS = ("exhaustive", "cases", "keys", "tools", "judged", "stores", "limits", "examples", "wrappers", "docs", "manual")
# A step says its program, and fails where FAILS names it.
STEP = """\
#!/bin/sh
echo "$(basename "$0") over $OPGEN_PROGRAM"
[ "$FAILS" != "$(basename "$0")" ]
"""
OPGEN = """\
#!/bin/sh
case $1 in
--program) [ -z "$NONE" ] && echo "${OPGEN_PROGRAM:-$PROGRAM}" ;;
--version) echo "opgen 7.1 of $OPGEN_PROGRAM" ;;
prove) echo proved && [ -z "$NONE" ] ;;
esac
"""
# `rt ci` makes the program, and may change a source or the kit, or fail.
RT = """\
#!/bin/sh
echo "rt $*"
[ -n "$LEAVES_NONE" ] || { printf '#!/bin/sh\\n' >crates/opgen/out/opgen && chmod +x crates/opgen/out/opgen; }
[ -z "$EDITS" ] || echo "// edited" >>crates/opgen/src/main.rt
[ -z "$KIT" ] || echo "$KIT" >"$(dirname "$0")/../KIT-ID"
[ -z "$UNPROVED" ]
"""
SHELL_TOOLS = ("bash", "env", "python3", "sh", "dirname", "basename", "rm", "readlink", "cat", "chmod", "cut", "find", "sha256sum", "sort", "xargs")


def without_seconds(lines: list[str]) -> list[str]:
    """The lines without the time that a step took, which is longer beside other work."""
    return [re.sub(r" in \d+ s$", "", line) for line in lines]


class Steps(unittest.TestCase):
    def setUp(self) -> None:
        self.folder = Path(tempfile.mkdtemp())
        self.addCleanup(shutil.rmtree, self.folder)
        for name in ("top/.ci", "top/bin", "top/bench", "top/crates/opgen/out", "top/crates/opgen/src", "path"):
            (self.folder / name).mkdir(parents=True)
        self.top = self.folder / "top"
        for name in ("tools/opgenlib", "python"):
            shutil.copytree(TOP / name, self.top / name, ignore=shutil.ignore_patterns("__pycache__"))
        for name in (".ci/quick", ".ci/run", "bin/made-from", "bin/digest-sources"):
            shutil.copy(TOP / name, self.top / name)
        for name in ("crates/opgen/src/main.rt", "crates.txt", "HANDLES", "../KIT-ID"):
            (self.top / name).write_text(f"{name}\n")
        made = [(self.top / ".ci" / name, STEP) for name in STEPS]
        made += [(self.top / "bench/refused-memory", STEP), (self.top / "bin/opgen", OPGEN), (self.folder / "path/rt", RT)]
        made += [(self.top / "crates/opgen/out/opgen", STEP)]
        for path, text in made:
            path.write_text(text)
            path.chmod(0o755)
        self.program = str(self.top / "crates/opgen/out/opgen")
        for tool in SHELL_TOOLS:
            (self.folder / "path" / tool).symlink_to(shutil.which(tool))
        self.add("cc")

    def add(self, tool: str) -> None:
        (self.folder / "path" / tool).write_text("#!/bin/sh\n")
        (self.folder / "path" / tool).chmod(0o755)

    def run_script(self, *words: str, **environment: str) -> tuple[int, list[str]]:
        """The status of a script and its lines."""
        clean = {"PATH": str(self.folder / "path"), "PROGRAM": self.program}
        done = subprocess.run([self.top / ".ci" / words[0], *words[1:]], stdin=subprocess.DEVNULL, stdout=subprocess.PIPE,
                              stderr=subprocess.STDOUT, text=True, env=clean | environment)
        return done.returncode, done.stdout.splitlines()

    def test_all(self) -> None:
        status, lines = self.run_script("quick")
        self.assertEqual((status, lines[0], lines[-1]), (0, f"opgen 7.1 of {self.program}", "12 passed, 0 failed"))
        for step in (*STEPS, "refused-memory"):
            self.assertIn(f"{step} over {self.program}", lines)
            self.assertIn(f"quick: {step} passed", without_seconds(lines))

    def test_a_step_fails(self) -> None:
        status, lines = self.run_script("quick", FAILS="limits")
        self.assertEqual((status, lines[-1]), (1, "11 passed, 1 failed"))
        self.assertIn("quick: limits FAILED with status 1", without_seconds(lines))

    def test_without_cc(self) -> None:
        (self.folder / "path/cc").unlink()
        status, lines = self.run_script("quick")
        self.assertEqual((status, lines[-1]), (0, "11 passed, 0 failed"))
        self.assertIn("left out: refused-memory, since there is no cc", lines)
        self.assertEqual(lines[-2], "quick: 1 left out for want of a tool or a right; refused-memory, since there is no cc")

    def test_what_steps_leave_out(self) -> None:
        """The last line but one counts what each step says that it left out, of the gate too."""
        (self.folder / "path/cc").unlink()
        self.assertEqual(self.run_script("quick", "docs")[1][-2:], ["quick: 0 left out for want of a tool or a right", "1 passed, 0 failed"])
        for name, part in (("wrappers", "lint, since there is no verilator"), ("manual", "faults, since there is no man")):
            (self.top / ".ci" / name).write_text(f"{STEP}echo 'left out: {part}'\n")
        counted = ("quick: 3 left out for want of a tool or a right; faults, since there is no man; lint, since there is no verilator; "
                   "refused-memory, since there is no cc")
        for script in ("quick", "run"):
            status, lines = self.run_script(script)
            self.assertEqual((status, lines[-2:]), (0, [counted, "11 passed, 0 failed"]))

    def test_the_page_without_man(self) -> None:
        """A step of this checkout says in that form what it leaves out."""
        for tool in ("sed", "awk", "diff"):
            (self.folder / "path" / tool).symlink_to(shutil.which(tool))
        done = subprocess.run([TOP / ".ci/manual"], env={"PATH": str(self.folder / "path")}, capture_output=True, text=True)
        self.assertIn("left out: faults of the manual page, since there is no man\n", done.stdout)

    def test_some(self) -> None:
        self.assertEqual(self.run_script("quick", "docs", "cases")[1][-1], "2 passed, 0 failed")
        self.assertEqual(self.run_script("quick", "proofs")[0], 2)

    def test_without_a_program(self) -> None:
        status, lines = self.run_script("quick", NONE="1")
        self.assertEqual((status, lines[-1]), (1, "0 passed, 1 failed"))

    def record(self) -> str:
        """What is recorded of the proved program, nothing where no record is."""
        path = self.top / "crates/opgen/out/opgen.built"
        return path.read_text() if path.exists() else ""

    def test_the_gate(self) -> None:
        """First the proofs, then the same steps on the proved program, which is recorded with what it was built from."""
        path = self.top / "crates/opgen/out/opgen.built"
        path.write_text("earlier\n")
        status, lines = self.run_script("run", OPGEN_PROGRAM="another")
        self.assertEqual((status, lines[:3], lines[-1]),
                         (0, ["rt ci", "proved", f"opgen 7.1 of {self.program}"], "12 passed, 0 failed"))
        digest = subprocess.run([self.top / "bin/digest-sources"], capture_output=True, text=True).stdout.strip()
        program = hashlib.sha256(b"#!/bin/sh\n").hexdigest()
        self.assertEqual(self.record(), f"sources {digest}\nkit ../KIT-ID\nprogram {program}\n")

    def test_the_gate_fails(self) -> None:
        self.assertEqual(self.run_script("run", UNPROVED="1"), (1, ["rt ci"]))
        self.assertEqual(self.record(), "")
        self.assertEqual(self.run_script("run", NONE="1"), (1, ["rt ci", "proved", "run: no proved program", "0 passed, 1 failed"]))
        status, lines = self.run_script("run", FAILS="cases")
        self.assertEqual((status, lines[-1]), (1, "11 passed, 1 failed"))

    def test_other_sources_than_those_that_were_proved(self) -> None:
        """Where a source or the kit changes while `rt ci` runs, nothing is recorded, and the gate fails."""
        said = "run: the sources or the kit changed while rt ci ran: run this again"
        for environment in ({"EDITS": "1"}, {"KIT": "kit 2"}):
            self.assertEqual(self.run_script("run", **environment), (1, ["rt ci", said, "0 passed, 1 failed"]))
            self.assertEqual(self.record(), "")

    def test_a_program_from_elsewhere(self) -> None:
        """A program that was there before `rt ci`, and that it did not make, is not recorded."""
        status, lines = self.run_script("run", LEAVES_NONE="1")
        self.assertEqual((status, lines), (1, ["rt ci", "proved", f"quick: {self.program} is no program", "0 passed, 1 failed"]))
        self.assertEqual((self.record(), Path(self.program).exists()), ("", False))

    def test_each_step_is_there(self) -> None:
        """Each script of .ci is a step, but the two that run them and the part of one."""
        scripts = {path.name for path in (TOP / ".ci").iterdir() if os.access(path, os.X_OK)}
        self.assertEqual(scripts - {"quick", "run", "manual-commands"}, set(STEPS))


if __name__ == "__main__":
    unittest.main()
