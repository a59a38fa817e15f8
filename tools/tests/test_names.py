"""Tests that bin/opgen warns of the name of a circuit that later editions of VHDL reserve."""
import re
import shutil
import subprocess
import unittest
from pathlib import Path

from tests.test_explain import NO_PROGRAM, PROGRAM, TOP, folder_of, run, stub

SPECIFICATION = (TOP / "docs/SPECIFICATION.md").read_text()
# The words that VHDL-2008 reserves and VHDL-93 does not, which the names of inputs may not have.
RESERVED = re.findall(r"`(\w+)`", SPECIFICATION.partition("VHDL-2008 reserves more words")[2].partition("\n")[0])
TIMES3 = (TOP / "examples/times3.toml").read_text()


def named(name: str, version: int = 1) -> str:
    """The example under another name."""
    return TIMES3.replace('name = "times3"', f'name = "{name}"').replace("version = 1", f"version = {version}")


def warning(name: str) -> str:
    return f"opgen: VHDL-2008 reserves the word {name}: analyse {name}.vhd as VHDL-93, or choose another name\n"


class Warns(unittest.TestCase):
    def test_each_word(self) -> None:
        self.assertEqual(len(RESERVED), 18)
        with folder_of({"spec.toml": ""}) as folder:
            program = stub(folder, "echo wrote")
            for word in RESERVED:
                Path("spec.toml").write_text(named(word))
                done = run(["generate", "spec.toml"], program=program)
                self.assertEqual((done.returncode, done.stdout, done.stderr), (0, "wrote\n", warning(word)))

    def test_other_ways_to_write_it(self) -> None:
        """Quotes, blanks, a comment and a carriage return change nothing; a comment, a value and a longer word are no such name."""
        with folder_of({"spec.toml": ""}) as folder:
            program = stub(folder, "echo wrote")
            for line, said in (("  name='force'\t# a word", warning("force")), ('"name" = "force"\r', warning("force")),
                               ('# name = "force"', ""), ('name = "force_of"', ""), ('target = "force"', ""), ('surname = "force"', "")):
                Path("spec.toml").write_text(f"version = 3\n{line}\n")
                self.assertEqual(run(["generate", "--enable", "spec.toml"], program=program).stderr, said, line)

    def test_nothing_else_warns(self) -> None:
        """Another command, and a document that is refused, have no warning."""
        with folder_of({"spec.toml": named("force")}) as folder:
            self.assertEqual(run(["vectors", "spec.toml"], program=stub(folder, "echo wrote")).stderr, "")
            done = run(["generate", "spec.toml"], program=stub(folder, "echo 'specification: BadName'; exit 1"))
            self.assertNotIn("VHDL-2008 reserves", done.stderr)

    @unittest.skipUnless(PROGRAM.exists(), NO_PROGRAM)
    def test_generated(self) -> None:
        """Versions 1 to 3 make the circuit, which GHDL refuses as VHDL-2008 where it is installed."""
        for version in (1, 2, 3):
            with folder_of({"spec.toml": named("default", version)}) as folder:
                done = run(["generate", "spec.toml", "-o", str(folder)])
                self.assertEqual((done.returncode, done.stdout), (0, "wrote default.vhd and default.rpt, latency 0\n"))
                self.assertEqual(done.stderr, warning("default"))
                if version == 3 and shutil.which("ghdl"):
                    statuses = [subprocess.run(["ghdl", "-a", f"--std={edition}", "default.vhd"], capture_output=True).returncode
                                for edition in ("93", "08")]
                    self.assertEqual([status == 0 for status in statuses], [True, False])


if __name__ == "__main__":
    unittest.main()
