"""Tests that README's examples work as they are written, in a folder of their own."""
import os
import re
import subprocess
import tempfile
import textwrap
import unittest
from pathlib import Path

from tests.test_explain import NO_PROGRAM, PROGRAM, TOP

README = (TOP / "README.md").read_text()


def blocks() -> list[str]:
    """The indented texts of the quick start."""
    start = README.partition("## Quick start")[2].partition("\n## ")[0]
    return [textwrap.dedent(block).strip() for block in re.findall(r"(?m)(?:^    .*\n)+", start)]


@unittest.skipUnless(PROGRAM.exists(), NO_PROGRAM)
class QuickStart(unittest.TestCase):
    def test_commands(self) -> None:
        commands = [block for block in blocks() if re.match(r"mkdir|\.\./bin/", block)]
        self.assertEqual(len(commands), 2)
        with tempfile.TemporaryDirectory() as name:
            folder = Path(name)
            for shared in ("bin", "examples"):
                (folder / shared).symlink_to(TOP / shared)
            environment = os.environ | {"OPGEN_PROGRAM": str(PROGRAM)}
            done = subprocess.run(["sh", "-e", "-c", "\n".join(commands)], cwd=folder, capture_output=True, text=True,
                                  env=environment)
            self.assertEqual((done.returncode, done.stderr), (0, ""))
            self.assertEqual(sorted(path.name for path in folder.iterdir()), ["bin", "examples", "try"])
            made = (folder / "try/times3.out").read_text().splitlines()
            self.assertEqual(made, (TOP / "examples/times3.out").read_text().splitlines())
        self.assertTrue(done.stdout.startswith("wrote times3.vhd and times3.rpt, latency 0\nsimulated "))

    def test_specification(self) -> None:
        """The specification that is shown is the example."""
        self.assertIn((TOP / "examples/times3.toml").read_text().strip(), blocks())


if __name__ == "__main__":
    unittest.main()
