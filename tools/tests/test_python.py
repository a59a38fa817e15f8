"""Without Python 3.11 a tool, and bin/opgen after an error, say so in one line."""
import os
import shutil
import subprocess
import sys
import tempfile
import unittest
from pathlib import Path

from tests.faulty import SCALE
from tests.test_explain import NO_PYTHON, TOP, folder_of, run, stub, without_python

OLD = """\
import sys
if len(sys.argv) > 1 and sys.argv[1].startswith("-"):
    sys.argv[1:3] = []
sys.version_info = (3, 10, 12, "final", 0)
sys.modules["tomllib"] = None
sys.path.insert(0, sys.argv[1].rpartition("/")[0])
sys.argv = sys.argv[1:]
exec(compile(open(sys.argv[0]).read(), sys.argv[0], "exec"))
"""
# Tools that are not for designers.
OTHERS = {"explain", "gather-counts", "gather-crates", "gather-keys", "gather-lemmas", "read-promise"}


def installed_pythons() -> list[str]:
    """Older Pythons that are installed here and run."""
    named = [shutil.which(f"python3.{minor}") for minor in range(8, 11)]
    found = [path for path in named if path] + sorted(map(str, Path.home().glob(".pyenv/versions/3.*/bin/python3")))
    old = "import sys; sys.exit(sys.version_info < (3, 8) or sys.version_info >= (3, 11))"
    return [path for path in found if subprocess.run([path, "-c", old], capture_output=True).returncode == 0]


class OldPython(unittest.TestCase):
    def tools(self) -> list[Path]:
        paths = [path for path in sorted((TOP / "tools").iterdir()) if path.is_file() and os.access(path, os.X_OK)]
        return [path for path in paths if path.name not in OTHERS]

    def test_tools(self) -> None:
        """A Python that says that it is 3.10 and has no tomllib."""
        with folder_of({"old.py": OLD}) as folder:
            for tool in self.tools():
                with self.subTest(tool.name):
                    done = subprocess.run([sys.executable, folder / "old.py", tool, "--help"], capture_output=True, text=True)
                    self.assertEqual((done.returncode, done.stdout), (1, ""))
                    self.assertEqual(done.stderr, "opgen: Python 3.11 or later is needed here, and this is Python 3.10\n")

    def test_installed(self) -> None:
        """Pythons that are older indeed, where they are installed."""
        for python in installed_pythons():
            for tool in self.tools():
                with self.subTest(f"{python} {tool.name}"):
                    done = subprocess.run([python, tool, "--help"], capture_output=True, text=True)
                    self.assertEqual((done.returncode, done.stdout), (1, ""))
                    self.assertRegex(done.stderr, r"^opgen: Python 3\.11 or later is needed here, and this is Python 3\.\d+\n$")

    def test_explanation(self) -> None:
        with folder_of({"first.toml": SCALE}) as folder:
            (folder / "bin").mkdir()
            python = stub(folder, f'exec {sys.executable} {folder}/old.py "$@"').rename(folder / "bin/python3")
            (folder / "old.py").write_text(OLD.replace('startswith("-")', 'startswith("-E")').replace("[1:3]", "[1:3]"))
            program = stub(folder, 'echo "read fault"; exit 3')
            done = run(["generate", "first.toml"], program=program, env={"PATH": f"{python.parent}:{os.environ['PATH']}"})
        self.assertEqual((done.returncode, done.stdout), (3, "read fault\n"))
        self.assertEqual(done.stderr, "opgen: Python 3.11 or later would explain this, and this is Python 3.10\n")


class NoPython(unittest.TestCase):
    def test_tool(self) -> None:
        with folder_of({}) as folder:
            done = run(["tool", "rows", "--help"], env={"PATH": without_python(folder)})
        self.assertEqual((done.returncode, done.stdout), (127, ""))
        self.assertEqual(done.stderr, "opgen: tools need Python 3.11 or later, and there is no python3\n")

    def test_explanation(self) -> None:
        with folder_of({}) as folder:
            program = stub(folder, 'echo "read fault"; exit 3')
            done = run(["generate", "no.toml"], program=program, env={"PATH": without_python(folder)})
        self.assertEqual((done.returncode, done.stdout, done.stderr), (3, "read fault\n", NO_PYTHON))


if __name__ == "__main__":
    unittest.main()
