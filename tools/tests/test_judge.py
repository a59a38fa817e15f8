"""The judge names the file and the line of what it cannot take."""
import shutil
import tempfile
import unittest
from pathlib import Path

from tests import loading
from tests.loading import EXAMPLES

TOOL = loading.tool_of("judge")


class Refusals(unittest.TestCase):
    def setUp(self):
        self.folder = Path(tempfile.mkdtemp())
        self.addCleanup(shutil.rmtree, self.folder)

    def test_places(self):
        rows = self.folder / "duty.vec"
        circuit = EXAMPLES / "duty.vhd"
        for text, said in (
            ("000 01 : 000 00\n000 1 : 000 00\n", f"{rows}:2: no row of words of the widths of a b : q r"),
            ("000 01\n", f"{rows}:1: no row of words of the widths of a b : q r"),
            ("", f"{rows}: there are no rows"),
        ):
            rows.write_text(text)
            self.assertEqual(loading.run(TOOL, circuit, rows), (2, "", f"judge: {said}\n"))

    def test_files(self):
        self.assertEqual(loading.run(TOOL, "none.vhd", "none.vec"), (2, "", "judge: none.vhd: No such file or directory\n"))
        said = loading.run(TOOL, EXAMPLES / "duty.toml", EXAMPLES / "duty.vec")[2]
        self.assertIn(f"judge: {EXAMPLES / 'duty.toml'}: line 1, column 1: ", said)
        self.assertEqual(loading.run(TOOL)[0], 2)


if __name__ == "__main__":
    unittest.main()
