"""Tests that tools/opgenlib/README.md names every module."""
import re
import unittest
from pathlib import Path

FOLDER = Path(__file__).resolve().parent.parent / "opgenlib"


class Readme(unittest.TestCase):
    def test_modules(self) -> None:
        named = set(re.findall(r"`([\w/.]+)`", (FOLDER / "README.md").read_text()))
        modules = {path.name for path in FOLDER.glob("*.py")} | {f"{path.parent.name}/" for path in FOLDER.glob("*/__init__.py")}
        self.assertGreater(len(modules), 30)
        self.assertEqual(modules - named, set())
        keys = {path.name for path in (FOLDER / "keys").glob("*.py")} - {"__init__.py"}
        self.assertEqual(keys - named, set())

    def test_named_files(self) -> None:
        for name in re.findall(r"`([\w/]+\.(?:py|txt))`", (FOLDER / "README.md").read_text()):
            places = [FOLDER / name, FOLDER / "keys" / name, FOLDER.parent.parent / name]
            self.assertTrue(any(place.exists() for place in places), name)


if __name__ == "__main__":
    unittest.main()
