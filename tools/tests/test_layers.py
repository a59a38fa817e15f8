"""Layers of crates, and the heads that say what crates prove."""
import tempfile
import unittest
import unittest.mock
from pathlib import Path

from opgenlib import layers
from tests import loading

TOOL = loading.tool_of("gather-crates")
CRATES = """# Each crate and the crates that it depends on, lowest first.

# Base
opgen_a: toml
opgen_b: opgen_a

# Left
opgen_c: opgen_b

# Right
opgen_d may_wait=2: opgen_a

# Top
opgen_e: opgen_a opgen_c opgen_d
"""
HEAD = """//! What the crate is for,
//! in one sentence.
//!
//! Further words.
//!
//! Proved: That it works. See
//! docs/VHDL.md.
//!
//! By: `works`.
#![tactic(auto)]
"""


class Layers(unittest.TestCase):
    def setUp(self) -> None:
        folder = tempfile.TemporaryDirectory()
        self.addCleanup(folder.cleanup)
        path = Path(folder.name) / "crates.txt"
        path.write_text(CRATES)
        self.layers = layers.read_layers(path)
        self.below = layers.rests_on(self.layers)

    def test_read(self) -> None:
        self.assertEqual(list(self.layers), ["Base", "Left", "Right", "Top"])
        self.assertEqual(self.layers["Right"], {"opgen_d": ["opgen_a"]})

    def test_below(self) -> None:
        self.assertEqual(self.below["Top"], {"Base", "Left", "Right"})
        self.assertEqual(layers.next_below(self.below, "Top"), ["Left", "Right"])
        self.assertEqual(layers.rows_of(self.layers, self.below), [["Top"], ["Left", "Right"], ["Base"]])

    def test_picture(self) -> None:
        text = layers.picture_of(self.layers).text_of()
        for words in ("Top", "Left", "a", "e"):
            self.assertIn(f">{words}</text>", text)
        self.assertEqual(text.count("<line "), 3 * 4)


class Heads(unittest.TestCase):
    def crate(self, head: str) -> TOOL.Crate:
        """A crate of this name with this head, in a checkout of its own."""
        folder = tempfile.TemporaryDirectory()
        self.addCleanup(folder.cleanup)
        self.enterContext(unittest.mock.patch.object(TOOL, "TOP", Path(folder.name)))
        source = Path(folder.name) / "crates/opgen_a/src"
        source.mkdir(parents=True)
        (source / "lib.rt").write_text(head)
        return TOOL.crate_of("opgen_a")

    def test_parts(self) -> None:
        crate = self.crate(HEAD)
        parts = (crate.purpose, crate.proved, crate.by)
        self.assertEqual(parts, ("What the crate is for, in one sentence.", "That it works. See docs/VHDL.md.", "`works`."))
        self.assertEqual(list(crate.faults(False)), [])
        self.assertEqual(TOOL.linked(crate.proved), "That it works. See [VHDL.md](VHDL.md).")

    def test_faults(self) -> None:
        for head, is_test, words in (
            (HEAD.replace("By:", "Of:"), False, "has no paragraph"),
            (HEAD.replace("for,", "for. It is"), False, "not one sentence"),
            (HEAD.replace("words", "words " * 30), False, "more than 139"),
            ("#![tactic(auto)]\n", True, "does not say"),
        ):
            faults = list(self.crate(head).faults(is_test))
            self.assertTrue(any(words in fault for fault in faults), (words, faults))

    def test_crate_of_tests(self) -> None:
        self.assertEqual(list(self.crate("//! What it tests.\n").faults(True)), [])


class Page(unittest.TestCase):
    def test_shortened(self) -> None:
        for whole, short in (
            ("Parts: what they are.", "Parts: what they are."), ("The parts of circuits: what; and when.", "The parts of circuits."),
            ("Parts: what each is for; and when.", "Parts: what each is for."), ("One two three four.", "One two three four."),
        ):
            self.assertEqual(TOOL.shortened(whole), short)

    def test_parts(self) -> None:
        """A list for each layer, without what is proved."""
        crate = TOOL.Crate("opgen_a", Path("lib.rt"), "What it is for.", "Word. More.", "`law`")
        text = TOOL.page({"Top": [crate], "Laws": [crate], "Tests": [crate]})
        self.assertEqual(text.count("- `opgen_a`: What it is for.\n"), 3)
        self.assertNotIn("Word. More.", text)
        self.assertEqual(text.count("claim nothing"), 1)


if __name__ == "__main__":
    unittest.main()
