"""Tests of tools/gather-counts, and of the limits on the words of documents, over texts of their own."""
import os
import tempfile
import unittest
from pathlib import Path
from unittest import mock

from tests.loading import TOOLS, module_of, run, tool_of

TOOL = tool_of("gather-counts")
DOCS = module_of(TOOLS.parent / ".ci/docs")
SENTENCES = {"page.md": ("proves {crates} crates", "over {cases} [cases](x.md) with {commands} commands")}
COUNTS = {"crates": lambda: 58, "cases": lambda: 3326, "commands": lambda: 1000000}


class Counts(unittest.TestCase):
    def setUp(self) -> None:
        folder = tempfile.TemporaryDirectory()
        self.addCleanup(folder.cleanup)
        self.page = Path(folder.name) / "page.md"
        for name, value in (("TOP", self.page.parent), ("PLACES", SENTENCES), ("COUNTS", COUNTS)):
            patch = mock.patch.object(TOOL, name, value)
            patch.start()
            self.addCleanup(patch.stop)

    def test_written(self) -> None:
        """Old counts are said by a check, which writes nothing, and then written, with all else as it was."""
        old = "It proves 57 crates.\nIt runs over 2,172 [cases](x.md) with 3,007 commands | 58\n"
        new = "It proves 58 crates.\nIt runs over 3,326 [cases](x.md) with 1,000,000 commands | 58\n"
        self.page.write_text(old)
        status, out, _ = run(TOOL, "--check")
        self.assertEqual((status, self.page.read_text(), len(out.splitlines())), (1, old, 2))
        self.assertIn("page.md: it says 'proves 57 crates', and tools/gather-counts counts 'proves 58 crates'\n", out)
        self.assertEqual(run(TOOL), (0, "", ""))
        self.assertEqual(self.page.read_text(), new)
        self.assertEqual(run(TOOL, "--check"), (0, "", ""))

    def test_another_sentence(self) -> None:
        """A sentence that was taken out, or is there twice, is a fault and not a count that nobody checks."""
        for text in ("over 3,326 [cases](x.md) with 1,000,000 commands\n",
                     "proves 58 crates, proves 58 crates, over 3,326 [cases](x.md) with 1,000,000 commands\n"):
            self.page.write_text(text)
            status, out, _ = run(TOOL, "--check")
            self.assertEqual((status, out), (1, "page.md: the sentence 'proves {crates} crates' is not there once\n"))

    def test_words(self) -> None:
        self.assertEqual(run(TOOL, "--write")[0], 2)


class Counted(unittest.TestCase):
    """The counts of this checkout, had in another way."""

    def test_crates(self) -> None:
        self.assertEqual(TOOL.COUNTS["crates"](), sum(entry.is_dir() for entry in os.scandir(TOOL.TOP / "crates")))

    def test_bodies(self) -> None:
        found = [name for _, _, names in os.walk(TOOL.TOP / "crates") for name in names if name.endswith(".edit")]
        self.assertEqual(TOOL.COUNTS["bodies"](), len(found))

    def test_lists(self) -> None:
        """Lines of lists, and the numbers and commands in them."""
        lists = {"cases": ["a/b: opgen generate a; opgen vectors a", "a/c: opgen x"], "judged": ["one: 5 lines", "two: 7 lines"],
                 "exhaustive": ["one: 40 circuits", "two: 2 circuits"]}
        with mock.patch.object(TOOL, "listed", lists.get):
            self.assertEqual([TOOL.COUNTS[name]() for name in ("cases", "commands", "outputs", "circuits")], [2, 3, 12, 42])


class Words(unittest.TestCase):
    def test_limits(self) -> None:
        """A document with one word too many is named with both numbers; so are all together."""
        with tempfile.TemporaryDirectory() as name:
            top = Path(name)
            (top / "docs").mkdir()
            for file, words in (("README.md", 4), ("CONTRIBUTING.md", 3), ("docs/MANUAL.md", 5), ("docs/VHDL.md", 6)):
                (top / file).write_text("a word\n" * (words // 2) + "one" * (words % 2))
            with mock.patch.multiple(DOCS, TOP=top, MOST_WORDS={"README.md": 4, "docs/MANUAL.md": 4}, MOST_WORDS_TOGETHER=18):
                self.assertEqual(list(DOCS.long_documents()), ["docs/MANUAL.md: 5 words, more than 4"])
                self.assertEqual(list(DOCS.long_together()), [])
                (top / "docs/VHDL.md").write_text("one " * 7)
                self.assertEqual(list(DOCS.long_together()), ["README.md, CONTRIBUTING.md and docs/*.md: 19 words, more than 18"])


if __name__ == "__main__":
    unittest.main()
