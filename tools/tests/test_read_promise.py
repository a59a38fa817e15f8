"""What a reader of a definition has to read, over a small repository."""
import tempfile
import unittest
import unittest.mock
from pathlib import Path

from tests import loading

TOOL = loading.tool_of("read-promise")
FILES = {
    "opgen_top/specs/Promise.antt": """-- What is promised.
use Rattle.std.specs.Prelude.{ℕ, List}
use Rattle.opgen_a.specs.Words.{Word, long as wide}
use Rattle.opgen_a.specs.declared.kind.Kind.{Kind}
use Rattle.opgen_a.specs.declared.kind.Kind.TheVariants as kinds
use Rattle.opgen_b.specs.Plan.{Plan}

-- not "Plan", which stands in a comment
pub record Promise (kind : Kind) : Type 0 where
  pub word : Word
  pub is_long : wide word
  pub other : kinds.First

pub record Provenance : Type 0 where
  pub plan : Plan
""",
    "opgen_a/specs/Words.antt": """-- Words.
use Rattle.std.specs.Prelude.{ℕ, List}

mutual
  -- a word
  pub data Word : Type 0 where
    none : Word
    more : Digits → Word

  -- its digits
  pub data Digits : Type 0 where
    digit : ℕ → Word → Digits

abbrev pub long : Word → Type 0
long none = ⊥
long (more d) = far d

abbrev pub far : Digits → Type 0
far (digit n word) = long word

abbrev pub unread : ℕ
unread = 1
""",
    "opgen_a/src/kind.rt": """//! Kinds.
use opgen_b::Name;

/// A kind.
#[derive(Clone)]
pub enum Kind {
    First,
    /// Named.
    Second(Name, Seen),
}

/// A kind that contracts see as plain data.
pub struct Seen {
    bytes: Kept,
}

impl Model for Seen {
}
""",
    "opgen_b/src/name.rt": """//! Names.
pub struct Name(String);
""",
    "opgen_b/specs/Plan.antt": """-- Plans.
pub record Plan : Type 0 where
  pub length : ℕ
""",
}
# Promise has 4 lines, Word 4 with `mutual`, Digits 2, long 3, far 2, Kind 4 and Name 1. A reader of the kind `second` reads all
# but the variant `First`, one of `first` neither the other variant nor Name.
COUNT = "   20 lines of definitions in 4 files"


# A kind's record, of which `ports` alone is asked for, and so `Port` is read and `Width` is not.
ANSWERS = {
    "opgen_top/specs/Promise.antt": """-- What is promised.
use Rattle.opgen_a.specs.Kinds.{meaning}

pub record Promise : Type 0 where
  pub ports : (meaning 1).ports
""",
    "opgen_a/specs/Kinds.antt": """-- Kinds.

pub record Meaning : Type 1 where
  pub ports : Type 0
  pub width : Type 0

abbrev pub Port : Type 0
Port = ℕ

abbrev pub Width : Type 0
Width = ℕ

abbrev pub meaning : ℕ → Meaning
meaning n = record {
  ports = Port;
  width =
      Width;
}
""",
}


class ReadPromise(unittest.TestCase):
    files = FILES

    def setUp(self) -> None:
        folder = tempfile.TemporaryDirectory()
        self.addCleanup(folder.cleanup)
        self.top = Path(folder.name)
        for name, text in self.files.items():
            path = self.top / "crates" / name
            path.parent.mkdir(parents=True, exist_ok=True)
            path.write_text(text)
        (self.top / "docs").mkdir()
        self.page = self.top / TOOL.PAGE
        patch = unittest.mock.patch.object(TOOL, "TOP", self.top)
        patch.start()
        self.addCleanup(patch.stop)



class Counts(ReadPromise):
    def test_counts(self) -> None:
        status, out, said = loading.run(TOOL)
        self.assertEqual((status, said), (0, ""))
        lines = out.splitlines()
        self.assertEqual([line.split()[1] for line in lines[:-1]],
                         ["opgen_a/specs/Words.antt", "opgen_a/src/kind.rt", "opgen_b/src/name.rt", "opgen_top/specs/Promise.antt"])
        self.assertEqual(lines[-1], COUNT)

    def test_lists_what_is_cited(self) -> None:
        out = loading.run(TOOL, "--list")[1]
        names = {line.split()[1] for line in out.splitlines() if line.startswith("          ")}
        self.assertEqual(names, {"Promise", "Word", "Digits", "long", "far", "Kind", "Name"})

    def test_of_one_kind(self) -> None:
        self.assertEqual(loading.run(TOOL, "first")[1].splitlines()[-1], "   18 lines of definitions in 3 files")
        out = loading.run(TOOL, "--kinds")[1]
        self.assertEqual(out.splitlines(), ["   18 lines of definitions in 3 files, of first", "   19 lines of definitions in 4 files, of second",
                                            f"{COUNT}, of all kinds"])

    def test_other_root(self) -> None:
        out = loading.run(TOOL, "opgen_top/Promise", "Provenance")[1]
        self.assertEqual(out.splitlines()[-1], "    4 lines of definitions in 2 files")

    def test_check(self) -> None:
        self.page.write_text("It has at most 19 lines of definitions in at most 4 files.\n")
        self.assertEqual(loading.run(TOOL, "--check")[:2], (0, ""))
        self.page.write_text("It has at most 20 lines of definitions in at most 4 files.\n")
        status, out, _ = loading.run(TOOL, "--check")
        self.assertEqual((status, "there are 19 lines in 4 files" in out), (1, True))
        self.page.write_text("Nothing.\n")
        self.assertEqual(loading.run(TOOL, "--check")[0], 1)

    def test_too_much(self) -> None:
        self.page.write_text("It has at most 19 lines of definitions in at most 4 files.\n")
        with unittest.mock.patch.object(TOOL, "MOST_LINES", 18):
            status, out, _ = loading.run(TOOL, "--check")
        self.assertEqual((status, "more than 18" in out), (1, True))

    def test_wrong_words(self) -> None:
        self.assertEqual(loading.run(TOOL, "--lines")[0], 2)
        self.assertEqual(loading.run(TOOL, "opgen_top/Promise")[0], 2)

    def test_of_the_repository(self) -> None:
        with unittest.mock.patch.object(TOOL, "TOP", Path(TOOL.__file__).resolve().parent.parent):
            self.assertEqual(loading.run(TOOL, "--check")[:2], (0, ""))


class Answers(ReadPromise):
    files = ANSWERS

    def test_fields_that_are_asked_for(self) -> None:
        status, out, said = loading.run(TOOL, "--list")
        self.assertEqual((status, said), (0, ""))
        names = {line.split()[1] for line in out.splitlines() if line.startswith("          ")}
        self.assertEqual(names, {"Promise", "Meaning", "Port", "meaning"})
        # Promise has 2 lines, Meaning 3, Port 2, and meaning 4 of its 6.
        self.assertEqual(out.splitlines()[-1], "   11 lines of definitions in 2 files")


if __name__ == "__main__":
    unittest.main()
