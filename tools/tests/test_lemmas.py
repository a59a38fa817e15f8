"""Which lemmas of a small repository have equal statements."""
import tempfile
import unittest
from pathlib import Path
from unittest import mock

from tests.loading import run, tool_of

TOOL = tool_of("gather-lemmas")
PRELUDE = "use Rattle.std.specs.Prelude.{ℕ, Bool, List, length}\n"
# Files by their place below crates, and in each lemmas whose statements are equal to others or nearly so.
BINDERS = {
    "a/proofs/One.antt": PRELUDE + """
-- a list is as long as itself
pub same : (xs : List ℕ) (n : ℕ) → length xs ≡ n → n ≡ length xs
same xs n h = sym h
  where
    same : (xs : List ℕ) (n : ℕ) → length xs ≡ n → n ≡ length xs
    same xs n h = sym h
""",
    "b/proofs/deep/Two.antt": PRELUDE + """
turned : (ys : List ℕ)  → (k : ℕ)
    → length ys ≡ k
    → k ≡ length ys
turned [] k h = sym h
turned (y ∷ ys) k h = sym h

module _ (ys : List ℕ) where
  module _ {m : ℕ}
      (given : length ys ≡ m) where
    pub below : m ≡ length ys
    below = sym given

  one : (m : ℕ) → m ≡ length ys
  one m = absurd _

other : (ys : List ℕ) (k : ℕ) → k ≡ length ys → length ys ≡ k
other ys k h = sym h
""",
}
NAMES = {
    "a/proofs/One.antt": PRELUDE + """use Rattle.a.specs.Words.{IsWord, IsPart as IsHalf}
use Rattle.a.proofs.f.+g+h.Goals as key

word : (n : ℕ) → IsWord n → IsHalf n
word n h = h

numbered : (n : ℕ) → key.Name n
numbered n = refl

abbrev own : ℕ → ℕ
own n = n

own_is : (n : ℕ) → own n ≡ n
own_is n = refl
""",
    "b/proofs/Two.antt": PRELUDE + """use Rattle.a.specs.Words.{IsWord as IsText, IsPart}
use Rattle.b.proofs.f.+g+h.Goals as key

text : (n : ℕ) → IsText n → IsPart n
text n h = h

numbered : (n : ℕ) → key.Name n
numbered n = refl

abbrev own : ℕ → ℕ
own n = 0

own_is : (n : ℕ) → own n ≡ n
own_is n = absurd _
""",
    "c/proofs/Three.antt": PRELUDE + """use Rattle.c.specs.Words.{IsWord, IsPart}

word : (n : ℕ) → IsWord n → IsPart n
word n h = h
""",
}
ORDERS = {
    "a/proofs/One.antt": PRELUDE + """
less : (n m : ℕ) (b : Bool) → n < m → n ≤ m
less n m b h = _

all : (p : ℕ → Bool) → All (λ n. p n ≡ true) [] → ((k : ℕ) → p k ≡ true)
all p h = _
""",
    "b/proofs/Two.antt": PRELUDE + """
under : (b : Bool) (m n : ℕ) → n < m → n ≤ m
under b m n h = _

over : (b : Bool) (m n : ℕ) → m < n → n ≤ m
over b m n h = _

each : (q : ℕ → Bool) → All (λ x. q x ≡ true) [] → ((i : ℕ) → q i ≡ true)
each q h = _
""",
}


class Groups(unittest.TestCase):
    def repository(self, files: dict[str, str]) -> Path:
        folder = tempfile.TemporaryDirectory()
        self.addCleanup(folder.cleanup)
        top = Path(folder.name)
        for name, text in files.items():
            path = top / "crates" / name
            path.parent.mkdir(parents=True, exist_ok=True)
            path.write_text(text)
        return top

    def names(self, files: dict[str, str]) -> list[list[str]]:
        """The names in each group, in the order of the files."""
        return [[lemma.name for lemma in group] for group in TOOL.groups_of(self.repository(files))]

    def test_binders(self) -> None:
        """Names of variables, white space, braces and modules make no difference; what is below `where` is not read."""
        self.assertEqual(self.names(BINDERS), [["same", "turned", "below"]])

    def test_names(self) -> None:
        """A name means what it is imported as: two names of one definition are equal, one name of two definitions is not."""
        self.assertEqual(self.names(NAMES), [["word", "text"]])

    def test_orders(self) -> None:
        """Binders in another order make no difference, if the statement is the same for it."""
        top = self.repository(ORDERS)
        groups = TOOL.groups_of(top)
        self.assertEqual([[lemma.name for lemma in group] for group in groups], [["less", "under"], ["all", "each"]])
        self.assertEqual([len({lemma.ordered() for lemma in group}) for group in groups], [2, 1])

    def test_definitions(self) -> None:
        """Definitions with equal types are no lemmas."""
        text = PRELUDE + "\nabbrev pub {} : (n : ℕ) → ℕ\n{} n = n\n\npub record {}s (n : ℕ) : Type 0 where\n  pub is : n ≡ n\n"
        self.assertEqual(self.names({f"a/proofs/{name}.antt": text.replace("{}", name) for name in ("One", "Two")}), [])

    def test_listed(self) -> None:
        top = self.repository(BINDERS)
        with mock.patch.object(TOOL, "TOP", top):
            status, out, _ = run(TOOL)
        self.assertEqual(status, 0)
        self.assertEqual(out.splitlines(), [
            "3 times, 2 could go: (xs : List ℕ) (n : ℕ) → length xs ≡ n → n ≡ length xs",
            "  crates/a/proofs/One.antt:4: same",
            "  crates/b/proofs/deep/Two.antt:3: turned",
            "  crates/b/proofs/deep/Two.antt:12: below",
            "1 statements, 2 copies",
        ])

    def test_check(self) -> None:
        """More copies than are kept are a fault, fewer are said, as many are not."""
        top = self.repository(BINDERS)
        kept = top / TOOL.KEPT
        kept.parent.mkdir(parents=True)
        with mock.patch.object(TOOL, "TOP", top):
            for most, status, said in (
                (1, 1, "2 copies of lemmas, more than 1: tools/gather-lemmas lists them\n"),
                (2, 0, ""),
                (3, 0, "2 copies of lemmas, fewer than 3: write 2 into tools/opgenlib/copies.txt\n"),
            ):
                kept.write_text(f"{most}\n")
                self.assertEqual(run(TOOL, "--check")[:2], (status, said))
                self.assertEqual(kept.read_text(), f"{most}\n")

    def test_words(self) -> None:
        self.assertEqual(run(TOOL, "--write")[0], 2)


if __name__ == "__main__":
    unittest.main()
