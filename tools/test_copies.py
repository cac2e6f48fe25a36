"""Tests of tools/copies.py: which statements are the same, and which are none."""

from __future__ import annotations

import pathlib
import tempfile
import unittest

import copies

FIRST = """-- A file.
use Rattle.std.proofs.Common.{ℕ, ◌<◌, ◌+◌, ◌⊎◌, ◌≡◌}

-- of two numbers
pub last_or : (m k : ℕ) → m < k + 1 → (m < k) ⊎ (m ≡ k)
last_or m k lt = it
  where
    here : (a : ℕ) → a < k + 1 → a < k + 1 + 1
    here a lt = lt
"""
SECOND = """use Rattle.std.proofs.Common.{ℕ, ◌<◌, ◌+◌, ◌⊎◌, ◌≡◌}

less_or : (n : ℕ) (other : ℕ)
    → n < other + 1 → (n < other) ⊎ (n ≡ other)
less_or n other lt = one
less_or n other lt =
  two

here : (a : ℕ) → a < k + 1 → a < k + 1 + 1
here a lt = lt
"""
THIRD = """use Rattle.std.proofs.Common.{ℕ, ◌<◌, ◌+◌, ◌≡◌, List, [], ◌++◌}
use Rattle.one.proofs.made.Statement as stated

both_less : (a b c : ℕ) → a < b → b < c → a < c
unfolding less
both_less a b c h g = (
  chain h g,
)

chain : (k m n : ℕ) → k < m → m < n → k < n
chain k m n h g = it

parted : List ℕ → List ℕ → ℕ → Type 0
parted xs ys n = xs ≡ ys

joined : List ℕ → List ℕ → ℕ → Type 0
joined xs ys n = xs ≡ ys ++ []

of_two : {M : Type 1} {N : Type 1} → stated.statement M
of_two = it

of_both : {M : Type 1} {N : Type 1} → stated.statement M
of_both = it
"""


class Copies(unittest.TestCase):
    """Statements of two files."""

    def setUp(self) -> None:
        self._folder = tempfile.TemporaryDirectory()
        self.addCleanup(self._folder.cleanup)
        self.top = pathlib.Path(self._folder.name)
        for crate, text in (("one", FIRST), ("two", SECOND)):
            proofs = self.top / "crates" / crate / "proofs"
            proofs.mkdir(parents=True)
            (proofs / "Lemmas.antt").write_text(text, encoding="utf-8")

    def test_same_but_for_names(self) -> None:
        groups = copies.copies(self.top)
        self.assertEqual(
            [[(it.name, it.line, it.lines) for it in group] for group in groups],
            [[("last_or", 5, 5), ("less_or", 3, 6)]],
        )

    def test_what_is_unfolded(self) -> None:
        path = self.top / "crates" / "one" / "proofs" / "Lemmas.antt"
        path.write_text(THIRD, encoding="utf-8")
        groups = copies.copies(self.top)
        self.assertEqual(
            [[(it.name, it.line, it.lines) for it in group] for group in groups],
            [[("both_less", 4, 6), ("chain", 10, 3)]],
        )

    def test_words_of_two_files(self) -> None:
        own = "abbrev {}Small : ℕ → Type 0\nSmall n = n < {}\n\n"
        cited = "{} : (n : ℕ) → n < 1 → Small n\n{} n lt = lt\n"
        other = "use Rattle.staat_one.proofs.Lemmas.{Small}\n"
        texts = {
            "staat_one": own.format("pub ", 2) + cited.format("less", "less"),
            "staat_two": other + cited.format("small", "small"),
            "staat_three": own.format("", 3) + cited.format("low", "low"),
        }
        for crate, text in texts.items():
            path = self.top / "crates" / crate / "proofs" / "Lemmas.antt"
            path.parent.mkdir(parents=True)
            path.write_text("use Rattle.std.proofs.Common.{ℕ, ◌<◌}\n" + text, encoding="utf-8")
        names = [[it.name for it in group] for group in copies.copies(self.top)]
        self.assertEqual(names, [["last_or", "less_or"], ["less", "small"]])

    def test_binders(self) -> None:
        self.assertEqual(copies.plain("(x y : ℕ) → x < y"), copies.plain("(a : ℕ) (b : ℕ) → a < b"))
        self.assertEqual(copies.plain("All (λ p. p < 2) xs"), copies.plain("All (λ q. q < 2) xs"))
        self.assertNotEqual(copies.plain("(x y : ℕ) → x < y"), copies.plain("(x y : ℕ) → y < x"))

    def test_what_is_bound_around(self) -> None:
        path = self.top / "crates" / "one" / "proofs" / "Lemmas.antt"
        self.assertEqual([it.name for it in copies.statements(path)], ["last_or"])


if __name__ == "__main__":
    unittest.main()
