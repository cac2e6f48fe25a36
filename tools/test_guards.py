#!/usr/bin/env python3
"""Tests of guards.py: python3 -m unittest discover tools"""

from __future__ import annotations

import contextlib
import io
import os
import sys
import tempfile
import unittest
from pathlib import Path
from unittest import mock

sys.path.insert(0, os.path.dirname(os.path.abspath(__file__)))
import guards  # noqa: E402
from rattle_source import Crate, blanked, declared_functions  # noqa: E402

LIB = """//! Heaps of stones.
mod heap;
pub mod laws;

pub use heap::{Heap, Weigh, heaviest};
#[cfg(test)]
mod tests;
"""
HEAP = """// Heaps: { a brace in a comment counts for nothing.
pub struct Heap {
    stones: Vec<u32>,
}

pub trait Weigh {
    fn weight(&self) -> u32
        ensures weight { result ≡ 0 };
}

impl Heap {
    pub fn stones(&self) -> &[u32]
        ensures { result.now ≡ self.stones }
    {
        &self.stones
    }

    fn hidden(&self) -> bool {
        self.stones.contains(&b'{'.into())
    }
}

impl Weigh for Heap {
    fn weight(&self) -> u32 {
        total(&self.stones)
    }
}

fn total(stones: &[u32]) -> u32
    requires some { 1 ≤ length stones.now }
    ensures sum { result ≡ sum stones.now }
{
    stones.iter().fold(0, |a, b| a + b)
}

/// The heaviest stone.
pub fn heaviest(heap: &Heap) -> u32
    ensures most { All (λ x. x ≤ result) heap.stones }
    ensures member { Contains heap.stones result }
{
    let text = "} fn none() {";
    greatest(heap.stones())
}

fn greatest(stones: &[u32]) -> u32
    ensures { result ≡ greatest stones.now }
{
    stones.iter().max()
}

pub fn kept_inside() {}
"""
LAWS = """pub fn heavier_is_more()
    ensures { (a b : ℕ) → a ≤ b → a ≤ b }
{}
"""
TESTS = """use crate::{Heap, heaviest};

fn heap() -> Heap { Heap { stones: vec![1] } }
fn both(rt: &HostRuntime) { assert_eq!(rt; heaviest(&heap()), 1); }
#[test]
fn one_stone(rt: HostRuntime) {
    both(&rt);
}
"""
FILES = {"lib": LIB, "heap": HEAP, "laws": LAWS, "tests": TESTS}
ABOVE = {
    "lib": "#[cfg(test)]\nmod made;\n#[cfg(test)]\nmod weighing;\n#[cfg(test)]\nmod unused;\n",
    "made": "use stones::{Heap, heaviest};\npub fn most(heap: &Heap) -> u32 { heaviest(heap) }\n",
    "weighing": """use crate::made::most;
use stones::Heap;
#[test]
fn light(heap: &Heap) { heap.weight(); }
#[test]
fn heavy(heap: &Heap) { most(heap); }
""",
    "unused": "fn heaviest() {}\n#[test]\nfn another_of_its_name() { heaviest(); }\n",
}
LEAST = "file: src/heap.rt\nold: stones.iter().max()\nnew: stones.iter().min()\n"


class Guards(unittest.TestCase):
    """A repository of one crate, in a folder of its own."""

    def setUp(self) -> None:
        room = tempfile.TemporaryDirectory()
        self.addCleanup(room.cleanup)
        self.top = Path(room.name)
        self.folder = self.top / "crates" / "stones"
        for part in ("src", "must-fail"):
            (self.folder / part).mkdir(parents=True)
        (self.top / "docs").mkdir()
        (self.top / "crates.txt").write_text("# the crates\nstones: thiserror\n")
        for name, text in FILES.items():
            (self.folder / "src" / f"{name}.rt").write_text(text)
        self.edit("least", LEAST)

    def edit(self, name: str, text: str) -> None:
        (self.folder / "must-fail" / f"{name}.edit").write_text(text)

    def run_it(self, *words: str) -> tuple[int, str]:
        said = io.StringIO()
        with mock.patch.object(guards, "TOP", self.top), contextlib.redirect_stderr(said):
            status = guards.main(list(words))
        return status, said.getvalue()

    def page(self) -> str:
        self.assertEqual(self.run_it(), (0, ""))
        return (self.top / guards.PAGE).read_text()

    def test_public_functions(self) -> None:
        crate = Crate.read(self.folder)
        promised = crate.promised()
        self.assertEqual([(it, len(promised[it])) for it in promised], [(("Weigh", "weight"), 1)])
        crate.inherit(promised)
        public = crate.public_functions({"Weigh"})
        self.assertEqual(
            [it.title for it in public],
            ["Heap::stones", "Heap::weight", "heaviest", "heavier_is_more"],
        )
        self.assertEqual([it.is_law for it in public], [False, False, False, True])
        self.assertEqual([it.is_getter for it in public], [True, False, False, False])

    def test_comments_and_strings_are_not_read(self) -> None:
        self.assertEqual(blanked("a // {\n\"}\" '{' b'\\'' 'a"), "a     \n" + " " * 14 + "'a")
        names = [it.name for it in declared_functions(HEAP, "src/heap.rt")]
        self.assertEqual(
            names,
            [
                "weight",
                "stones",
                "hidden",
                "weight",
                "total",
                "heaviest",
                "greatest",
                "kept_inside",
            ],
        )

    def test_helper_counts_for_what_reaches_it(self) -> None:
        page = self.page()
        self.assertIn("| `heaviest` | `least` in `greatest` | `greatest` | `tests` |", page)
        self.assertIn("| `Heap::weight` | - |  | - |", page)
        self.assertIn("By its contract alone: `Heap::weight`.", page)
        self.assertIn("Laws: `heavier_is_more`.", page)
        self.assertIn("Only hand out a field: `Heap::stones`.", page)

    def test_edit_that_speaks_for_itself(self) -> None:
        self.edit(
            "least", LEAST + "# aims at: Heap::weight\n# refused by: requires some of total\n"
        )
        with self.assertRaises(AssertionError):
            self.page()
        self.edit("least", LEAST + "# aims at: Heap::weight\n# refused by: some of total\n")
        page = self.page()
        self.assertIn("| `Heap::weight` | `least` | `some` of `total` | - |", page)
        self.assertIn("| `heaviest` | - |  | `tests` |", page)

    def test_clause_of_a_trait(self) -> None:
        text = "file: src/heap.rt\nold: total(&self.stones)\nnew: 0\n"
        self.edit("weightless", text)
        line = "| `Heap::weight` | `weightless` | `weight` of `Heap::weight` | - |"
        self.assertIn(line, self.page())
        self.edit("weightless", text + "# refused by: weight of Heap::weight\n")
        self.assertIn(line, self.page())

    def test_clause_that_is_not_told(self) -> None:
        self.edit("text", "file: src/heap.rt\nold: greatest(heap.stones())\nnew: 0\n")
        self.assertIn("|  | `text` | not told |  |", self.page())

    def test_faults(self) -> None:
        unseen = "file: src/heap.rt\nold: self.stones.contains\nnew: !self.stones.contains\n"
        for text, said in [
            (
                LEAST.replace("max", "maximum"),
                "its old text is in src/heap.rt 0 times, and not once",
            ),
            (LEAST + "# aims at: greatest\n", "greatest is no public function"),
            (
                LEAST + "# refused by: least of heaviest\n",
                "no clause of the crate is 'least of heaviest'",
            ),
            (unseen, "no public function reaches it; name one by '# aims at: NAME'"),
        ]:
            self.edit("least", text)
            self.assertEqual(self.run_it(), (1, f"guards: stones/must-fail/least: {said}\n"))

    def test_at_most_ten(self) -> None:
        for number in range(10):
            self.edit(f"least{number}", LEAST)
        self.assertEqual(
            self.run_it(), (1, "guards: stones/must-fail: 11 edits, and not at most 10\n")
        )

    def test_tests_of_a_crate_above(self) -> None:
        folder = self.top / "crates" / "above" / "src"
        folder.mkdir(parents=True)
        with (self.top / "crates.txt").open("a") as rows:
            rows.write("above: stones\n")
        for name, text in ABOVE.items():
            (folder / f"{name}.rt").write_text(text)
        page = self.page()
        self.assertIn(
            "| `heaviest` | `least` in `greatest` | `greatest` | `tests`, `weighing` |", page
        )
        self.assertIn("| `Heap::weight` | - |  | `weighing` |", page)
        self.assertNotIn("## above", page)

    def test_runs_of_the_program(self) -> None:
        (self.top / "tests").mkdir()
        (self.top / "tests" / "weights.txt").write_text("")
        with mock.patch.object(guards, "CALL", "heaviest"):
            self.assertIn("| `tests`, `tests/weights.txt` |", self.page())

    def test_program(self) -> None:
        folder = self.top / "crates" / "weigh"
        for part in ("src", "must-fail"):
            (folder / part).mkdir(parents=True)
        with (self.top / "crates.txt").open("a") as rows:
            rows.write("weigh:\n")
        (folder / "src" / "main.rt").write_text(
            "fn twice(n: u32) -> u32\n    ensures { result ≡ n + n }\n{\n    n + n\n}\n"
            "fn main() {\n    twice(1);\n}\n"
        )
        self.assertNotIn("## weigh", self.page())
        edit = "file: src/main.rt\nold:     n + n\nnew:     n\n"
        (folder / "must-fail" / "once.edit").write_text(edit)
        self.assertIn("| `main` | `once` in `twice` | `twice` | - |", self.page())

    def test_check(self) -> None:
        self.assertEqual(self.run_it("--check")[0], 1)
        self.page()
        self.assertEqual(self.run_it("--check"), (0, ""))
        self.edit("most", LEAST)
        status, said = self.run_it("--check")
        self.assertEqual((status, said.count("\n")), (1, 1))


if __name__ == "__main__":
    unittest.main()
