#!/usr/bin/env python3
"""Tests of layers.py: python3 -m unittest discover tools"""

from __future__ import annotations

import os
import sys
import unittest
from xml.etree import ElementTree

sys.path.insert(0, os.path.dirname(os.path.abspath(__file__)))
import layers  # noqa: E402

LIST = """# from below
staat_low:
staat_mid: staat_low thiserror
staat_side staticlib: staat_low
staat_top: staat_mid staat_low staat_side clap
"""
PAGE = """| Crate | Promise | Stands on |
|---|---|---|
| staat_low | all `a` | b | nothing |
| staat_mid | more | low |
| staat_side | less | low |
| staat_top | the rest |  |
"""
TOLD = PAGE.replace("| more | low |", "| more | low, thiserror |").replace(
    "| the rest |  |", "| the rest | mid, low, side, clap |"
)


class Tests(unittest.TestCase):
    """What stands on what, the picture, and the column of the table."""

    def setUp(self) -> None:
        self.crates = layers.Crates.read(LIST)

    def test_what_stands_below(self) -> None:
        self.assertEqual(self.crates.below("staat_top"), {"staat_low", "staat_mid", "staat_side"})
        self.assertEqual(self.crates.next_below("staat_top"), ["staat_mid", "staat_side"])
        self.assertEqual([self.crates.height(it) for it in self.crates.on], [0, 1, 1, 2])

    def test_tests_stand_above_all(self) -> None:
        crates = layers.Crates.read(LIST + "staat_all_tests: staat_low\n")
        self.assertEqual(crates.height("staat_all_tests"), 3)
        self.assertEqual(layers.segments(crates), layers.segments(self.crates))

    def test_a_long_line_bends_in_each_row(self) -> None:
        crates = layers.Crates({"a": [], "b": ["a"], "c": ["b"], "d": [], "e": ["c", "d"]})
        bends = {
            (it.crate, it.row) for line in layers.segments(crates) for it in line if not it.is_box
        }
        self.assertEqual(bends, {("d", 1), ("d", 2)})

    def test_boxes_of_a_row_are_apart(self) -> None:
        crates = layers.Crates.read((layers.TOP / "crates.txt").read_text(encoding="utf-8"))
        places = layers.placed(crates, layers.segments(crates))
        self.assertEqual({it.crate for it in places if it.is_box}, set(crates.on))
        for one, at in places.items():
            for other, there in places.items():
                if one != other and one.row == other.row:
                    self.assertGreaterEqual(abs(at - there), (one.width() + other.width()) / 2)

    def test_picture(self) -> None:
        text = layers.picture(self.crates)
        ElementTree.fromstring(text)
        for name in ("low", "mid", "side", "top"):
            self.assertEqual(text.count(f">{name}</text>"), 1)
        self.assertEqual(text.count("L"), 4)

    def test_table(self) -> None:
        self.assertEqual(layers.told(self.crates, PAGE), (TOLD, []))

    def test_rows_that_are_wrong(self) -> None:
        page = PAGE.replace("staat_side", "staat_gone")
        wanted = [
            "docs/ARCHITECTURE.md: staat_gone is no crate",
            "docs/ARCHITECTURE.md: no row of staat_side",
        ]
        self.assertEqual(layers.told(self.crates, page)[1], wanted)

    def test_page_stands(self) -> None:
        self.assertEqual(layers.main(["--check"]), 0)


if __name__ == "__main__":
    unittest.main()
