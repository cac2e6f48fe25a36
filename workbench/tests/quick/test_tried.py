"""The table of what was tried: its rows, and what stays of it."""
from __future__ import annotations

import os
import unittest
from unittest import mock

from workbench.tests import tried
from workbench.tests.kit import ANGLE_FACES, ANGLE_POINTS, Case, off
from workbench.tests.models import Model, copied


class Rows(Case):
    def made(self, name: str, faces: int) -> Model:
        path = self.write(f"in/{name}.off", off(ANGLE_POINTS, ANGLE_FACES[:faces]))
        return Model("made-up", name, path, copied)

    def test_rows(self) -> None:
        row = tried.tried(self.made("angle", 8), 60)
        self.assertEqual((row.parts, row.pieces, row.over, row.under, row.extent), (1, 2, 0, 0, 2))
        self.assertEqual((row.told, row.good), ("", True))
        self.assertRegex(
            row.line(), r"^\| made-up \| angle \| 1 \| 2 \| 0 \| 0 \| 2 \| \d+\.\d \|  \|$"
        )

    def test_what_is_wrong_is_told(self) -> None:
        row = tried.tried(self.made("open", 7), 60)
        self.assertEqual((row.parts, row.good), (0, True))
        self.assertEqual(row.told, "open.off is not closed at 4 edges: repair the mesh")

    def test_no_solid(self) -> None:
        row = tried.tried(Model("made-up", "flat", "flat.scad", lambda one, other: False), 60)
        self.assertEqual(row.told, tried.NO_SOLID)

    def test_other_rows_stay(self) -> None:
        with mock.patch.object(tried, "TABLE", self.path("TRIED.md")):
            tried.write([tried.Row("one", "a", 1, 5), tried.Row("two", "b", told="open")], 60)
            tried.write([tried.Row("one", "a", 1, 4)], 60)
            self.assertEqual(list(tried.rows_before()), [("one", "a"), ("two", "b")])
            self.assertIn("| 1 | 4 |", tried.rows_before()["one", "a"])
        self.assertEqual(
            tried.summed("one", [tried.Row("one", "a", 1), tried.Row("one", "b")]),
            "one: 2 models, 1 in pieces, 1 with a line that says why not",
        )
        self.assertTrue(os.path.isfile(self.path("TRIED.md")))


if __name__ == "__main__":
    unittest.main()
