"""Tests of dearest.py: what the times and names of the prover's files come to."""

from __future__ import annotations

import os
import tempfile
import unittest
from pathlib import Path

import dearest

FILES = (
    (100.0, "Rattle-low.oantt"),
    (101.5, "Rattle-low-proofs.Bounds.oantt"),
    (101.6, "records/Rattle-low-proofs.Bounds.decls.oantt"),
    (105.6, "Rattle-low-proofs.shapes.Square.area.Proof.oantt"),
    (105.8, "Rattle-low-proofs.shapes.Square.area.Lts.oantt"),
    (105.9, "Rattle-low-proofs.shapes.Square.area.Answers.oantt"),
)  # when each file was written, in seconds


class Dearest(unittest.TestCase):
    def test_modules_are_listed_by_their_seconds(self) -> None:
        with tempfile.TemporaryDirectory() as room:
            for at, name in FILES:
                file = Path(room) / "kept" / name
                file.parent.mkdir(parents=True, exist_ok=True)
                file.touch()
                os.utime(file, (at, at))
            lines = dearest.listing(dearest.seconds_of(Path(room)), "low", 3)
        self.assertEqual(
            lines,
            [
                "low: 6 seconds: searched 4, lemmas 2, borrows 0, answers 0",
                "   4.00  searched shapes::Square::area",
                "   1.60  lemmas Bounds",
                "   0.20  borrows shapes::Square::area",
            ],
        )

    def test_what_no_function_has_is_another_module(self) -> None:
        self.assertEqual(
            dearest.told("Rattle-low-proofs.shapes.area.Goals", "low"), "other shapes.area.Goals"
        )
        self.assertEqual(dearest.told("Rattle-low-specs.Shapes", "low"), "other specs.Shapes")


if __name__ == "__main__":
    unittest.main()
