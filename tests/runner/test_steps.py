"""Unit tests of the steps and of what they need."""

from __future__ import annotations

import sys
import unittest

import needs
import steps


class Tests(unittest.TestCase):
    """How a step is counted, and what is said of what is missing."""

    def test_counts(self) -> None:
        for text, status, wanted in (
            ("a\n7 passed, 0 failed\n", 0, (7, 0)),
            ("7 passed, 2 failed\n", 1, (7, 2)),
            ("7 passed, 0 failed\n", 1, (7, 1)),
            ("7 passed, 2 failed (of some)\n", 2, (7, 2)),
            ("0 passed, 0 failed\n", 0, (0, 1)),
            ("all is well\n", 0, (1, 0)),
            ("", 1, (0, 1)),
        ):
            with self.subTest(text):
                self.assertEqual(steps.counts(text, status), wanted)

    def test_run(self) -> None:
        well = steps.Step(
            "well", (sys.executable, "-c", "print('3 passed, 0 failed')"), needs_program=False
        )
        self.assertEqual(steps.run(well, None, []).passed, 3)
        ill = steps.Step(
            "ill", (sys.executable, "-c", "print('why'); raise SystemExit(1)"), needs_program=False
        )
        result = steps.run(ill, None, [])
        self.assertEqual((result.passed, result.failed), (0, 1))
        self.assertIn("why\nill: 0 passed, 1 failed", steps.report(result))

    def test_missing(self) -> None:
        step = steps.Step("pages", ("false",), ("openscad",))
        result = steps.run(step, None, ["openscad"])
        self.assertEqual((result.passed, result.failed), (0, 1))
        self.assertIn("cannot run: missing openscad, the built program", steps.report(result))
        self.assertEqual(
            needs.told(["cc", "rt", "scipy"])[:2],
            [
                "test: missing: cc, rt, scipy",
                "test: to install: apt-get install -y gcc python3-scipy",
            ],
        )
        self.assertEqual((needs.told([]), needs.install_line(["rt"])), ([], []))

    def test_chosen(self) -> None:
        quick, whole = steps.chosen([], True), steps.chosen([], False)
        self.assertLess(len(quick), len(whole))
        self.assertLess(len(whole), len(steps.STEPS))
        self.assertIn("models", [step.name for step in whole])
        self.assertEqual(
            [step.name for step in steps.chosen(["all models", "models"], True)],
            ["models", "all models"],
        )

    def test_names(self) -> None:
        self.assertEqual(len({step.name for step in steps.STEPS}), len(steps.STEPS))
        for step in steps.STEPS:
            with self.subTest(step.name):
                self.assertLessEqual(set(step.needs), set(needs.NEEDS))


if __name__ == "__main__":
    unittest.main()
