"""Unit tests of what is shown against what was printed."""

from __future__ import annotations

import unittest

import shown


class Tests(unittest.TestCase):
    """A case for each rule."""

    def test_status(self) -> None:
        self.assertEqual(shown.split_status("./staat plan a  # status 1"), ("./staat plan a", 1))
        self.assertEqual(shown.split_status("./staat plan a"), ("./staat plan a", 0))
        self.assertEqual(
            shown.split_status("./staat plan a # a remark"), ("./staat plan a # a remark", 0)
        )

    def test_lines(self) -> None:
        self.assertEqual(shown.lines_of(""), [])
        self.assertEqual(shown.lines_of("a\n\n"), ["a", ""])
        self.assertNotEqual(shown.lines_of("a"), shown.lines_of("a\n"))

    def test_agrees(self) -> None:
        got = list("abcabd")
        for lines in (
            "abcabd",
            "ab...bd",
            "...",
            "...abcabd...",
            "a...c...d",
            "...c...",
            "abc...abd",
        ):
            with self.subTest(lines):
                self.assertTrue(shown.agrees(_lines(lines), got))
        for lines in (
            "abcab",
            "abcabdd",
            "b...",
            "...b",
            "abca...cabd",
            "a...e...d",
            "...d...c...",
            "",
        ):
            with self.subTest(lines):
                self.assertFalse(shown.agrees(_lines(lines), got))

    def test_difference(self) -> None:
        self.assertIn("-stuck 0 1", shown.difference(["stuck 0 1"], ["stuck 0 2"]))
        self.assertIn("+stuck 0 2", shown.difference(["stuck 0 1"], ["stuck 0 2"]))


def _lines(text: str) -> list[str]:
    lines: list[str] = []
    for k, run in enumerate(text.split("...")):
        lines += ["..."] * (k > 0) + list(run)
    return lines


if __name__ == "__main__":
    unittest.main()
