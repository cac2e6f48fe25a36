#!/usr/bin/env python3
"""Tests of check_short.py."""

from __future__ import annotations

import os
import unittest
from pathlib import Path

import check
import check_short

TOP = Path(__file__).resolve().parent.parent
BOX = [f"pair 0 0 1 {k}" for k in range(6)]


def text_of(*lines: str) -> bytes:
    """The text of a short certificate with these lines."""
    return "".join(f"{line}\n" for line in ("STAAT SHORT 1", *lines, "end")).encode()


class Verdicts(unittest.TestCase):
    """What is said of certificates for products of examples/."""

    def said(self, product: str, *lines: str) -> str:
        """The line for a certificate with these lines."""
        os.chdir(TOP)
        parts = check.read_product([], f"examples/{product}/parts.json", 0)
        return check_short.verdict(parts, "c", text_of(*lines))[1]

    def test_plan(self) -> None:
        plan = ["parts 2", "plan", "split 0 -1 0", "leaf 0", "leaf 1"]
        self.assertEqual(self.said("dovetail", *plan), "valid plan")
        plan[2] = "split 0 0 1"
        meet = "not valid: pieces 0 0 and 1 1 meet at node 0"
        self.assertEqual(self.said("dovetail", *plan), meet)
        plan[2] = "split 0 0 0"
        self.assertEqual(self.said("dovetail", *plan), "not valid: zero direction at node 0")

    def test_leaves(self) -> None:
        twice = ["parts 2", "plan", "split 0 -1 0", "leaf 0", "leaf 0"]
        self.assertEqual(self.said("dovetail", *twice), "not valid: bad leaves at node 2")
        self.assertEqual(
            self.said("dovetail", "parts 2", "plan", "leaf 1"), "not valid: bad leaves at node 1"
        )
        self.assertEqual(
            self.said("dovetail", "parts 3", "plan", "leaf 1"), "not valid: wrong parts 3"
        )

    def test_stuck(self) -> None:
        hold = ["parts 2", "stuck", "hold", "part 0", "part 1"]
        self.assertEqual(self.said("closed-box", *hold, *BOX), "valid refusal")
        gap = self.said("closed-box", *hold, *BOX[1:])
        self.assertRegex(gap, "^not valid: gap -?[01] -?[01] -?[01] in hold 0$")

    def test_holds(self) -> None:
        one = ["parts 2", "stuck", "hold", "part 0"]
        self.assertEqual(self.said("closed-box", *one), "not valid: fewer than two nodes in hold 0")
        self.assertEqual(
            self.said("closed-box", *one, "part 5"), "not valid: no node at place 1 of hold 0"
        )
        beyond = [*one, "part 1", "pair 0 0 1 6"]
        self.assertEqual(
            self.said("closed-box", *beyond), "not valid: bad pair at place 0 of hold 0"
        )
        again = [*one, "part 1", *BOX, "hold", "part 0", "part 1"]
        self.assertEqual(self.said("closed-box", *again), "not valid: no node at place 1 of hold 1")

    def test_rest(self) -> None:
        group = ["parts 2", "rest", "group", "hold", "part 0", "part 1", *BOX]
        self.assertEqual(self.said("closed-box", *group), "valid refusal")
        twice = [*group[:2], "split 0 0 1", "leaf 0", *group[2:]]
        self.assertEqual(self.said("closed-box", *twice), "not valid: bad leaves at node 2")


class Texts(unittest.TestCase):
    """What is read, and the first bad line."""

    def fault(self, *lines: str) -> str:
        """The line that refuses a text of these lines."""
        with self.assertRaises(check.Refused) as caught:
            check_short.read("c", text_of(*lines))
        return str(caught.exception.args[1])

    def test_read(self) -> None:
        hold = ["hold", "part 0", "part 3", "pair 0 0 3 0", "pair 0 2 3 0"]
        plan = ["split 0 0 1", "leaf 4", "split 1 0 0", "group", *hold, "leaf 2"]
        certificate = check_short.read("c", text_of("parts 5", "rest", *plan))
        self.assertEqual(len(certificate.nodes), 5)

    def test_bad(self) -> None:
        bad = "staat: c: bad line {}".format
        self.assertEqual(self.fault("parts 0"), bad(2))
        self.assertEqual(self.fault("parts 2", "plan", "group"), bad(4))
        self.assertEqual(self.fault("parts 2", "stuck", "part 1"), bad(4))
        self.assertEqual(self.fault("parts 2", "stuck", "hold", "part 1", "part 0"), bad(6))
        self.assertEqual(self.fault("parts 2", "stuck", "hold", "pair 1 0 1 0"), bad(5))
        self.assertEqual(self.fault("parts 1", "plan", "split 1 0 0"), bad(4))
        self.assertEqual(self.fault("parts 1", "plan", "leaf 00"), bad(4))

    def test_short(self) -> None:
        with self.assertRaises(check.Refused) as caught:
            check_short.read("c", text_of("parts 1", "plan", "leaf 0")[:-4])
        self.assertEqual(caught.exception.args[1], "staat: c: certificate too short")


if __name__ == "__main__":
    unittest.main()
