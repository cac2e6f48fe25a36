"""Unit tests of the turns that steps take."""

from __future__ import annotations

import contextlib
import io
import sys
import threading
import unittest

import steps
from turns import Turns


def step(name: str, is_late: bool = False) -> steps.Step:
    """A step that passes at once."""
    return steps.Step(name, (sys.executable, "-c", ""), needs_program=False, is_late=is_late)


class Tests(unittest.TestCase):
    """Each step runs once, and the late ones run behind the proofs."""

    def test_turns(self) -> None:
        turns = Turns([step("first"), step("late", is_late=True), step("second")])
        with contextlib.redirect_stdout(io.StringIO()) as out:
            turns.take(None, [], is_early=True)
            self.assertEqual([it.name for it in turns.results], ["first", "second"])
            turns.take(None, [])
            turns.take(None, [])
        self.assertEqual([it.name for it in turns.results], ["first", "second", "late"])
        self.assertEqual(len(out.getvalue().splitlines()), 3)

    def test_side_by_side(self) -> None:
        names = [f"step {number}" for number in range(12)]
        turns = Turns([step(name) for name in names])
        with contextlib.redirect_stdout(io.StringIO()):
            threads = [threading.Thread(target=turns.take, args=(None, [])) for _ in range(3)]
            for thread in threads:
                thread.start()
            for thread in threads:
                thread.join()
        self.assertEqual(sorted(it.name for it in turns.results), sorted(names))


if __name__ == "__main__":
    unittest.main()
