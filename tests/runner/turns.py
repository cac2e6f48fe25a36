"""Steps that wait for their turn: some run beside the proofs, once the program is built, and the others after them."""

from __future__ import annotations

import pathlib
import threading
from collections.abc import Collection, Iterable

import steps


class Turns:
    """The steps that are left, in the order in which they are taken, and the results of those that have run."""

    def __init__(self, chosen: Iterable[steps.Step]) -> None:
        self.results: list[steps.Result] = []
        self._left, self._turn = list(chosen), threading.Lock()

    def _next(self, is_early: bool) -> steps.Step | None:
        with self._turn:
            found = next((step for step in self._left if not (is_early and step.is_late)), None)
            if found:
                self._left.remove(found)
            return found

    def take(
        self, program: pathlib.Path | None, missing: Collection[str], is_early: bool = False
    ) -> None:
        """Runs one step after another with this program, until none is left, and says of each how it ended.

        Several threads may do so at once. is_early: the proofs go on, so the late steps are left out
        """
        while step := self._next(is_early):
            result = steps.run(step, program, missing)
            with self._turn:
                self.results.append(result)
                print(steps.report(result) + "\n", end="", flush=True)
