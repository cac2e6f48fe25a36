"""What a planner answers of a product, and how it is asked: behind `Planner`, so that another one may take its place.

Nothing is answered here that `staat confirm` has not called valid.
"""
from __future__ import annotations

import os
import re
import subprocess
import tempfile
from dataclasses import dataclass
from typing import Protocol, Sequence, Set, Tuple

from . import planner
from .certificate import Answer, Pair, Vector, read_certificate
from .planner import Place
from .progress import waiting
from .solid import Refusal

Arc = Tuple[int, int]  # the first part is blocked by the second along a direction
ASKED = ("decide", "--rest", "--cert")
VERDICTS = ("valid plan", "valid refusal")  # where no group remains, and where one does
OVERLAP = re.compile(r"parts (\d+) and (\d+) overlap in pieces (\d+) and (\d+)")
USAGE = 2  # the status for words that staat does not know


class Unanswered(Refusal):
    """The planner refuses a part list, or was ended: the command that it was asked, and why."""

    def __init__(self, command: str, why: str) -> None:
        super().__init__(f"staat {command} {why}" if why.startswith("was ended") else why)
        self.command = command


class Overlapping(Unanswered):
    """Parts overlap, so there is no answer: the first two pieces that do."""

    def __init__(self, command: str, why: str, pair: Pair) -> None:
        super().__init__(command, why)
        self.pair = pair


@dataclass(frozen=True)
class Told:
    """An answer, the certificate that shows it, and what the checker says of that."""

    answer: Answer
    certificate: str
    verdict: str


class Planner(Protocol):
    """What is asked of a planner, of one part list."""

    def told(self) -> Told:
        """A checked answer. Overlapping: parts overlap. Refusal: there is no answer, and why."""

    def arcs(self, along: Vector) -> Set[Arc]:
        """Which parts block which along a direction. Refusal: it is not told."""


@dataclass(frozen=True)
class OfDecide:
    """Asks `staat decide` for a certificate, and `staat confirm` whether it is valid."""

    place: Place

    def told(self) -> Told:
        certificate = self.asked(ASKED, (0, 1))
        with tempfile.TemporaryDirectory() as folder:
            path = os.path.join(folder, "plan.cert")
            with open(path, "w", encoding="ascii", errors="replace") as file:
                file.write(certificate)
            verdict = self.asked(("confirm", path), (0, 1)).rstrip("\n")
        if verdict not in VERDICTS:
            raise Refusal(f"the checker does not call the answer valid: {verdict}")
        answer = read_certificate(certificate)
        if verdict != VERDICTS[bool(answer.groups)]:
            raise Refusal(f'the checker says "{verdict}" of what should be another answer')
        return Told(answer, certificate, verdict)

    def arcs(self, along: Vector) -> Set[Arc]:
        told = self.asked(("blocks", "--along=" + ",".join(map(str, along))), (0,))
        rows = (line.split() for line in told.splitlines() if line.startswith("arc "))
        return {(int(one), int(other)) for _, one, other in rows}

    def asked(self, words: Sequence[str], wanted: Sequence[int]) -> str:
        """What `staat` prints with one of these statuses. Unanswered: it ends otherwise."""
        done = asked(self.place, words)
        if done.returncode in wanted:
            return done.stdout
        why = fault_of(done)
        pair = OVERLAP.fullmatch(why)
        if pair:
            part, by, piece, by_piece = map(int, pair.groups())
            raise Overlapping(words[0], why, Pair(part, piece, by, by_piece))
        raise Unanswered(words[0], why)


def asked(place: Place, words: Sequence[str]) -> "subprocess.CompletedProcess[str]":
    """What `staat` says of a part list. Refusal: there is no such list, or no program."""
    planner.must_be(place)
    staat = planner.program() or os.path.join(planner.TOP, "staat")
    try:
        with waiting(f"staat {words[0]}"):
            return subprocess.run(
                planner.words_of(staat, place, words),
                cwd=place.folder,
                stdin=subprocess.DEVNULL,
                capture_output=True,
                encoding="utf-8",
                errors="replace",
                check=False,
            )
    except OSError as fault:
        raise Refusal(f"cannot run {staat}: {fault.strerror}") from fault


def fault_of(done: "subprocess.CompletedProcess[str]") -> str:
    """The line that a program left, or how it ended."""
    lines = (done.stderr.strip() or done.stdout.strip()).splitlines()
    if done.returncode < 0:
        return f"was ended by signal {-done.returncode}"
    if done.returncode == USAGE:
        return (
            f"{done.args[0]} is older than this tool: it does not know {' '.join(done.args[1:-1])}"
        )
    return lines[-1].replace("staat: ", "", 1) if lines else f"staat ended with {done.returncode}"
