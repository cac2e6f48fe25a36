"""What is shown: steps that take a product apart, and groups of parts that hold each other.

Any planner may fill it. Parts and pieces are numbered from 0 in the order of the part list; lengths are steps of the
grid.
"""
from __future__ import annotations

from dataclasses import dataclass
from typing import List, NamedTuple, Optional, Sequence, Tuple

from ..certificate import Step, Vector

Parts = Tuple[int, ...]

NOWHERE: Vector = (0, 0, 0)


def moved_by(place: Vector, direction: Vector, times: int) -> Vector:
    """A place that is moved by so many times a direction."""
    x, y, z = (at + times * step for at, step in zip(place, direction))
    return (x, y, z)


@dataclass(frozen=True)
class Hold:
    """A piece of a part, moved along a direction, meets a piece of the part `by`."""

    along: Vector
    part: int
    piece: int
    by: int
    by_piece: int


@dataclass(frozen=True)
class Group:
    """Parts that stay together along every direction, and who holds whom along some."""

    parts: Parts
    holds: Tuple[Hold, ...] = ()


class Check(NamedTuple):
    """A command of a planner or a judge that was run, its answer in one line, and what that means."""

    command: str
    answer: str
    meaning: str


class Overlap(NamedTuple):
    """A piece of a part and a piece of the part `by` that have inner points in common."""

    part: int
    piece: int
    by: int
    by_piece: int


@dataclass(frozen=True)
class Plan:
    """Steps in an order in which each divides parts that are still together, and the groups that remain.

    The steps of a side come behind the step that parts it from the other one. Where there is no answer, `fault` is the
    line that says why, and `overlap` is what it names, where parts overlap.
    """

    steps: Tuple[Step, ...]
    groups: Tuple[Group, ...] = ()
    checks: Tuple[Check, ...] = ()
    fault: str = ""
    overlap: Optional[Overlap] = None


def places(plan: Plan, travels: Sequence[int], many: int) -> List[List[Vector]]:
    """By which vector each of so many parts is moved: before the first step, and after each.

    travels: how many times its direction a step leads, in the picture
    """
    at = [NOWHERE] * many
    found = [list(at)]
    for step, times in zip(plan.steps, travels):
        at = [
            moved_by(place, step.along, times) if part in step.moved else place
            for part, place in enumerate(at)
        ]
        found.append(at)
    return found
