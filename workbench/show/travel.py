"""How far each step leads in the picture: the rule of `staat explode` (docs/FORMATS.md), for any plan."""
from __future__ import annotations

from dataclasses import dataclass
from typing import List, Sequence

from ..certificate import Step
from .plans import NOWHERE, Plan, Vector, moved_by


@dataclass(frozen=True)
class Box:
    """The least and the greatest coordinates of a part."""

    low: Vector
    high: Vector


def travels(plan: Plan, boxes: Sequence[Box]) -> List[int]:
    """For each step how many times its direction it leads, the least with which the boxes of the two sides are apart.

    They are a step of the grid apart in the first component in which the direction is not 0, once both sides are
    taken apart themselves. So the last steps are done first.
    """
    at = [NOWHERE] * len(boxes)
    found: List[int] = []
    for step in reversed(plan.steps):
        times = least_travel(step, boxes, at)
        found.append(times)
        at = [
            moved_by(place, step.along, times) if part in step.moved else place
            for part, place in enumerate(at)
        ]
    return found[::-1]


def least_travel(step: Step, boxes: Sequence[Box], at: Sequence[Vector]) -> int:
    """The least whole number from 0 on, where the parts stand moved by `at`."""
    axis = next(k for k, number in enumerate(step.along) if number)
    if step.along[axis] > 0:
        way = 1 + max(boxes[p].high[axis] + at[p][axis] for p in step.rest)
        way -= min(boxes[p].low[axis] + at[p][axis] for p in step.moved)
    else:
        way = 1 + max(boxes[p].high[axis] + at[p][axis] for p in step.moved)
        way -= min(boxes[p].low[axis] + at[p][axis] for p in step.rest)
    return max(0, -(-way // abs(step.along[axis])))
