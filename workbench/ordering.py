"""Steps that follow in one direction, and which orders among their parts are possible."""
from __future__ import annotations

from dataclasses import dataclass
from typing import Dict, Iterable, List, Optional, Sequence, Set, Tuple

from .answers import Arc, Planner
from .certificate import Step, Vector


@dataclass(frozen=True)
class Run:
    """Steps that follow each other along one direction.

    first: the number of the first of them, from 0; units: the sets of parts that they take apart, each of which stays
    together; before: pairs of units, of which the first has to leave before the second one, where there are several
    steps. What follows from others is left out; is_known: whether the planner told it
    """

    first: int
    steps: Tuple[Step, ...]
    units: Tuple[Tuple[int, ...], ...]
    before: Tuple[Tuple[int, int], ...]
    is_known: bool = True

    @property
    def along(self) -> Vector:
        return self.steps[0].along

    def moves(self, unit: int) -> bool:
        """Whether a step moves the parts of a unit."""
        return any(self.units[unit][0] in step.moved for step in self.steps)


def runs_of(steps: Sequence[Step], planner: Optional[Planner]) -> List[Run]:
    """The steps in runs, with the orders that each of them allows, where a planner is there to tell them.

    Refusal: it does not.
    """
    found: List[Run] = []
    arcs: Dict[Vector, Set[Arc]] = {}
    start = 0
    for number in range(1, len(steps) + 1):
        if number < len(steps) and steps[number].along == steps[start].along:
            continue
        some = tuple(steps[start:number])
        along = some[0].along
        units = units_of(some)
        if planner is not None and along not in arcs and len(some) > 1:
            arcs[along] = planner.arcs(along)
        pairs = before(units, arcs[along], some) if planner and len(some) > 1 else ()
        found.append(Run(start, some, units, pairs, planner is not None or len(some) == 1))
        start = number
    return found


def units_of(steps: Sequence[Step]) -> Tuple[Tuple[int, ...], ...]:
    """The parts of these steps in sets that no step takes apart, in order of their least parts."""
    parts = sorted({part for step in steps for part in (*step.moved, *step.rest)})
    sides: Dict[Tuple[str, ...], List[int]] = {}
    for part in parts:
        side = tuple(
            "moved" if part in step.moved else "rest" if part in step.rest else "" for step in steps
        )
        sides.setdefault(side, []).append(part)
    return tuple(sorted(tuple(some) for some in sides.values()))


def before(
    units: Sequence[Tuple[int, ...]], arcs: Iterable[Arc], steps: Sequence[Step]
) -> Tuple[Tuple[int, int], ...]:
    """Which units leave before which: a unit that blocks another one goes first, where a step parts the two."""
    owner = {part: number for number, unit in enumerate(units) for part in unit}
    pairs = {
        (owner[blocking], owner[blocked])
        for blocked, blocking in arcs
        if blocked in owner and blocking in owner and owner[blocked] != owner[blocking]
    }
    met = {pair for pair in pairs if parted(units[pair[0]][0], units[pair[1]][0], steps)}
    return tuple(sorted(reduced(met)))


def parted(one: int, other: int, steps: Sequence[Step]) -> bool:
    """Whether a step moves one of two parts away from the other."""
    return any(
        one in step.moved and other in step.rest or one in step.rest and other in step.moved
        for step in steps
    )


def reduced(pairs: Set[Tuple[int, int]]) -> Set[Tuple[int, int]]:
    """The pairs of an order without circles that do not follow from the others (Aho, Garey and Ullman 1972)."""
    after: Dict[int, Set[int]] = {}
    for one, other in pairs:
        after.setdefault(one, set()).add(other)
    return {
        (one, other)
        for one, other in pairs
        if not any(leads(middle, other, after) for middle in after[one] - {other})
    }


def leads(one: int, other: int, after: Dict[int, Set[int]]) -> bool:
    """Whether a way leads from the one to the other."""
    seen, waiting = {one}, [one]
    while waiting:
        for following in after.get(waiting.pop(), ()):
            if following == other:
                return True
            if following not in seen:
                seen.add(following)
                waiting.append(following)
    return False
