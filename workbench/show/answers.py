"""The plan of a part list by `staat`: what it answers, with the certificate that `staat confirm` calls valid."""
from __future__ import annotations

from typing import Any, List, Optional, Tuple

from ..answers import ASKED, OfDecide, Overlapping, Told, Unanswered
from ..certificate import Group, Vector
from ..named import Parts
from ..planner import Place
from ..report import CERTIFICATE, many_of
from ..why import ways_of
from . import plans
from .plans import Check, Hold, Plan


def ask_plan(place: Place, parts: Parts, told: Optional[Told] = None) -> Plan:
    """The checked answer, which may be known already; where `staat` refuses, no step, and what is said then.

    Refusal: it cannot be run, or `staat confirm` does not call its answer valid.
    """
    try:
        return plan_of(told or OfDecide(place).told(), place, parts)
    except Unanswered as refused:
        pair = refused.pair if isinstance(refused, Overlapping) else None
        meaning = "parts overlap" if pair else "there is no answer"
        check = Check(f"staat {refused.command}", str(refused), meaning)
        return Plan((), (), (check,), str(refused), pair and plans.Overlap(*pair))


def plan_of(told: Told, place: Place, parts: Parts) -> Plan:
    """What is shown of an answer."""
    answer = told.answer
    listed = place.listed.rpartition("/")[2]
    found = many_of(len(answer.steps), "step")
    if answer.groups:
        found += " and " + many_of(len(answer.groups), "group") + " of parts that hold each other"
    checks = (
        Check(f"staat {' '.join(ASKED)} --manifest={listed}", found, meaning_of(told)),
        Check(
            f"staat confirm {CERTIFICATE} --manifest={listed}",
            told.verdict,
            "said of the certificate of decide",
        ),
    )
    groups = tuple(plans.Group(group.parts, holds_of(group, parts)) for group in answer.groups)
    return Plan(answer.steps, groups, checks)


def meaning_of(told: Told) -> str:
    """What an answer says, in words."""
    moves = "at each step one side moves to infinity, and no inner points of the two sides meet"
    if not told.answer.groups:
        return moves
    holds = "along no direction whatever can some parts of a group move away from its others"
    return f"{moves}; {holds}" if told.answer.steps else holds


def holds_of(group: Group, parts: Parts) -> Tuple[Hold, ...]:
    """The pairs of pieces that meet in a group, by the directions along which they do; of two opposite ones by one."""
    found: List[Hold] = []
    for pair in (pair for hold in group.holds for pair in hold.pairs):
        part, piece, by, by_piece = pair
        for along in ways_of(pair, parts):
            if is_ahead(along):
                found.append(Hold(along, part, piece, by, by_piece))
            else:
                x, y, z = along
                found.append(Hold((-x, -y, -z), by, by_piece, part, piece))
    return tuple(sorted(found, key=order_of))


def is_ahead(along: Vector) -> bool:
    """Whether the first component that is not 0 is positive."""
    return next(number for number in along if number) > 0


def order_of(hold: Hold) -> Tuple[Any, ...]:
    """The axes first, x before y and z."""
    along = hold.along
    axes = (sum(1 for number in along if number), *(-abs(number) for number in along))
    return (*axes, along, hold.part, hold.piece, hold.by, hold.by_piece)
