"""Why parts are stuck, and what is in the way of a part: by the names of the model, each line as `staat` says it."""
from __future__ import annotations

import json
import os
import tempfile
from dataclasses import replace
from typing import Iterator, List, Optional, Sequence, Set

from .answers import Arc, OfDecide
from .certificate import Group, Hold, Pair, Vector
from .meeting import ways_to_meet
from .named import Parts, listed_alone, read_parts
from .planner import Place
from .progress import Progress
from .solid import Refusal
from .writing import LIST


def why(place: Place, part: Optional[str], along: Optional[Vector]) -> Iterator[str]:
    """The lines for a part and a direction, or for the parts that are stuck, each as soon as it is known.

    Refusal: there is no such part, or `staat` has no answer that its checker calls valid.
    """
    parts = read_parts(place)
    planner = OfDecide(place)
    if part is None and along is None:
        return lines_of_stuck(place, parts)
    if part is None or along is None:
        raise Refusal("a part and a direction go together: --part=NAME --along=X,Y,Z")
    return iter(lines_of_way(number_of(part, parts), along, planner.arcs(along), parts))


def number_of(part: str, parts: Parts) -> int:
    """The number of the part with a name, or with that number. Refusal: there is none, or there are several."""
    found = [number for number, name in enumerate(parts.names) if name == part]
    if not found and part.isdigit() and int(part) < len(parts.names):
        return int(part)
    if len(found) != 1:
        few = f'parts {", ".join(map(str, found))} have' if found else "no part has"
        raise Refusal(f'{few} the name "{part}"' + ("; give a number" if found else ""))
    return found[0]


def lines_of_way(part: int, along: Vector, arcs: Set[Arc], parts: Parts) -> List[str]:
    """What blocks a part along a direction, and with which parts it leaves the others, where it does."""
    way = f"{parts.short[part]} along {parts.direction(along)}"
    blocking = sorted(other for one, other in arcs if one == part)
    if not blocking:
        return [f"nothing is in the way of {way}"]
    lines = [f"in the way of {way}: {parts.called(blocking)}"]
    taken = taken_along(part, arcs)
    others = parts.called(sorted(taken - {part}))
    if len(taken) < len(parts.names):
        rest = [number for number in range(len(parts.names)) if number not in taken]
        lines.append(f"it leaves together with {others}, away from {parts.called(rest)}")
    else:
        lines.append("all others would have to go with it")
    return lines


def taken_along(part: int, arcs: Set[Arc]) -> Set[int]:
    """The parts that a part takes along: those that block it, those that block these, and so on, itself with them."""
    found, waiting = {part}, [part]
    while waiting:
        one = waiting.pop()
        for other in sorted(by for blocked, by in arcs if blocked == one):
            if other not in found:
                found.add(other)
                waiting.append(other)
    return found


def lines_of_stuck(place: Place, parts: Parts) -> Iterator[str]:
    """Who holds whom of the parts that are stuck, and which of them, taken away, lets the others come apart."""
    groups = OfDecide(place).told().answer.groups
    if not groups:
        yield "comes apart: no parts are stuck"
    for group in groups:
        yield f"stuck: {parts.called(group.parts)}"
        for hold in group.holds:
            yield from lines_of_hold(hold, parts)
        yield from lines_of_freeing(place, group, parts)


def lines_of_hold(hold: Hold, parts: Parts) -> Iterator[str]:
    """The sets of parts that a hold joins, and the pairs of pieces by which it does, with the directions."""
    nodes = [
        parts.short[node[0]] if len(node) == 1 else f"({parts.called(node)})" for node in hold.nodes
    ]
    yield f"held together: {', '.join(nodes)}"
    for pair in hold.pairs:
        one, other = parts.short[pair.part], parts.short[pair.by]
        ways = ", ".join(map(parts.direction, ways_of(pair, parts)))
        yield (
            f"   {one} runs into {other} along {ways}, and {other} into {one} backwards: "
            f"piece {pair.piece} meets piece {pair.by_piece}"
        )


def ways_of(pair: Pair, parts: Parts) -> List[Vector]:
    """Directions along which the piece of the first part, moved, meets that of the second."""
    return ways_to_meet(parts.body(pair.part, pair.piece), parts.body(pair.by, pair.by_piece))


def lines_of_freeing(place: Place, group: Group, parts: Parts) -> Iterator[str]:
    """Each part of a group without which the others of it come apart, found by asking for the others alone."""
    is_freed = False
    with Progress("parts left out", len(group.parts)) as progress:
        for part in group.parts:
            if comes_apart(place, [one for one in group.parts if one != part]):
                yield f"without {parts.short[part]} the others come apart"
                is_freed = True
            progress.step()
    if not is_freed:
        yield "without any one of them the others are stuck still"


def comes_apart(place: Place, some: Sequence[int]) -> bool:
    """Whether these parts alone come apart. Refusal: there is no answer that the checker calls valid."""
    with tempfile.TemporaryDirectory() as folder:
        path = os.path.join(folder, LIST)
        with open(path, "w", encoding="utf-8") as file:
            json.dump(listed_alone(place, some), file)
        return not OfDecide(replace(place, listed=path)).told().answer.groups
