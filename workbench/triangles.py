"""Plane polygons with holes, cut into triangles between their own corners.

Ears are clipped (Meisters 1975), after holes were joined to what is around them by bridges (Eberly 2002).
"""
from __future__ import annotations

from typing import List, Sequence, Tuple

import numpy

Flat = Tuple[float, float]


def newell(points: numpy.ndarray) -> numpy.ndarray:
    """Twice the area vector of a closed loop of points (n, 3); its length is nothing where they lie in line."""
    after = numpy.roll(points, -1, axis=0)
    return numpy.cross(points, after).sum(axis=0)


def newells(points: numpy.ndarray, faces: Sequence[Sequence[int]]) -> numpy.ndarray:
    """Twice the area vectors of faces with these points as corners, (m, 3)."""
    found = numpy.zeros((len(faces), 3))
    sizes = numpy.array([len(face) for face in faces], int)
    for size in numpy.unique(sizes):
        numbers = numpy.nonzero(sizes == size)[0]
        rows = points[numpy.array([faces[number] for number in numbers], int)]
        rows = rows - rows[:, :1]
        found[numbers] = numpy.cross(rows, numpy.roll(rows, -1, axis=1)).sum(axis=1)
    return found


def flattened(points: numpy.ndarray, normal: numpy.ndarray) -> numpy.ndarray:
    """The points without the coordinate along which the normal is greatest, seen against the normal."""
    drop = int(numpy.argmax(numpy.abs(normal)))
    keep = [(drop + 1) % 3, (drop + 2) % 3]
    return points[:, keep] if normal[drop] > 0 else points[:, keep[::-1]]


def turn(one: Flat, two: Flat, three: Flat) -> float:
    return (two[0] - one[0]) * (three[1] - one[1]) - (two[1] - one[1]) * (three[0] - one[0])


def area(loop: Sequence[int], flat: Sequence[Flat]) -> float:
    rows = [flat[corner] for corner in loop]
    return sum(a[0] * b[1] - a[1] * b[0] for a, b in zip(rows, rows[1:] + rows[:1])) / 2


def inside(point: Flat, one: Flat, two: Flat, three: Flat) -> bool:
    return (
        turn(one, two, point) >= 0 and turn(two, three, point) >= 0 and turn(three, one, point) >= 0
    )


def crosses(a: Flat, b: Flat, c: Flat, d: Flat) -> bool:
    """Whether the segments a b and c d share a point that is inner to one of them and no common end."""
    if a in (c, d) or b in (c, d):
        return False
    one, two, three, four = turn(a, b, c), turn(a, b, d), turn(c, d, a), turn(c, d, b)
    return one * two <= 0 and three * four <= 0 and (one, two) != (0, 0)


def bridged(loops: Sequence[Sequence[int]], flat: Sequence[Flat]) -> List[int]:
    """One loop around all: the outer one, which is the first, goes in and out of each hole along a bridge."""
    outer = list(loops[0]) if area(loops[0], flat) > 0 else list(loops[0])[::-1]
    holes = [list(loop) if area(loop, flat) < 0 else list(loop)[::-1] for loop in loops[1:]]
    holes.sort(key=lambda loop: -max(flat[corner][0] for corner in loop))
    while holes:
        hole = holes.pop(0)
        start = max(range(len(hole)), key=lambda place: flat[hole[place]])
        hole = hole[start:] + hole[:start]
        at = flat[hole[0]]
        order = sorted(
            range(len(outer)),
            key=lambda place: numpy.hypot(*numpy.subtract(flat[outer[place]], at)),
        )
        walls = [
            (flat[a], flat[b])
            for loop in [outer, hole, *holes]
            for a, b in zip(loop, loop[1:] + loop[:1])
        ]
        place = next(
            place
            for place in order
            if opens(outer, place, at, flat)
            and not any(crosses(at, flat[outer[place]], a, b) for a, b in walls)
        )
        outer = outer[: place + 1] + hole + [hole[0]] + outer[place:]
    return outer


def opens(loop: Sequence[int], place: int, to: Flat, flat: Sequence[Flat]) -> bool:
    """Whether the way from a corner of the loop to a point begins inside."""
    before, at, after = (flat[loop[(place + step) % len(loop)]] for step in (-1, 0, 1))
    if turn(before, at, after) > 0:
        return turn(before, at, to) > 0 and turn(at, after, to) > 0
    return turn(before, at, to) > 0 or turn(at, after, to) > 0


def clipped(loop: List[int], flat: Sequence[Flat]) -> List[List[int]]:
    """The triangles of a loop that goes against the clock."""
    loop, found = list(loop), []
    while len(loop) > 3:
        best = None
        for place in range(len(loop)):
            a, b, c = loop[place - 1], loop[place], loop[(place + 1) % len(loop)]
            if turn(flat[a], flat[b], flat[c]) <= 0:
                continue
            corner = (flat[a], flat[b], flat[c])
            if not any(flat[p] not in corner and inside(flat[p], *corner) for p in loop):
                best = place
                break
        if best is None:  # only corners in line are left, or rounded numbers mislead
            best = max(
                range(len(loop)),
                key=lambda place: turn(
                    flat[loop[place - 1]], flat[loop[place]], flat[loop[(place + 1) % len(loop)]]
                ),
            )
        found.append([loop[best - 1], loop[best], loop[(best + 1) % len(loop)]])
        loop.pop(best)
    return found + [loop]


def triangulated(
    points: numpy.ndarray, loops: Sequence[Sequence[int]], normal: numpy.ndarray
) -> List[List[int]]:
    """Triangles, wound along the normal, of the plane region between an outer loop, the first, and its holes."""
    rows = [(float(x), float(y)) for x, y in flattened(points, normal)]
    return clipped(bridged(loops, rows), rows)
