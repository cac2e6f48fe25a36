"""The lines of a part's surface, where its convex pieces lie side by side: only where the union of them has a bend.

Around a point of an edge each piece that contains it fills a wedge, an interval of angles. Where the wedges together
leave out just one interval of half a circle, the surface is plane there; where they leave out nothing, the point lies
inside of the part.
"""
from __future__ import annotations

import math
from dataclasses import dataclass
from functools import cached_property
from typing import Iterator, List, Optional, Sequence, Tuple

import numpy

NEAR = 2e-5  # of the extent of the product: so near each other are pieces that touch
FLAT = math.radians(1.5)  # a bend of less is none
WHOLE = 2 * math.pi

Interval = Tuple[float, float]


@dataclass(frozen=True)
class Body:
    """A convex piece: points (n, 3), and its faces, which are lists of corners."""

    points: numpy.ndarray
    faces: Tuple[Tuple[int, ...], ...]

    @cached_property
    def planes(self) -> Tuple[numpy.ndarray, numpy.ndarray]:
        """The unit normals outwards (n, 3), and their products with the points of the faces."""
        normals = numpy.array([self.normal(face) for face in self.faces])
        normals = normals[numpy.any(normals != 0, axis=1)]
        levels = (self.points @ normals.T).max(axis=0)
        return normals, levels

    def normal(self, face: Sequence[int]) -> numpy.ndarray:
        corners = self.points[list(face)]
        found = numpy.cross(corners, numpy.roll(corners, -1, axis=0)).sum(axis=0)
        size = float(numpy.linalg.norm(found))
        if size == 0:
            return numpy.zeros(3)
        found = found / size
        return found if (self.points.mean(axis=0) - corners[0]) @ found <= 0 else -found

    @cached_property
    def edges(self) -> List[Tuple[int, int]]:
        return sorted(
            {
                (min(a, b), max(a, b))
                for face in self.faces
                for a, b in zip(face, (*face[1:], face[0]))
            }
        )


def creases(bodies: Sequence[Body], extent: float) -> numpy.ndarray:
    """The lines (n, 2, 3) of the union of convex pieces; extent: how long the product is, which says what is near."""
    near = NEAR * extent
    found = {}
    for body in bodies:
        for a, b in body.edges:
            for line in bent(body.points[a], body.points[b], bodies, near):
                found[key(line, near)] = line
    return numpy.array(list(found.values())).reshape(-1, 2, 3)


def key(line: numpy.ndarray, near: float) -> Tuple[Tuple[int, ...], ...]:
    """The same for lines that are the same but for their sense."""
    return tuple(sorted(tuple(map(int, numpy.round(point / (2 * near)))) for point in line))


def bent(
    start: numpy.ndarray, end: numpy.ndarray, bodies: Sequence[Body], near: float
) -> Iterator[numpy.ndarray]:
    """The stretches of an edge along which the union has a bend."""
    length = float(numpy.linalg.norm(end - start))
    if length <= near:
        return
    along = (end - start) / length
    low, high = numpy.minimum(start, end) - near, numpy.maximum(start, end) + near
    around = [
        body
        for body in bodies
        if (body.points.min(axis=0) <= high).all() and (body.points.max(axis=0) >= low).all()
    ]
    first: Optional[float] = None
    stops = crossings(start, along, length, around, near)
    for one, other in zip(stops, stops[1:]):
        if is_bent(start + along * (one + other) / 2, along, around, near):
            first = one if first is None else first
        elif first is not None:
            yield numpy.array([start + along * first, start + along * one])
            first = None
    if first is not None:
        yield numpy.array([start + along * first, end])


def crossings(
    start: numpy.ndarray, along: numpy.ndarray, length: float, bodies: Sequence[Body], near: float
) -> List[float]:
    """How far along an edge it crosses planes of the pieces, in order, with both ends."""
    normals = numpy.concatenate([body.planes[0] for body in bodies])
    levels = numpy.concatenate([body.planes[1] for body in bodies])
    slopes = normals @ along
    across = numpy.abs(slopes) > 1e-6
    at = (levels[across] - normals[across] @ start) / slopes[across]
    inner = sorted(at[(at > near) & (at < length - near)])
    stops = [0.0]
    stops += [float(b) for a, b in zip([0.0, *inner], inner) if b - a > near]
    return [*stops, length]


def is_bent(
    point: numpy.ndarray, along: numpy.ndarray, bodies: Sequence[Body], near: float
) -> bool:
    """Whether the union has a bend at a point of an edge."""
    side = numpy.cross(along, (1.0, 0.0, 0.0) if abs(along[0]) < 0.9 else (0.0, 1.0, 0.0))
    side /= numpy.linalg.norm(side)
    up = numpy.cross(along, side)
    wedges = [wedge(point, side, up, body, near) for body in bodies]
    left = gaps([found for found in wedges if found is not None])
    return bool(left) and not (len(left) == 1 and abs(left[0] - math.pi) < FLAT)


def wedge(
    point: numpy.ndarray, side: numpy.ndarray, up: numpy.ndarray, body: Body, near: float
) -> Optional[Interval]:
    """The angles that a piece fills around a point; nothing where it does not contain it."""
    normals, levels = body.planes
    room = levels - normals @ point
    if (room < -near).any():
        return None
    touching = normals[room < near]
    angles = sorted(math.atan2(normal @ up, normal @ side) for normal in touching)
    if not angles:
        return (0.0, WHOLE)
    # the normals lie in less than a whole circle: the piece lies opposite, as wide as they leave of half a circle
    steps = [b - a for a, b in zip(angles, [*angles[1:], angles[0] + WHOLE])]
    widest = max(range(len(steps)), key=steps.__getitem__)
    last, first = angles[widest], angles[(widest + 1) % len(angles)]
    spread = (last - first) % WHOLE
    begin = (last + math.pi / 2) % WHOLE
    return (begin, begin + max(0.0, math.pi - spread))


def gaps(wedges: Sequence[Interval]) -> List[float]:
    """How wide the intervals are that wedges leave out of a circle, those that are not too narrow."""
    if not wedges:
        return [WHOLE]
    found: List[float] = []
    reached = max(high for _, high in wedges) - WHOLE
    for low, high in sorted(wedges):
        found.append(low - reached)
        reached = max(reached, high)
    return [gap for gap in found if gap > FLAT]
