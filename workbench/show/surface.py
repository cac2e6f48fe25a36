"""The surface of a part: the faces of its convex pieces without what lies against another piece of it."""
from __future__ import annotations

from typing import Iterator, List, NamedTuple, Sequence, Tuple

import numpy

from .creases import NEAR, Body

OPPOSITE = (
    -1.0 + 1e-6
)  # the product of the normals of two faces that lie against each other, at most


class Face(NamedTuple):
    """A face of a piece: its corners (n, 3), wound outwards, and its unit normal outwards."""

    corners: numpy.ndarray
    across: numpy.ndarray


def surface(bodies: Sequence[Body], extent: float) -> List[numpy.ndarray]:
    """Convex polygons (n, 3), wound outwards; extent: how long the product is, which says what is near."""
    near = NEAR * extent
    faces = [list(outlines(body)) for body in bodies]
    found: List[numpy.ndarray] = []
    for number, body in enumerate(bodies):
        others = [
            face
            for k, other in enumerate(bodies)
            if k != number and touch(body, other, near)
            for face in faces[k]
        ]
        found += [left for face in faces[number] for left in uncovered(face, others, near)]
    return found


def touch(one: Body, other: Body, near: float) -> bool:
    """Whether the boxes around two pieces meet."""
    low = numpy.maximum(one.points.min(axis=0), other.points.min(axis=0))
    high = numpy.minimum(one.points.max(axis=0), other.points.max(axis=0))
    return bool((low <= high + near).all())


def outlines(body: Body) -> Iterator[Face]:
    """The faces of a piece that have an area."""
    middle = body.points.mean(axis=0)
    for face in body.faces:
        corners = body.points[list(face)]
        across = normal_of(corners)
        if across.any():
            is_outwards = (corners[0] - middle) @ across > 0
            yield Face(corners, across) if is_outwards else Face(corners[::-1], -across)


def normal_of(corners: numpy.ndarray) -> numpy.ndarray:
    """The unit normal of a polygon; zero where it has no area."""
    found = numpy.cross(corners, numpy.roll(corners, -1, axis=0)).sum(axis=0)
    size = float(numpy.linalg.norm(found))
    return found / size if size > 0 else numpy.zeros(3)


def uncovered(face: Face, others: Sequence[Face], near: float) -> List[numpy.ndarray]:
    """What is left of a face of a piece without what lies against faces of others."""
    across = face.across
    left = [face.corners]
    for other in others:
        if (
            other.across @ across < OPPOSITE
            and abs((other.corners[0] - face.corners[0]) @ across) < near
        ):
            against = other.corners[::-1]
            left = [rest for one in left for rest in without(one, against, across, near)]
    return left


def without(
    one: numpy.ndarray, other: numpy.ndarray, across: numpy.ndarray, near: float
) -> List[numpy.ndarray]:
    """A convex polygon without another one in its plane: convex polygons. Both are wound about `across`."""
    outside = []
    inside = one
    for start, end in zip(other, numpy.roll(other, -1, axis=0)):
        outwards = numpy.cross(end - start, across)
        size = float(numpy.linalg.norm(outwards))
        if size <= near:
            continue
        inside, beyond = halves(inside, outwards / size, float(start @ outwards) / size, near)
        if len(inside) < 3:
            return [one]
        if len(beyond) >= 3:
            outside.append(beyond)
    return outside


def halves(
    polygon: numpy.ndarray, outwards: numpy.ndarray, level: float, near: float
) -> Tuple[numpy.ndarray, numpy.ndarray]:
    """What of a convex polygon lies up to a line in its plane, and what beyond; nothing where it has no width."""
    room = level - polygon @ outwards
    if (room > -near).all():
        return polygon, polygon[:0]
    if (room < near).all():
        return polygon[:0], polygon
    inner, outer = [], []
    for point, following, here, there in zip(
        polygon, numpy.roll(polygon, -1, axis=0), room, numpy.roll(room, -1)
    ):
        inner += [point] if here >= 0 else []
        outer += [point] if here <= 0 else []
        if here * there < 0:
            cut = point + (following - point) * here / (here - there)
            inner.append(cut)
            outer.append(cut)
    return numpy.array(inner), numpy.array(outer)
