"""Whether pieces of different parts overlap, by whole numbers, as `staat look` finds it; and how deep.

Two convex pieces share no inner point exactly where a wall stands between them whose normal is that of a face of either
or perpendicular to an edge of each.
"""
from __future__ import annotations

from dataclasses import dataclass
from typing import Iterator, List, Optional, Sequence, Set, Tuple

import numpy

from .hulls import Point, cross, less, primitive
from .solid import Piece


@dataclass
class Overlap:
    """Piece i of part a overlaps piece j of part b, which is greater than a; `depth` in steps is how far at most."""

    a: int
    i: int
    b: int
    j: int
    depth: float


class Body:
    """A piece with the normals of its faces and the directions of its edges, all shortest whole vectors."""

    def __init__(self, part: int, number: int, piece: Piece) -> None:
        self.part, self.number, self.points = part, number, piece.points
        self.least, self.most = piece.points.min(axis=0), piece.points.max(axis=0)
        normals: Set[Point] = set()
        edges: Set[Point] = set()
        for face in piece.faces:
            corners = [tuple(map(int, piece.points[corner])) for corner in face]
            first = less(corners[1], corners[0])
            normals.update(
                {primitive(n) for n in (cross(first, less(c, corners[0])) for c in corners[2:3])}
            )
            for one, other in zip(corners, corners[1:] + corners[:1]):
                edges.add(max(primitive(less(one, other)), primitive(less(other, one))))
        self.normals, self.edges = sorted(normals), sorted(edges)


def apart_by_boxes(one: Body, other: Body) -> bool:
    return bool((one.most <= other.least).any() or (other.most <= one.least).any())


def depth_between(one: Body, other: Body) -> Optional[float]:
    """Nothing where the two share no inner point; else the least way, in steps, that takes them apart."""
    faces = numpy.array(
        one.normals + [less((0, 0, 0), normal) for normal in other.normals], numpy.int64
    )
    crossed = numpy.cross(
        numpy.array(one.edges)[:, None, :], numpy.array(other.edges)[None, :, :]
    ).reshape(-1, 3)
    crossed = crossed[crossed.any(axis=1)]
    least = numpy.inf
    for walls in (faces, crossed, -crossed):
        if len(walls):
            ways = (walls @ one.points.T).max(axis=1) - (walls @ other.points.T).min(axis=1)
            if (ways <= 0).any():
                return None
            least = min(least, float((ways / numpy.linalg.norm(walls.astype(float), axis=1)).min()))
    return least


def near_pairs(bodies: Sequence[Body]) -> Iterator[Tuple[Body, Body]]:
    """Pairs of bodies of different parts whose boxes share inner points, by a sweep along x."""
    open_ones: List[Body] = []
    for body in sorted(bodies, key=lambda body: int(body.least[0])):
        open_ones = [other for other in open_ones if other.most[0] > body.least[0]]
        for other in open_ones:
            if other.part != body.part and not apart_by_boxes(other, body):
                yield (other, body) if other.part < body.part else (body, other)
        open_ones.append(body)


def overlaps(parts: Sequence[Sequence[Piece]]) -> List[Overlap]:
    """All overlaps of pieces of different parts, in the order of `staat`: by a, then i, b and j."""
    bodies = [
        Body(part, number, piece)
        for part, some in enumerate(parts)
        for number, piece in enumerate(some)
    ]
    found = []
    for one, other in near_pairs(bodies):
        depth = depth_between(one, other)
        if depth is not None:
            found.append(Overlap(one.part, one.number, other.part, other.number, depth))
    return sorted(found, key=lambda overlap: (overlap.a, overlap.i, overlap.b, overlap.j))
