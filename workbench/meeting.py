"""Along which directions a piece meets another one, in whole numbers.

The pieces have no inner points in common. Where the shadows that they cast along a direction have, they meet along it
or along its opposite, and a wall between them tells which.
"""
from __future__ import annotations

from typing import List, Tuple

import numpy

from .hulls import less, primitive
from .overlaps import Body

Vector = Tuple[int, int, int]
# The axes, then what lies midway between two of them, then between three; of two opposite ones the greater first.
SIGNS = (1, 0, -1)
EACH: List[Vector] = [(x, y, z) for x in SIGNS for y in SIGNS for z in SIGNS if x or y or z]


def axes_of(way: Vector) -> int:
    """Between how many axes a direction is midway."""
    return sum(1 for number in way if number)


LIKELY = sorted(EACH, key=axes_of)


def shadows_overlap(one: Body, other: Body, along: Vector) -> bool:
    """Whether the shadows of two pieces along a direction have inner points in common."""
    edges = numpy.array(one.edges + other.edges, dtype=numpy.int64)
    walls = numpy.cross(edges, numpy.array(along, dtype=numpy.int64))
    walls = walls[walls.any(axis=1)]
    mine, theirs = walls @ one.points.T, walls @ other.points.T
    apart = (mine.max(axis=1) <= theirs.min(axis=1)) | (theirs.max(axis=1) <= mine.min(axis=1))
    return not bool(apart.any())


def wall_between(one: Body, other: Body) -> Vector:
    """The normal of a wall with all of the one behind it and all of the other ahead. ValueError: they overlap."""
    crossed = numpy.cross(
        numpy.array(one.edges)[:, None, :], numpy.array(other.edges)[None, :, :]
    ).reshape(-1, 3)
    faces = numpy.array(one.normals + [less((0, 0, 0), normal) for normal in other.normals])
    for walls in (faces, crossed, -crossed):
        walls = walls[walls.any(axis=1)]
        apart = (walls @ one.points.T).max(axis=1) <= (walls @ other.points.T).min(axis=1)
        if apart.any():
            x, y, z = map(int, walls[int(apart.argmax())])
            return (x, y, z)
    raise ValueError("the pieces overlap")


def ways_to_meet(one: Body, other: Body) -> List[Vector]:
    """The directions along which the one, moved, meets the other that rests: those of the axes; where there is none,
    those midway between axes; and where there is none either, the one from its middle to that of the other.
    """
    wall = wall_between(one, other)
    found = [
        way
        for way in LIKELY
        if sum(n * d for n, d in zip(wall, way)) > 0 and shadows_overlap(one, other, way)
    ]
    if not found:
        return [towards(one, other)]
    return [way for way in found if axes_of(way) == axes_of(found[0])]


def towards(one: Body, other: Body) -> Vector:
    """The direction from the middle of the corners of the one to that of the other."""
    way = len(one.points) * other.points.sum(axis=0) - len(other.points) * one.points.sum(axis=0)
    x, y, z = map(int, way)
    return primitive((x, y, z))
