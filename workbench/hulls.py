"""Convex hulls of whole points, exact: every test is one of whole numbers.

`scipy` proposes planes with rounded numbers. Only planes with no point ahead are kept, and what is missing then is
found by turning planes about edges that lack a face, as one wraps a gift (Chand and Kapur, 1970).
"""
from __future__ import annotations

import math
from typing import Dict, Iterable, List, Sequence, Set, Tuple

import numpy
from scipy.spatial import ConvexHull, QhullError

from .solid import Piece

Point = Tuple[int, int, int]
# Outward normals with the corners of their faces, from outside against the clock.
Faces = Dict[Point, List[Point]]


def less(one: Sequence[int], other: Sequence[int]) -> Point:
    return (one[0] - other[0], one[1] - other[1], one[2] - other[2])


def cross(one: Sequence[int], other: Sequence[int]) -> Point:
    return (
        one[1] * other[2] - one[2] * other[1],
        one[2] * other[0] - one[0] * other[2],
        one[0] * other[1] - one[1] * other[0],
    )


def dot(one: Sequence[int], other: Sequence[int]) -> int:
    return one[0] * other[0] + one[1] * other[1] + one[2] * other[2]


def primitive(vector: Sequence[int]) -> Point:
    """The shortest whole vector that points the same way."""
    divisor = math.gcd(*vector)
    return (vector[0] // divisor, vector[1] // divisor, vector[2] // divisor)


def spans_space(points: Sequence[Point]) -> bool:
    """Whether the points do not all lie in one plane."""
    rest = [less(point, points[0]) for point in points[1:]]
    first = next((vector for vector in rest if any(vector)), (0, 0, 0))
    normals = (cross(first, vector) for vector in rest)
    normal = next((normal for normal in normals if any(normal)), (0, 0, 0))
    return any(dot(normal, vector) for vector in rest)


def turned(points: Sequence[Point], at: Point, along: Point, normal: Point) -> Point:
    """The normal of a plane with no point ahead, after it is turned about a line in it until it meets a point."""
    inward = cross(normal, along)
    best: Tuple[int, int] = (0, 0)
    chosen: Point = (0, 0, 0)
    for point in points:
        step = less(point, at)
        place = (-dot(inward, step), -dot(normal, step))
        if place != (0, 0) and (best == (0, 0) or place[0] * best[1] > place[1] * best[0]):
            best, chosen = place, step
    return primitive(cross(chosen, along))


def face_on(points: Sequence[Point], normal: Point) -> List[Point]:
    """The corners of the face with this outward normal, in order, seen from outside against the clock."""
    height = max(dot(normal, point) for point in points)
    flat = [point for point in points if dot(normal, point) == height]
    drop = max(range(3), key=lambda axis: abs(normal[axis]))
    keep = [(drop + 1) % 3, (drop + 2) % 3]
    flat.sort(key=lambda point: (point[keep[0]], point[keep[1]]))

    def chain(row: List[Point]) -> List[Point]:
        kept: List[Point] = []
        for point in row:
            while len(kept) > 1:
                one, other = less(kept[-1], kept[-2]), less(point, kept[-1])
                if one[keep[0]] * other[keep[1]] - one[keep[1]] * other[keep[0]] > 0:
                    break
                kept.pop()
            kept.append(point)
        return kept[:-1]

    corners = chain(flat) + chain(flat[::-1])
    return corners if normal[drop] > 0 else corners[::-1]


def exact_hull(points: Sequence[Point]) -> Faces:
    """The faces of the hull of whole points that span space: outward normals with their corners."""
    # Differences stay below 2^19, so all products here stay below 2^62.
    table = numpy.array(points, numpy.int64)
    normals: Set[Point] = set()
    try:
        for simplex in ConvexHull(table.astype(float)).simplices:
            one, two, three = (points[number] for number in simplex)
            normal = cross(less(two, one), less(three, one))
            if any(normal):
                heights = table @ numpy.array(normal, numpy.int64)
                height = dot(normal, one)
                if heights.max() == height:
                    normals.add(primitive(normal))
                elif heights.min() == height:
                    normals.add(primitive(less((0, 0, 0), normal)))
    except QhullError:
        pass
    return wrapped(points, normals)


def wrapped(points: Sequence[Point], normals: Set[Point]) -> Faces:
    """The faces of the hull, of which these normals are known; each normal must be that of a face."""
    if not normals:
        first = min(points)
        half = turned(points, first, (0, 0, 1), (-1, 0, 0))
        second = next(p for p in points if dot(half, less(p, first)) == 0 and p[:2] != first[:2])
        normals = {turned(points, first, less(second, first), half)}
    faces = {normal: face_on(points, normal) for normal in normals}
    waiting = list(faces)
    owner: Dict[Tuple[Point, Point], Point] = {}
    for normal, face in faces.items():
        owner.update({edge: normal for edge in zip(face, face[1:] + face[:1])})
    while waiting:
        normal = waiting.pop()
        face = faces[normal]
        for one, other in zip(face, face[1:] + face[:1]):
            if (other, one) not in owner:
                new = turned(points, one, less(other, one), normal)
                faces[new] = face_on(points, new)
                owner.update(
                    {edge: new for edge in zip(faces[new], faces[new][1:] + faces[new][:1])}
                )
                waiting.append(new)
    return faces


def is_hull(points: Sequence[Point], faces: Faces) -> bool:
    """Whether these are the faces of the hull: closed, and with no point ahead of any."""
    corners = {corner for face in faces.values() for corner in face}
    edges = [edge for face in faces.values() for edge in zip(face, face[1:] + face[:1])]
    distinct = set(edges)
    return (
        len(distinct) == len(edges)
        and all((other, one) in distinct for one, other in edges)
        and len(corners) - len(edges) // 2 + len(faces) == 2
        and all(
            len(face) >= 3
            and all(dot(normal, less(point, face[0])) <= 0 for point in points)
            and all(dot(normal, less(corner, face[0])) == 0 for corner in face)
            for normal, face in faces.items()
        )
    )


def piece_of(points: Iterable[Sequence[int]]) -> Piece:
    """The piece that is the hull of whole points which span space; its corners in ascending order."""
    rows = sorted({(int(x), int(y), int(z)) for x, y, z in points})
    faces = exact_hull(rows)
    corners = sorted({corner for face in faces.values() for corner in face})
    place = {corner: number for number, corner in enumerate(corners)}
    listed = sorted([place[corner] for corner in face] for face in faces.values())
    return Piece(numpy.array(corners, numpy.int64).reshape(-1, 3), listed)
