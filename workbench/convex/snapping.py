"""Cells with corners at fractions become pieces with corners on the grid.

Corners that are points of the grid stay. Another corner goes, as it is asked for, to points of the grid
- around it ("over"): corners of the cube of the grid that holds it, so that the piece holds the cell;
- within the cell ("under"): the nearest such point, if there is one near, so that the piece lies within the cell;
- "near": the nearest one that is not ahead of the faces of the solid, so that the piece reaches into nothing
  that touches the solid there. It may go beyond a wall that is only a cut between two pieces.
Cells that are so thin that too few points are left become no piece; the bounds then tell what is missing.
"""
from __future__ import annotations

import itertools
import math
from fractions import Fraction
from typing import Iterable, List, Optional, Sequence, Set

import numpy
from scipy.optimize import linprog
from scipy.spatial import HalfspaceIntersection, QhullError

from ..hulls import Point, piece_of, spans_space
from ..solid import Piece
from .cells import Cell, Corner, Number, Wall, height_of

AROUND_TABLE = numpy.array(list(itertools.product((-1, 0, 1, 2), repeat=3)), float)


def is_whole(corner: Corner) -> bool:
    return all(Fraction(number).denominator == 1 for number in corner)


def floor_of(corner: Corner) -> Point:
    return (math.floor(corner[0]), math.floor(corner[1]), math.floor(corner[2]))


def snapped(cell: Cell, side: str, skin: Set[Wall]) -> List[Point]:
    """The points of the grid whose hull stands for the cell; too few where it is too thin.

    skin: the planes of the faces of the solid
    """
    faces = [wall for wall in cell.walls if wall in skin]
    found: Set[Point] = set()
    for corner in cell.corners:
        if is_whole(corner):
            found.add(floor_of(corner))
        elif side == "over":
            found.update(cube_around(corner))
        elif side == "near":
            spot = nearest(corner, faces)
            found.add(spot or (round(corner[0]), round(corner[1]), round(corner[2])))
        else:
            found.update(inner_spots(cell, numpy.array([float(number) for number in corner])))
    return sorted(found)


def inner_spots(cell: Cell, corner: numpy.ndarray) -> List[Point]:
    """A point of the grid in a cell, near a corner: where there is none, it is looked for nearer to the middle."""
    middle = cell.table.mean(axis=0)
    way = middle - corner
    length = float(numpy.linalg.norm(way))
    ahead = 0.0
    while ahead <= length:
        at = corner + way * (ahead / length if length else 0.0)
        spot = nearest((float(at[0]), float(at[1]), float(at[2])), cell.walls)
        if spot is not None:
            return [spot]
        ahead = max(2.0, 1.5 * ahead)
    return []


def cube_around(corner: Corner) -> Iterable[Point]:
    """The corners of the smallest cube, square or edge of the grid that holds a corner."""
    ranges = [sorted({math.floor(number), math.ceil(number)}) for number in corner]
    return itertools.product(*ranges)  # type: ignore[return-value]


def nearest(corner: Sequence[Number], walls: Sequence[Wall]) -> Optional[Point]:
    """The point of the grid nearest to a corner that is ahead of no wall; nothing where none is near."""
    at = numpy.array([float(number) for number in corner])
    spots = numpy.floor(at) + AROUND_TABLE
    for spot in spots[((spots - at) ** 2).sum(axis=1).argsort(kind="stable")]:
        point: Point = (int(spot[0]), int(spot[1]), int(spot[2]))
        if all(height_of(normal, point) <= height for normal, height in walls):
            return point
    return None


def grown(points: Iterable[Point], axes: Sequence[int], far: float) -> List[Point]:
    """Points whose hull is that of the points, grown both ways along each of the axes by at least `far` steps."""
    step = max(1, math.ceil(far))
    ways = [(-step, step) if axis in axes else (0,) for axis in range(3)]
    return sorted(
        {(x + i, y + j, z + k) for x, y, z in points for i, j, k in itertools.product(*ways)}
    )


def shrunk(cell: Cell, depth: float) -> List[Point]:
    """Points of the grid that lie at least so deep in a cell, near the corners of what lies so deep: in steps.

    They are tested by rounded numbers, whose errors are allowed for.
    """
    heights = cell.heights - depth - 1e-6
    corners = corners_within(cell.normals, heights)
    found: Set[Point] = set()
    for corner in corners:
        way = corners.mean(axis=0) - corner
        length, ahead = float(numpy.linalg.norm(way)), 0.0
        while ahead <= length:
            at = corner + way * (ahead / length if length else 0.0)
            spots = numpy.floor(at) + AROUND_TABLE
            spots = spots[(cell.normals @ spots.T <= heights[:, None]).all(axis=0)]
            if len(spots):
                spot = spots[((spots - at) ** 2).sum(axis=1).argmin()]
                found.add((int(spot[0]), int(spot[1]), int(spot[2])))
                break
            ahead = max(2.0, 1.5 * ahead)
    return sorted(found)


def corners_within(normals: numpy.ndarray, heights: numpy.ndarray) -> numpy.ndarray:
    """The corners of what some planes hold, (m, 3); none where they hold no ball."""
    lengths = numpy.linalg.norm(normals, axis=1)
    told = linprog(
        [0, 0, 0, -1],
        A_ub=numpy.hstack([normals, lengths[:, None]]),
        b_ub=heights,
        bounds=[(None, None)] * 3 + [(0, None)],
    )
    if not told.success or told.x[3] <= 1e-6:
        return numpy.zeros((0, 3))
    try:
        found = HalfspaceIntersection(
            numpy.hstack([normals, -heights[:, None]]), told.x[:3]
        ).intersections
    except QhullError:
        return numpy.zeros((0, 3))
    return found[numpy.isfinite(found).all(axis=1)]


def piece_or_none(points: List[Point]) -> Optional[Piece]:
    """The hull of the points; nothing where they are flat."""
    return piece_of(points) if len(points) >= 4 and spans_space(points) else None


def small_pieces(points: List[Point], corners: int) -> List[Piece]:
    """Pieces of at most so many corners whose union is the hull of the points.

    The hull is the union of the cones from one corner to its faces. Faces on one side go to one piece, those on the
    other to another; the two share inner points, and no corner is new.
    """
    piece = piece_or_none(points)
    if piece is None:
        return []
    if len(piece.points) <= corners:
        return [piece]
    rows = [(int(x), int(y), int(z)) for x, y, z in piece.points]
    best: List[List[Point]] = []
    for axis in range(3):
        centre = sorted(row[axis] for row in rows)[len(rows) // 2]
        apex = min(rows, key=lambda row: (abs(row[axis] - centre), row))
        groups: List[Set[Point]] = [{apex}, {apex}]
        for face in piece.faces:
            middle = sum(rows[corner][axis] for corner in face) / len(face)
            groups[middle > centre].update(rows[corner] for corner in face)
        if not best or max(map(len, groups)) < max(map(len, best)):
            best = [sorted(group) for group in groups]
    if max(map(len, best)) >= len(rows):
        best = fans(rows, piece.faces, corners)
    return [small for group in best for small in small_pieces(group, corners)]


def fans(rows: List[Point], faces: List[List[int]], corners: int) -> List[List[Point]]:
    """The points of cones from the first corner to few faces at a time."""
    groups: List[Set[Point]] = [{rows[0]}]
    for face in faces:
        for at in range(1, len(face) - 1, corners - 3):
            end = at + corners - 2
            some = {rows[corner] for corner in [face[0], *face[at:end]]}
            if len(groups[-1] | some) > corners:
                groups.append({rows[0]})
            groups[-1] |= some
    return [sorted(group) for group in groups]
