"""Solids that are convex but for so little that their hull may stand for them."""
from __future__ import annotations

from typing import List, Sequence

import numpy
from scipy.spatial import ConvexHull, QhullError

from ..hulls import Point

MOST_ENTRIES = 4_000_000  # of a table of faces by corners


def beyond_hull(points: numpy.ndarray, faces: Sequence[Sequence[int]], allowed: float) -> float:
    """An upper bound, in steps, of how far the hull goes beyond the solid in a closed surface; infinite beyond allowed.

    Let all faces turn their inner side to a point c, so that the solid is the union of the cones from c to its
    triangles. Let a triangle lie at most d below a face of the hull, and c lie D below it. A point of the hull beyond
    the triangle, as c sees it, then lies at most D / (D - d) times as far from c as the point of the triangle before
    it. So it lies within R d / (D - d) of that point, where R is the greatest distance of a corner from c.
    """
    table = numpy.array(points, float)
    triangles = numpy.array(
        [[face[0], a, b] for face in faces for a, b in zip(face[1:], face[2:])], int
    )
    try:
        hull = ConvexHull(table)
    except QhullError:
        return numpy.inf
    equations = numpy.unique(hull.equations.round(9), axis=0)
    if len(equations) * len(table) > MOST_ENTRIES * 16 or not len(triangles):
        return numpy.inf
    centre = table[hull.vertices].mean(axis=0)
    a, b, c = (table[triangles[:, corner]] - centre for corner in range(3))
    if ((numpy.cross(b - a, c - a) * a).sum(axis=1) <= 0).any():
        return numpy.inf
    worst = 0.0
    heights = -equations[:, 3] - equations[:, :3] @ centre
    most = max(1, MOST_ENTRIES // max(1, len(equations)))
    for start in range(0, len(triangles), most):
        some = slice(start, start + most)
        lowest = numpy.min([(part[some] @ equations[:, :3].T) for part in (a, b, c)], axis=0)
        depths = heights[None, :] - lowest
        factors = depths / numpy.maximum(heights[None, :] - depths, 1e-12)
        sizes = numpy.max([numpy.linalg.norm(part[some], axis=1) for part in (a, b, c)], axis=0)
        worst = max(worst, float((factors.min(axis=1) * sizes).max()))
        if worst > allowed:
            return numpy.inf
    return max(0.0, worst)


def corners_of(points: Sequence[Point], faces: Sequence[Sequence[int]]) -> List[Point]:
    """The points that faces use."""
    return [points[corner] for corner in sorted({corner for face in faces for corner in face})]
