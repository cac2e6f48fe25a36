"""Convex pieces in whole numbers: their faces and edges, how far they reach, and the facets of two of them.

The second checkers stand on it (check.py, check_short.py). It was written from the documents alone, and is not proved.
Vectors and points are triples of whole numbers of Python, which have no limit: nothing is rounded.
"""

from __future__ import annotations

import math
from collections.abc import Sequence
from functools import cached_property
from itertools import combinations

Vector = tuple[int, int, int]

# The canonical one of a vector and its negative is the greater one.
AXES, ORIGIN = [(1, 0, 0), (0, 1, 0), (0, 0, 1)], (0, 0, 0)


def minus(a: Vector, b: Vector) -> Vector:
    return a[0] - b[0], a[1] - b[1], a[2] - b[2]


def negative(a: Vector) -> Vector:
    return -a[0], -a[1], -a[2]


def dot(a: Vector, b: Vector) -> int:
    return a[0] * b[0] + a[1] * b[1] + a[2] * b[2]


def cross(a: Vector, b: Vector) -> Vector:
    return a[1] * b[2] - a[2] * b[1], a[2] * b[0] - a[0] * b[2], a[0] * b[1] - a[1] * b[0]


def primitive(a: Vector) -> Vector:
    """The shortest vector of whole numbers that points the same way. ZeroDivisionError: it is zero."""
    divisor = math.gcd(*a)
    return a[0] // divisor, a[1] // divisor, a[2] // divisor


def is_solid(points: Sequence[Vector]) -> bool:
    """Whether the points, each given once, are not all in one plane."""
    if len(points) < 4:
        return False
    along = minus(points[1], points[0])
    normals = (cross(along, minus(p, points[0])) for p in points)
    normal = next((n for n in normals if n != ORIGIN), ORIGIN)
    return len(set(levels(normal, points))) > 1


def levels(n: Vector, points: Sequence[Vector]) -> list[int]:
    """How far each of the points is along n: for each its product with n, in their order."""
    a, b, c = n
    return [a * x + b * y + c * z for x, y, z in points]


class Piece:
    """The convex hull of points that are not all in one plane. What is asked of it is found once and kept."""

    def __init__(self, points: Sequence[Vector]):
        self.points = points
        self._spans: dict[Vector, tuple[int, int]] = {}

    def span(self, n: Vector) -> tuple[int, int]:
        """How far the least and the greatest of its points are along n."""
        if n not in self._spans:
            found = levels(n, self.points)
            self._spans[n] = min(found), max(found)
        return self._spans[n]

    @cached_property
    def faces(self) -> list[Vector]:
        """The primitive outer normals of its faces, ascending.

        Round a face, as it is seen from outside, each edge leads from one point to another, and one of them at least
        to a later one of the list. So for each two points, the later one last, a plane through both is turned outwards
        by each point that is beyond it, as far as this point. Where at the end none is beyond it, it holds a face. At
        an edge this comes out: all points lie in a wedge of less than half a turn about it, and the plane is turned
        to the outer one of its two sides.
        """
        found = set()
        for x, y in combinations(self.points, 2):
            along, (a, b, c), level = minus(y, x), ORIGIN, 0
            for p in self.points:
                above = a * p[0] + b * p[1] + c * p[2] - level
                if above > 0 or (a, b, c) == ORIGIN:
                    a, b, c = cross(along, minus(p, x))
                    level = dot((a, b, c), x)
            if max(levels((a, b, c), self.points)) == level:
                found.add(primitive((a, b, c)))
        return sorted(found)

    @cached_property
    def edges(self) -> list[tuple[int, int]]:
        """Each two faces, by their places, that share an edge: those with two points in common."""
        corners = []
        for n in self.faces:
            _, top = self.span(n)
            corners.append({k for k, far in enumerate(levels(n, self.points)) if far == top})
        places = combinations(range(len(corners)), 2)
        return [(f, g) for f, g in places if len(corners[f] & corners[g]) > 1]


def touching(piece: Piece, points: Sequence[Vector]) -> set[Vector]:
    """The primitive outer normals of all planes that keep the piece and the points apart and touch both, the piece in
    a face; or in an edge, and then a point that is not on the line of this edge.

    In faces these are planes of faces that have no point below and one at their height. All planes that touch the piece
    in an edge alone have s*f + t*g as a normal, where f and g are those of the two faces at the edge and s and t are
    above 0; and a point that is a above the one face and b above the other is s*a + t*b above such a plane. So from the
    plane of f it is turned towards g by each point that is below, as far as this point: until none is below, or one is
    that further turns do not lift. A point of such a plane that is not on the line of the edge is below one of the two
    faces and above the other, so the least turn from that face is the one to this plane.
    """
    above = []
    for n in piece.faces:
        _, top = piece.span(n)
        above.append([far - top for far in levels(n, points)])
    least, most = [min(row) for row in above], [max(row) for row in above]
    found = {n for n, low in zip(piece.faces, least) if low == 0}
    for ends in piece.edges:
        for f, g in (ends, ends[::-1]):
            if least[f] >= 0 or most[g] <= 0:
                continue
            s, t = 1, 0
            for a, b in zip(above[f], above[g]):
                if s * a + t * b < 0:
                    if b <= 0:
                        break
                    s, t = b, -a
            else:
                if all(s * a + t * b >= 0 for a, b in zip(above[f], above[g])):
                    (ax, ay, az), (bx, by, bz) = piece.faces[f], piece.faces[g]
                    found.add(primitive((s * ax + t * bx, s * ay + t * by, s * az + t * bz)))
    return found


def facets_of(first: Piece, second: Piece) -> set[Vector]:
    """All facets of two pieces, as they are seen from the first one.

    A facet is the normal of a plane that keeps the two pieces apart and touches both, in points that fix it: three that
    are on no line, not all of one piece. (Two points of different pieces differ by a vector in the plane exactly where
    both are on it, and all such vectors are parallel exactly where all their ends are on a line.) Two of the three are
    of one piece, so the plane touches an edge of that one at least.
    """
    return touching(first, second.points) | set(map(negative, touching(second, first.points)))
