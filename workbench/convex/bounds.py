"""How far one union of convex cells goes beyond another, by bounds that are never beaten.

The distance to a convex cell is a convex function, so over a tetrahedron it is greatest at a corner. For a tetrahedron
T and cells B the least over b in B of (the greatest of the distances of the four corners of T to b) is therefore an
upper bound of how far any point of T lies from the union of B. Where the bound is not good enough, T is cut into
smaller ones: by a wall of the cell at its middle, so that what lies in that cell comes off, or at the middle of its
longest edge. The distance of a point to a cell is that to a point of the cell, a sum of its corners with weights from
0 on, so it is never too small. Rounded numbers are allowed for by `CLEARLY` steps.
"""
from __future__ import annotations

import heapq
import time
from typing import Dict, List, Sequence, Tuple

import numpy
from scipy.optimize import nnls

from .cells import CLEARLY, Cell

MOST_ROUNDS = 200  # in which tetrahedra are cut, for one cell
MOST_TRIED = 12  # cells, the nearest first, that are tried for one tetrahedron
GOOD = 2.0  # in steps: bounds below it are not made better


def distance(point: numpy.ndarray, cell: Cell) -> float:
    """An upper bound of how far a point lies from a cell, exact but for rounding: in steps.

    The nearest point is a sum of the corners with weights that add up to 1: least squares with weights from 0 on, by
    Lawson and Hanson, with one heavy row for the sum.
    """
    if (cell.normals @ point <= cell.heights + 1e-9).all():
        return 0.0
    ways = (cell.table - point).T
    size = float(numpy.abs(ways).max()) or 1.0
    rows = numpy.vstack([ways / size, numpy.full(ways.shape[1], 1e3)])
    try:
        weights = nnls(rows, numpy.array([0.0, 0.0, 0.0, 1e3]))[0]
    except RuntimeError:  # too many rounds
        weights = numpy.zeros(ways.shape[1])
    if weights.sum() <= 0.0:
        return float(numpy.linalg.norm(ways, axis=0).min())
    return float(numpy.linalg.norm(ways @ (weights / weights.sum())))


def tetrahedra(cell: Cell) -> List[numpy.ndarray]:
    """Tetrahedra, each (4, 3), whose union is the cell: its faces as fans, and the first corner."""
    found = []
    apex = cell.table[0]
    for normal, height in zip(cell.normals, cell.heights):
        on = cell.table[numpy.abs(cell.table @ normal - height) < CLEARLY / 100]
        if len(on) < 3 or abs(float(apex @ normal) - height) < CLEARLY / 100:
            continue
        axes = numpy.linalg.svd(on - on.mean(axis=0))[2][:2]
        flat = (on - on.mean(axis=0)) @ axes.T
        on = on[numpy.argsort(numpy.arctan2(flat[:, 1], flat[:, 0]))]
        found += [numpy.array([apex, on[0], one, other]) for one, other in zip(on[1:], on[2:])]
    return found


class Union:
    """Cells, asked for the distance of points to their union."""

    def __init__(self, cells: Sequence[Cell]) -> None:
        self.cells = list(cells)
        self.known: Dict[Tuple[bytes, int], float] = {}
        self.normals = (
            numpy.vstack([cell.normals for cell in cells]) if cells else numpy.zeros((0, 3))
        )
        self.heights = (
            numpy.concatenate([cell.heights for cell in cells]) if cells else numpy.zeros(0)
        )
        self.starts = numpy.cumsum([0] + [len(cell.heights) for cell in cells[:-1]])

    def ahead(self, points: numpy.ndarray) -> numpy.ndarray:
        """How far the points (m, 3) lie ahead of the worst wall of each cell, (cells, m): never farther than they lie
        from the cell; below 0 inside."""
        return numpy.maximum.reduceat(
            self.normals @ points.T - self.heights[:, None], self.starts, axis=0
        )

    def distance(self, point: numpy.ndarray, number: int) -> float:
        key = (point.tobytes(), number)
        if key not in self.known:
            self.known[key] = distance(point, self.cells[number])
        return self.known[key]

    def within(self, points: numpy.ndarray) -> Tuple[float, float]:
        """Bounds, from below and from above, of how far the farthest point of the hull of some (m, 3) lies away."""
        ahead = self.ahead(points)
        worst = ahead.max(axis=1)
        nearest = numpy.inf
        for number in numpy.argsort(worst, kind="stable")[:MOST_TRIED]:
            if worst[number] >= nearest:
                break
            ways = (
                [self.distance(point, int(number)) for point in points]
                if worst[number] > 1e-9
                else [0.0]
            )
            nearest = min(nearest, max(ways))
        return max(0.0, float(ahead.min(axis=0).max())), nearest

    def parted(self, corners: numpy.ndarray) -> List[numpy.ndarray]:
        """A tetrahedron in parts: by that wall of the cell at its middle which cuts it best, else in halves."""
        middle = corners.mean(axis=0)
        number = int(self.ahead(middle[None, :])[:, 0].argmin())
        cell = self.cells[number]
        sides = cell.normals @ corners.T - cell.heights[:, None]
        cut = numpy.minimum(sides.max(axis=1), -sides.min(axis=1))
        wall = int(cut.argmax())
        return split(corners, sides[wall]) if cut[wall] > CLEARLY / 10 else halves(corners)


def reach(cell: Cell, union: Union, enough: float, refused: float = numpy.inf) -> float:
    """An upper bound of how far points of a cell lie from a union, in steps; nearly the least, or below `enough`.

    refused: it stops as soon as some point is known to lie farther than this.
    """
    if not union.cells:
        return numpy.inf
    lower, upper = union.within(cell.table)
    if upper <= max(enough, 1.05 * lower) or lower > refused:
        return upper
    heap: List[Tuple[float, int, numpy.ndarray]] = []
    for number, corners in enumerate(tetrahedra(cell)):
        heap.append((-union.within(corners)[1], number, corners))
    heapq.heapify(heap)
    following = len(heap)
    for _ in range(MOST_ROUNDS):
        if not heap or -heap[0][0] <= max(enough, 1.05 * lower) or lower > refused:
            break
        for part in union.parted(heapq.heappop(heap)[2]):
            low, high = union.within(part)
            lower = max(lower, low)
            heapq.heappush(heap, (-high, following, part))
            following += 1
    return min(upper, -heap[0][0]) if heap else upper


def halves(corners: numpy.ndarray) -> List[numpy.ndarray]:
    """A tetrahedron in two, cut at the middle of its longest edge."""
    pairs = [(i, j) for i in range(4) for j in range(i + 1, 4)]
    i, j = max(pairs, key=lambda pair: float(((corners[pair[0]] - corners[pair[1]]) ** 2).sum()))
    middle = (corners[i] + corners[j]) / 2
    found = []
    for corner in (i, j):
        half = corners.copy()
        half[corner] = middle
        found.append(half)
    return found


def split(corners: numpy.ndarray, sides: numpy.ndarray) -> List[numpy.ndarray]:
    """A tetrahedron in some whose union it is, none of which has corners on both sides of a plane.

    sides: how far the four corners lie ahead of the plane
    """
    below, above = corners[sides <= 0], corners[sides > 0]
    low, high = sides[sides <= 0], sides[sides > 0]
    share = (low[:, None] / (low[:, None] - high[None, :]))[:, :, None]
    cuts = below[:, None, :] + (above[None, :, :] - below[:, None, :]) * share
    if len(below) == 2:
        return prism(below[0], *cuts[0], below[1], *cuts[1]) + prism(
            above[0], *cuts[:, 0], above[1], *cuts[:, 1]
        )
    if len(below) == 1:
        return [numpy.array([below[0], *cuts[0]]), *prism(*above, *cuts[0])]
    return [numpy.array([above[0], *cuts[:, 0]]), *prism(*below, *cuts[:, 0])]


def prism(*ends: numpy.ndarray) -> List[numpy.ndarray]:
    """Three tetrahedra that make up a prism, of which the three corners of one end and of the other are given."""
    return [numpy.array([ends[number + step] for step in range(4)]) for number in range(3)]


def farthest(
    cells: Sequence[Cell], own: Sequence[Sequence[Cell]], union: Union, until: float
) -> float:
    """An upper bound of how far points of the cells lie from the union, in steps.

    own: for each cell those of the union that stand for it; they are tried first. until: a processor time of this
    process from which on no bound is made better
    """
    found = 0.0
    for cell, mine in zip(cells, own):
        bound = min(
            (max(distance(point, other) for point in cell.table) for other in mine),
            default=numpy.inf,
        )
        if bound > max(GOOD, found):
            good = max(GOOD, found) if time.process_time() < until else numpy.inf
            bound = min(bound, reach(cell, union, good))
        found = max(found, bound)
    return found + CLEARLY if found else 0.0
