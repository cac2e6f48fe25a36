"""Convex cells with exact fractions for corners, and their exact joins."""
from __future__ import annotations

import heapq
import math
import time
from collections import defaultdict
from fractions import Fraction
from typing import Dict, Iterable, Iterator, List, Optional, Sequence, Set, Tuple, Union

import numpy

from ..hulls import Point, cross, less, primitive
from ..solid import Piece

Number = Union[int, float, Fraction]
Corner = Tuple[Number, Number, Number]
Wall = Tuple[Point, Number]  # n and h: the points p of the cell have dot(n, p) <= h
CLEARLY = 1e-3  # in steps: beyond what rounded numbers get wrong here


def height_of(normal: Point, corner: Corner) -> Number:
    return normal[0] * corner[0] + normal[1] * corner[1] + normal[2] * corner[2]


def wall_through(corners: Sequence[Corner]) -> Optional[Wall]:
    """The plane of a plane polygon that runs against the clock; nothing where it has no area."""
    area: List[Number] = [0, 0, 0]
    for one, other in zip(corners, [*corners[1:], corners[0]]):
        area = [total + part for total, part in zip(area, cross(one, other))]  # type: ignore[arg-type]
    if not any(area):
        return None
    many = math.lcm(*(Fraction(part).denominator for part in area))
    normal = primitive([int(part * many) for part in area])
    return normal, height_of(normal, corners[0])


class Cell:
    """A convex polyhedron: its corners, and the planes of its faces."""

    def __init__(self, corners: Iterable[Corner], walls: Iterable[Wall]) -> None:
        self.corners = sorted(set(corners))
        self.walls = list(dict.fromkeys(walls))
        self.table = numpy.array([[float(number) for number in corner] for corner in self.corners])
        normals = numpy.array([normal for normal, _ in self.walls], float).reshape(-1, 3)
        lengths = numpy.sqrt((normals * normals).sum(axis=1))
        self.normals = normals / lengths[:, None]
        self.heights = numpy.array([float(height) for _, height in self.walls]) / lengths
        self.least, self.most = self.table.min(axis=0), self.table.max(axis=0)

    @classmethod
    def of_faces(cls, corners: Sequence[Corner], faces: Sequence[Sequence[int]]) -> "Cell":
        walls = (wall_through([corners[corner] for corner in face]) for face in faces)
        return cls(corners, [wall for wall in walls if wall is not None])

    @classmethod
    def of_piece(cls, piece: Piece) -> "Cell":
        return cls.of_faces([(x, y, z) for x, y, z in piece.points.tolist()], piece.faces)

    def moved(self, step: Point) -> "Cell":
        """The cell moved by whole steps."""
        corners = [(x + step[0], y + step[1], z + step[2]) for x, y, z in self.corners]
        made = Cell(
            corners, [(normal, height + height_of(normal, step)) for normal, height in self.walls]
        )
        if not self.walls:
            made.normals, made.heights = self.normals, self.heights + self.normals @ numpy.array(
                step, float
            )
        return made

    def turned_whole(self, frame: List[List[int]], way: Point) -> "Cell":
        """The cell turned by right angles, point @ frame + way, exactly."""

        def turn(row: Corner) -> Corner:
            x, y, z = (sum(row[axis] * frame[axis][new] for axis in range(3)) for new in range(3))
            return x, y, z

        walls = []
        for normal, height in self.walls:
            x, y, z = turn(normal)
            made = (int(x), int(y), int(z))
            walls.append((made, height + height_of(made, way)))
        corners = [(x + way[0], y + way[1], z + way[2]) for x, y, z in map(turn, self.corners)]
        if self.walls:
            return Cell(corners, walls)
        return self.turned(numpy.array(frame, float), numpy.array(way, float), 1.0)

    def turned(self, frame: numpy.ndarray, middle: numpy.ndarray, finer: float) -> "Cell":
        """The cell, of which coordinates along the rows of a frame are given, `finer` to a step, around `middle`.

        It is known by rounded numbers alone; its corners are fractions that are as good as these.
        """
        made = Cell.__new__(Cell)
        made.table = self.table / finer @ frame + middle
        made.normals = self.normals @ frame
        made.heights = self.heights / finer + made.normals @ middle
        made.corners = [(Fraction(x), Fraction(y), Fraction(z)) for x, y, z in made.table.tolist()]
        made.walls = []
        made.least, made.most = made.table.min(axis=0), made.table.max(axis=0)
        return made

    def is_whole(self) -> bool:
        return all(
            Fraction(number).denominator == 1 for corner in self.corners for number in corner
        )

    def holds(self, corner: Corner, leaving_out: Optional[Wall] = None) -> bool:
        return all(
            height_of(wall[0], corner) <= wall[1] for wall in self.walls if wall != leaving_out
        )

    def extent(self) -> float:
        return float((self.most - self.least).max())


def opposite(wall: Wall) -> Wall:
    return less((0, 0, 0), wall[0]), -wall[1]


def joined(one: Cell, other: Cell, wall: Wall) -> Optional[Cell]:
    """The union of two cells on both sides of a wall of the first, where it is convex.

    It is so exactly where no other wall of either leaves out a corner of the other cell: then the union is all that
    the other walls hold.
    """
    back = opposite(wall)
    for cell, limits, common in ((one, other, back), (other, one, wall)):
        over = limits.normals @ cell.table.T - limits.heights[:, None]
        over[limits.walls.index(common)] = -1.0
        if over.max() > CLEARLY:
            return None
    if not all(other.holds(corner, back) for corner in one.corners):
        return None
    if not all(one.holds(corner, wall) for corner in other.corners):
        return None
    walls = [some for some in dict.fromkeys(one.walls + other.walls) if some not in (wall, back)]
    return Cell(extreme(set(one.corners) | set(other.corners), walls), walls)


def extreme(corners: Set[Corner], walls: Sequence[Wall]) -> List[Corner]:
    """Those of the corners at which walls in three independent directions meet."""
    kept = []
    for corner in corners:
        normals = [normal for normal, height in walls if height_of(normal, corner) == height]
        lines = (cross(normals[0], normal) for normal in normals[1:])
        line = next((line for line in lines if any(line)), None)
        if line is not None and any(sum(a * b for a, b in zip(line, normal)) for normal in normals):
            kept.append(corner)
    return kept


def touch(one: Cell, other: Cell) -> bool:
    return bool(
        (one.least <= other.most + CLEARLY).all() and (other.least <= one.most + CLEARLY).all()
    )


def join_all(cells: Sequence[Cell], corners: int, until: float) -> List[Cell]:
    """The same solid of fewer cells: joined while a union of two is convex and has at most so many corners.

    cells: they share no inner points. until: a processor time of this process at which it stops.
    """
    alive: Dict[int, Cell] = dict(enumerate(cells))
    behind: Dict[Wall, Set[int]] = defaultdict(set)
    for number, cell in alive.items():
        for wall in cell.walls:
            behind[wall].add(number)
    heap: List[Tuple[float, int, int]] = []
    unions: Dict[Tuple[int, int], Cell] = {}

    def consider(number: int, others: Iterator[Tuple[int, Wall]]) -> None:
        for other, wall in others:
            if touch(alive[number], alive[other]):
                union = joined(alive[number], alive[other], wall)
                if union is not None and len(union.corners) <= corners:
                    unions[number, other] = union
                    heapq.heappush(heap, (-union.extent(), number, other))

    def neighbours(number: int, after: int) -> Iterator[Tuple[int, Wall]]:
        for wall in alive[number].walls:
            for other in sorted(behind.get(opposite(wall), ())):
                if other > after:
                    yield other, wall

    for number in list(alive):
        if time.process_time() < until:
            consider(number, neighbours(number, number))
    following = len(alive)
    while heap and time.process_time() < until:
        _, one, other = heapq.heappop(heap)
        union = unions.pop((one, other))
        if one not in alive or other not in alive:
            continue
        for number in (one, other):
            for wall in alive.pop(number).walls:
                behind[wall].discard(number)
        alive[following] = union
        for wall in union.walls:
            behind[wall].add(following)
        consider(following, neighbours(following, -1))
        following += 1
    return list(alive.values())
