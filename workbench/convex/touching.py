"""Surfaces that touch themselves along edges or in corners become ones that do not.

At an edge of four or more faces, and at a corner where several fans of faces meet, each wedge of the solid gets points
of its own, which move a little into that wedge. So the solid loses no more than that, and nothing is added.
"""
from __future__ import annotations

from collections import defaultdict
from typing import Dict, List, Optional, Sequence, Tuple

import numpy

from ..groups import Groups
from ..hulls import Point
from ..triangles import newell, newells, triangulated
from ..wedges import Edge, directed, wedges

Faces = List[List[int]]
Pair = Tuple[int, int]


class Touching:
    """A closed surface with what it has in common with itself: `pairs` are faces that bound one wedge at an edge."""

    def __init__(self, points: numpy.ndarray, faces: Faces) -> None:
        self.points, self.faces = points, faces
        self.owners: Dict[Edge, List[int]] = defaultdict(list)
        for number, face in enumerate(faces):
            for one, other in directed(face):
                self.owners[min(one, other), max(one, other)].append(number)
        self.pairs: Dict[Edge, List[Pair]] = {
            edge: [(some[0], some[-1])] if len(some) == 2 else wedges(points, faces, edge, some)
            for edge, some in self.owners.items()
        }
        self.first = numpy.cumsum([0] + [len(face) for face in faces]).tolist()
        self.fans = Groups(self.first[-1])
        for edge, pairs in self.pairs.items():
            for one, other in pairs:
                for end in edge:
                    self.fans.join(self.corner(one, end), self.corner(other, end))

    def corner(self, face: int, point: int) -> int:
        """The number of the corner that a face has at a point."""
        return int(self.first[face] + self.faces[face].index(point))

    def fan(self, face: int, point: int) -> int:
        return self.fans.of(self.corner(face, point))

    def split(self) -> Dict[int, List[int]]:
        """The points at which several fans meet, each with these fans."""
        met: Dict[int, List[int]] = defaultdict(list)
        for number, face in enumerate(self.faces):
            for point in face:
                fan = self.fan(number, point)
                if fan not in met[point]:
                    met[point].append(fan)
        return {point: fans for point, fans in met.items() if len(fans) > 1}


class Apart:
    """The points and faces while the wedges of a surface are moved apart, by `far`."""

    def __init__(self, surface: Touching, far: float) -> None:
        self.surface, self.far = surface, far
        self.normals = newells(surface.points, surface.faces)
        self.normals /= numpy.maximum(numpy.linalg.norm(self.normals, axis=1), 1e-300)[:, None]
        self.drawn: List[numpy.ndarray] = list(surface.points)
        self.rows: List[numpy.ndarray] = list(surface.points)
        self.faces = [list(face) for face in surface.faces]
        self.touched: set[int] = set()

    def copy(self, at: numpy.ndarray, around: Sequence[int]) -> int:
        """A new point at a place, moved into the wedge between these faces."""
        way = -self.normals[sorted(set(around))].sum(axis=0)
        size = float(numpy.linalg.norm(way))
        self.drawn.append(at)
        self.rows.append(at + way * (self.far / size) if size > 1e-6 else at)
        return len(self.rows) - 1

    def part_corners(self) -> None:
        """Gives each fan at a point where several meet a point of its own."""
        split = self.surface.split()
        members: Dict[int, List[int]] = defaultdict(list)
        for number, face in enumerate(self.surface.faces):
            for point in face:
                if point in split:
                    members[self.surface.fan(number, point)].append(number)
        for point, fans in split.items():
            for fan in fans:
                made = self.copy(self.surface.points[point], members[fan])
                for number in members[fan]:
                    self.faces[number][self.faces[number].index(point)] = made
                    self.touched.add(number)

    def part_edges(self) -> None:
        """Gives wedges that meet along an edge and have both its ends in common a middle of their own."""
        for edge, pairs in self.surface.pairs.items():
            if len(pairs) < 2:
                continue
            middle = (self.surface.points[edge[0]] + self.surface.points[edge[1]]) / 2
            for pair in pairs:
                made = self.copy(middle, pair)
                for number in pair:
                    self.insert(number, edge, made)

    def insert(self, number: int, edge: Edge, made: int) -> None:
        """Puts a point between the ends of an edge of a face."""
        face = self.faces[number]
        at = next(at for at in range(len(face)) if {face[at - 1], face[at]} == set(edge))
        face.insert(at, made)
        self.touched.add(number)

    def triangles(self) -> Faces:
        """The faces, those that were bent cut into triangles."""
        drawn = numpy.array(self.drawn)
        found: Faces = []
        for number, face in enumerate(self.faces):
            if number in self.touched and len(face) > 3:
                found += triangulated(drawn, [face], newell(drawn[face]))
            else:
                found.append(face)
        return found


def apart(points: Sequence[Point], faces: Faces, far: float) -> Optional[Tuple[List[Point], Faces]]:
    """The surface with its wedges moved apart by about `far`, on whole points; nothing where it touches itself nowhere.

    points, faces: of a closed surface whose faces are wound outwards
    """
    surface = Touching(numpy.array(points, float), faces)
    if not surface.split() and all(len(pairs) == 1 for pairs in surface.pairs.values()):
        return None
    made = Apart(surface, far)
    made.part_edges()
    made.part_corners()
    rows = numpy.rint(numpy.array(made.rows)).astype(numpy.int64).tolist()
    return [(x, y, z) for x, y, z in rows], made.triangles()
