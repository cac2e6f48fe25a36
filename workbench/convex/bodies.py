"""Solids on the grid as plane faces, and their cuts by planes: all in whole numbers.

A face is all of the surface that lies in one plane and looks to one side: its border as edges between grid points, the
face to the left of each as seen from outside. Edges between two triangles of one plane are gone, so that they hinder no
cut; corners between two edges of one line stay, so that faces that meet have the same corners.
"""
from __future__ import annotations

from collections import Counter, defaultdict
from typing import Dict, Iterable, Iterator, List, Sequence, Set, Tuple

import numpy

from ..hulls import Point, cross, dot, less, primitive
from .outlines import Spot, turn

Plane = Tuple[
    Point, int
]  # n and h: the points p of the plane have dot(n, p) == h; n leads outwards
Edge = Tuple[Point, Point]
Face = Set[Edge]


class OffGrid(Exception):
    """A cut would make a corner that is no point of the grid."""


class Tangled(Exception):
    """The surface does not bound a solid in the way that is asked for here."""


def plane_of(corners: Sequence[Point]) -> Plane:
    """The plane of the corners of a plane polygon, by the area vector that Newell gave."""
    area = [0, 0, 0]
    for one, other in zip(corners, [*corners[1:], corners[0]]):
        step = cross(one, other)
        area = [total + part for total, part in zip(area, step)]
    if not any(area):
        raise Tangled("a face without area")
    normal = primitive(area)
    return normal, dot(normal, corners[0])


def flattened(normal: Point) -> Tuple[int, int]:
    """Two axes that show a plane of that normal undistorted enough: what runs against the clock does so there."""
    drop = max(range(3), key=lambda axis: abs(normal[axis]))
    one, other = (drop + 1) % 3, (drop + 2) % 3
    return (one, other) if normal[drop] > 0 else (other, one)


def loops_of(edges: Iterable[Edge], normal: Point) -> List[List[Point]]:
    """Edges as closed loops, of which none crosses itself or another. Tangled: they form no loops."""
    first, second = flattened(normal)
    leaving: Dict[Point, List[Point]] = defaultdict(list)
    for start, end in edges:
        leaving[start].append(end)
    loops = []
    while leaving:
        start = next(iter(leaving))
        loop = [start, leaving[start].pop()]
        while loop[-1] != loop[0]:
            here = loop[-1]
            ways = leaving.get(here)
            if not ways:
                raise Tangled("a border that does not close")
            if len(ways) == 1:
                loop.append(ways.pop())
                continue
            back = (loop[-2][first] - here[first], loop[-2][second] - here[second])
            spots = [((end[first] - here[first], end[second] - here[second]), end) for end in ways]
            end = last_against_clock(back, spots)
            ways.remove(end)
            loop.append(end)
        loops.append(loop[:-1])
        leaving = defaultdict(list, {spot: ends for spot, ends in leaving.items() if ends})
    return loops


def last_against_clock(back: Spot, spots: List[Tuple[Spot, Point]]) -> Point:
    """The end of that way which is met last when one turns against the clock from `back`."""
    best, chosen = spots[0]

    def half(spot: Spot) -> int:
        side = turn(back, spot)
        return 0 if side > 0 else 1 if side == 0 else 2

    for spot, end in spots[1:]:
        if half(spot) > half(best) or (half(spot) == half(best) and turn(best, spot) > 0):
            best, chosen = spot, end
    return chosen


class Body:
    """A solid as its plane faces."""

    def __init__(self, faces: Dict[Plane, Face]) -> None:
        self.faces = {plane: face for plane, face in faces.items() if face}
        self.points = sorted({end for face in self.faces.values() for edge in face for end in edge})

    @classmethod
    def of_mesh(cls, points: Sequence[Point], polygons: Iterable[Sequence[int]]) -> "Body":
        """The solid in a closed surface of plane polygons. Tangled: a polygon has no area, or edges lie doubly."""
        borders: Dict[Plane, Counter] = defaultdict(Counter)
        for polygon in polygons:
            corners = [points[corner] for corner in polygon]
            border = borders[plane_of(corners)]
            for edge in zip(corners, [*corners[1:], corners[0]]):
                if border[edge[::-1]] > 0:
                    border[edge[::-1]] -= 1
                else:
                    border[edge] += 1
        faces = {}
        for plane, border in borders.items():
            if any(times > 1 for times in border.values()):
                raise Tangled("an edge lies in one face twice")
            faces[plane] = {edge for edge, times in border.items() if times}
        return cls(faces)

    def is_closed(self) -> bool:
        edges = Counter(edge for face in self.faces.values() for edge in face)
        return all(edges[edge[::-1]] == times for edge, times in edges.items())

    def volume(self) -> int:
        """Six times the volume."""
        total = 0
        for (normal, height), face in self.faces.items():
            axis = max(range(3), key=lambda number: abs(normal[number]))
            area = sum(cross(one, other)[axis] for one, other in face)
            if area % normal[axis]:
                raise Tangled("a border that does not close")
            total += area // normal[axis] * height
        return total

    def is_convex(self) -> bool:
        """Whether it is convex and in one part."""
        if len(self.faces) < 4:
            return False
        table = numpy.array(self.points, numpy.int64)
        normals = numpy.array([normal for normal, _ in self.faces], numpy.int64)
        heights = numpy.array([height for _, height in self.faces], numpy.int64)
        some = [slice(at, at + 256) for at in range(0, len(normals), 256)]
        return all(((normals[rows] @ table.T).max(axis=1) <= heights[rows]).all() for rows in some)

    def reflex_edges(self) -> Iterator[Tuple[Edge, Plane, Plane]]:
        """Edges at which the solid takes more than a half turn, each with its two faces."""
        owner: Dict[Edge, List[Plane]] = defaultdict(list)
        for plane, face in self.faces.items():
            for edge in face:
                owner[edge].append(plane)
        for edge, planes in owner.items():
            along = less(edge[1], edge[0])
            if edge[0] > edge[1]:
                continue
            for one in planes:
                for other in owner[edge[::-1]]:
                    if dot(one[0], cross(other[0], less((0, 0, 0), along))) > 0:
                        yield edge, one, other

    def parts(self) -> List["Body"]:
        """The connected parts; all in one where some of the surface bounds a hollow space."""
        above: Dict[Point, Point] = {point: point for point in self.points}

        def group(point: Point) -> Point:
            while above[point] != point:
                above[point] = above[above[point]]
                point = above[point]
            return point

        for (normal, _), face in self.faces.items():
            for one, other in face:
                above[group(one)] = group(other)
            loops = loops_of(face, normal)
            if len(loops) > 1 and any(doubled(loop, normal) < 0 for loop in loops):
                for loop in loops[1:]:
                    above[group(loop[0])] = group(loops[0][0])
        split: Dict[Point, Dict[Plane, Face]] = defaultdict(lambda: defaultdict(set))
        for plane, face in self.faces.items():
            for edge in face:
                split[group(edge[0])][plane].add(edge)
        if len(split) == 1:
            return [self]
        bodies = [Body(faces) for faces in split.values()]
        return bodies if all(body.volume() > 0 for body in bodies) else [self]

    def cut(self, plane: Plane) -> Tuple["Body", "Body"]:
        """What lies below a plane, and what lies above. OffGrid: a new corner would be none of the grid."""
        normal, height = plane
        back = (less((0, 0, 0), normal), -height)
        return self.below(plane), self.below(back)

    def below(self, plane: Plane) -> "Body":
        normal, height = plane
        side = {point: dot(normal, point) - height for point in self.points}
        flat = {point for point, where in side.items() if where == 0}
        kept: Dict[Plane, Face] = {}
        rims: List[Edge] = []
        for other, face in self.faces.items():
            if other[0] in (normal, less((0, 0, 0), normal)):
                if (
                    other[0] != normal
                    and other[1] > -height
                    or other[0] == normal
                    and other[1] < height
                ):
                    kept[other] = set(face)
                continue
            border, rim = below_of_face(face, other[0], normal, height, side)
            if border:
                kept[other] = set(border)
                rims += rim
                flat.update(end for edge in rim for end in edge)
        cap: Counter = Counter()
        for other, edges in list(kept.items()):
            whole = {edge for edge in edges if not (edge[0] in flat and edge[1] in flat)}
            for edge in edges - whole:
                whole.update(split_at(edge, flat))
            kept[other] = whole
        for rim_edge in rims:
            for start, end in split_at(rim_edge, flat):
                if cap[start, end] > 0:
                    cap[start, end] -= 1
                else:
                    cap[end, start] += 1
        if any(times > 1 for times in cap.values()):
            raise Tangled("an edge lies in one face twice")
        kept[plane] = {edge for edge, times in cap.items() if times}
        return Body(kept)


def doubled(loop: Sequence[Point], normal: Point) -> int:
    """Twice the area within a loop as it shows along an axis; below 0 where it runs with the clock."""
    first, second = flattened(normal)
    spots = [(point[first], point[second]) for point in loop]
    return sum(turn(one, other) for one, other in zip(spots, [*spots[1:], spots[0]]))


def split_at(edge: Edge, points: Set[Point]) -> List[Edge]:
    """An edge in parts, at those of the points that lie on it."""
    start, end = edge
    step = less(end, start)
    axis = max(range(3), key=lambda number: abs(step[number]))
    between = []
    for point in points:
        ahead = less(point, start)
        if ahead[axis] * step[axis] > 0 and abs(ahead[axis]) < abs(step[axis]):
            if not any(cross(ahead, step)):
                between.append(point)
    between.sort(key=lambda point: abs(point[axis] - start[axis]))
    row = [start, *between, end]
    return list(zip(row, row[1:]))


def between_points(one: Point, other: Point, first: int, second: int) -> Point:
    """Where the way from one to other crosses the plane; their heights above it have different signs."""
    step = less(other, one)
    many = first - second
    if any(part * first % many for part in step):
        raise OffGrid()
    return tuple(start + part * first // many for start, part in zip(one, step))  # type: ignore[return-value]


def below_of_face(
    face: Face, own: Point, normal: Point, height: int, side: Dict[Point, int]
) -> Tuple[List[Edge], List[Edge]]:
    """The border of the part of a face below a plane, and those of its edges that lie in the plane."""
    border: List[Edge] = []
    ends: List[Tuple[int, Point]] = []
    line = cross(normal, own)  # what lies above the plane is to the left of it
    for start, end in face:
        first, second = side[start], side[end]
        if first <= 0 and second <= 0:
            if first < 0 or second < 0:
                border.append((start, end))
            if (first < 0) != (second < 0):
                spot = end if second == 0 else start
                ends.append((dot(line, spot), spot))
        elif first < 0 or second < 0:
            spot = between_points(start, end, first, second)
            border.append((start, spot) if first < 0 else (spot, end))
            ends.append((dot(line, spot), spot))
    ends.sort(key=lambda item: item[0])
    rim = []
    if len(ends) % 2:
        raise Tangled("a border that does not close")
    for (_, one), (_, other) in zip(ends[::2], ends[1::2]):
        if one != other:
            rim.append((other, one))
    return border + rim, rim
