"""Closed surfaces on the grid: rounding, what is open, and which shells bound one solid."""
from __future__ import annotations

from collections import Counter, defaultdict
from dataclasses import dataclass
from typing import Dict, Iterable, List, Sequence, Tuple

import numpy

from ..hulls import Point, cross, dot, less
from ..snapping import TIE
from ..solid import GREATEST, Mesh, Refusal
from .bodies import flattened
from .outlines import Spot, convex_parts

Polygon = List[int]


@dataclass
class Surface:
    """A surface on the grid.

    points: corners, each once; faces: plane polygons of them, wound outwards
    moved: how far a corner lies from where it was drawn, at most, in steps
    axes: along which of the axes corners were moved
    """

    points: List[Point]
    faces: List[Polygon]
    moved: float = 0.0
    axes: Tuple[int, ...] = ()


def rounded(mesh: Mesh, scale: float, greatest: int = GREATEST) -> Surface:
    """A mesh in model units on the grid. A face that is not plane there is cut into triangles. Refusal: too large.

    While corners move straight to where they are rounded to, each point of the surface moves by at most `moved`; what
    comes to lie inside or outside meanwhile was passed by the surface. So of solid and rounded solid neither goes
    beyond the other by more than `moved`.
    """
    steps = numpy.asarray(mesh.points, float) * scale
    whole = numpy.floor(steps + 0.5 + TIE)
    if len(whole) and numpy.abs(whole).max() > greatest:
        raise Refusal(f"a coordinate is more than {greatest} steps of the grid; give a coarser one")
    off = numpy.abs(whole - steps)
    off[off < 1e-6] = 0.0
    number: Dict[Point, int] = {}
    places = [number.setdefault((int(x), int(y), int(z)), len(number)) for x, y, z in whole]
    points = list(number)
    faces = []
    for face in mesh.faces:
        for polygon in plane_ones(face, places, points, steps):
            faces.append(polygon)
    moved = float(numpy.sqrt((off**2).sum(axis=1)).max()) if len(off) else 0.0
    axes = tuple(axis for axis in range(3) if len(off) and off[:, axis].max() > 0.0)
    return Surface(points, without_flat(points, faces), moved, axes)


def plane_ones(
    face: Sequence[int], places: Sequence[int], points: Sequence[Point], steps: numpy.ndarray
) -> List[Polygon]:
    """A face on the grid: as it is where it is plane and simple there, else as triangles."""
    corners = [places[corner] for corner in face]
    distinct = without_repeats(corners)
    if len(distinct) < 3:
        return []
    if len(distinct) == 3:
        return [distinct]
    if len(set(distinct)) == len(distinct) and is_plane([points[corner] for corner in distinct]):
        return [distinct]
    drawn = steps[list(face)]
    area = numpy.cross(drawn, numpy.roll(drawn, -1, axis=0)).sum(axis=0)
    x, y, z = (int(part) for part in numpy.rint(area * 1e6 / (numpy.abs(area).max() or 1)))
    first, second = flattened((x, y, z))
    flat = numpy.rint(drawn[:, [first, second]] * 1024).astype(int)
    loop: List[Spot] = [(int(x), int(y)) for x, y in flat]
    where: Dict[Spot, int] = dict(zip(loop, corners))
    parts = convex_parts([loop]) if len(where) == len(loop) else None
    polygons = [[where[spot] for spot in part] for part in parts] if parts else [corners]
    return [
        triangle
        for polygon in polygons
        for triangle in ([polygon[0], one, other] for one, other in zip(polygon[1:], polygon[2:]))
        if len(set(triangle)) == 3
    ]


def without_repeats(corners: Sequence[int]) -> Polygon:
    return [corner for number, corner in enumerate(corners) if corner != corners[number - 1]]


def is_plane(corners: Sequence[Point]) -> bool:
    area = [0, 0, 0]
    for one, other in zip(corners, [*corners[1:], corners[0]]):
        area = [
            total + part
            for total, part in zip(area, cross(less(one, corners[0]), less(other, corners[0])))
        ]
    return any(area) and len({dot(area, corner) for corner in corners}) == 1


def without_flat(points: Sequence[Point], faces: List[Polygon]) -> List[Polygon]:
    """The same surface without triangles whose corners lie in a line: the middle one goes into the face beyond."""
    faces = [face for face in faces if len(face) >= 3]
    for _ in range(len(faces)):
        owner = {
            edge: number
            for number, face in enumerate(faces)
            for edge in zip(face, [*face[1:], face[0]])
        }
        for number, face in enumerate(faces):
            if len(face) == 3 and not any(
                cross(
                    less(points[face[1]], points[face[0]]), less(points[face[2]], points[face[0]])
                )
            ):
                break
        else:
            return faces
        lengths = [
            dot(step, step)
            for step in (
                less(points[one], points[other]) for one, other in zip(face, [*face[1:], face[0]])
            )
        ]
        longest = lengths.index(max(lengths))
        start, end, middle = face[longest], face[(longest + 1) % 3], face[(longest + 2) % 3]
        beyond = owner.get((end, start))
        if beyond is None or beyond == number:
            return [other for other in faces if other is not face]
        at = faces[beyond].index(end)
        faces[beyond] = [*faces[beyond]]
        faces[beyond].insert(at + 1, middle)
        del faces[number]
        faces = [piece for other in faces for piece in simple_ones(other, points)]
    return faces


def simple_ones(face: Polygon, points: Sequence[Point]) -> List[Polygon]:
    """A face without spikes: it leads nowhere and straight back."""
    while len(face) >= 3:
        many = len(face)
        spike = next((at for at in range(many) if face[at - 1] == face[(at + 1) % many]), None)
        if spike is None:
            return [face]
        face = [corner for at, corner in enumerate(face) if at not in (spike, (spike + 1) % many)]
    return []


def open_edges(faces: Iterable[Polygon]) -> int:
    """How many edges have no face on their other side."""
    edges = Counter(edge for face in faces for edge in zip(face, [*face[1:], face[0]]))
    return sum(max(0, times - edges[edge[::-1]]) for edge, times in edges.items())


def shells(faces: Sequence[Polygon]) -> List[List[Polygon]]:
    """The faces in lists, each of faces that hang together by edges of just two faces."""
    above = list(range(len(faces)))

    def group(number: int) -> int:
        while above[number] != number:
            above[number] = above[above[number]]
            number = above[number]
        return number

    owner: Dict[Tuple[int, int], List[int]] = defaultdict(list)
    for number, face in enumerate(faces):
        for edge in zip(face, [*face[1:], face[0]]):
            owner[edge].append(number)
    for (one, other), numbers in owner.items():
        beyond = owner.get((other, one), [])
        if len(numbers) == 1 and len(beyond) == 1:
            above[group(numbers[0])] = group(beyond[0])
    lists: Dict[int, List[Polygon]] = defaultdict(list)
    for number, face in enumerate(faces):
        lists[group(number)].append(face)
    found = list(lists.values())
    return found if all(open_edges(shell) == 0 for shell in found) else [list(faces)]


def volume(points: Sequence[Point], faces: Iterable[Polygon]) -> int:
    """Six times the volume that a closed surface bounds; below 0 where its faces are wound inwards."""
    total = 0
    for face in faces:
        corners = [points[corner] for corner in face]
        for one, other in zip(corners[1:], corners[2:]):
            total += dot(corners[0], cross(one, other))
    return total


def solids(points: Sequence[Point], faces: Sequence[Polygon]) -> List[List[Polygon]]:
    """The shells, each that bounds a hollow space with the one around it."""
    found = [(volume(points, shell), shell) for shell in shells(faces)]
    outer = sorted(((size, shell) for size, shell in found if size > 0), key=lambda pair: pair[0])
    bodies = [list(shell) for _, shell in outer]
    for size, shell in found:
        if size < 0:
            place = points[shell[0][0]]
            around = next(
                (number for number, (_, other) in enumerate(outer) if holds(points, other, place)),
                None,
            )
            if around is None:  # a solid that is wound inwards
                bodies.append([face[::-1] for face in shell])
            else:
                bodies[around] += shell
    return bodies


def holds(points: Sequence[Point], shell: Sequence[Polygon], place: Point) -> bool:
    """Whether a closed surface turns about a point: the solid angle of its faces, by van Oosterom and Strackee."""
    table = numpy.array(points, float) - numpy.array(place, float)
    triangles = numpy.array(
        [[face[0], one, other] for face in shell for one, other in zip(face[1:], face[2:])], int
    )
    a, b, c = (table[triangles[:, corner]] for corner in range(3))
    la, lb, lc = (numpy.linalg.norm(side, axis=1) for side in (a, b, c))
    upper = (a * numpy.cross(b, c)).sum(axis=1)
    lower = (
        la * lb * lc
        + (a * b).sum(axis=1) * lc
        + (b * c).sum(axis=1) * la
        + (c * a).sum(axis=1) * lb
    )
    return bool(abs(2 * numpy.arctan2(upper, lower).sum()) > 2 * numpy.pi)
