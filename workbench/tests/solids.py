"""Solids of plane faces that tests make themselves, and how far pieces lie from them by random points."""
from __future__ import annotations

import itertools
import math
from fractions import Fraction
from typing import Iterable, List, Sequence, Set, Tuple

import numpy
from scipy.spatial import ConvexHull

from workbench.convex.outlines import convex_parts, turn, way
from workbench.solid import Mesh, Pieces, Solid
from workbench.tests.shapes import mesh_distance, mesh_points, random_points, short_of

Spot = Tuple[int, int]
Cell = Tuple[int, int, int]
SQUARE: List[Spot] = [(-100, -100), (100, -100), (100, 100), (-100, 100)]


def ring(
    sides: int, radius: float, centre: Spot = (0, 0), hole: bool = False, phase: float = 0.0
) -> List[Spot]:
    """A regular polygon on whole spots; with the clock where it is a hole."""
    angles = [2 * math.pi * (number + phase) / sides for number in range(sides)]
    spots = [
        (centre[0] + round(radius * math.cos(a)), centre[1] + round(radius * math.sin(a)))
        for a in angles
    ]
    return spots[::-1] if hole else spots


def prism(loops: Sequence[Sequence[Spot]], low: float, high: float) -> Mesh:
    """An upright prism: the region to the left of the loops, lifted."""
    spots = [spot for loop in loops for spot in loop]
    number = {spot: at for at, spot in enumerate(spots)}
    parts = convex_parts(loops)
    assert parts is not None and len(number) == len(spots)
    many = len(spots)
    points = [(x, y, z) for z in (low, high) for x, y in spots]
    faces = [[number[spot] for spot in part[::-1]] for part in parts]
    faces += [[number[spot] + many for spot in part] for part in parts]
    for loop in loops:
        for one, other in zip(loop, [*loop[1:], loop[0]]):
            a, b = number[one], number[other]
            faces.append([a, b, b + many, a + many])
    return Mesh(numpy.array(points, float), faces)


def blocks(cells: Iterable[Cell], size: float = 10.0) -> Mesh:
    """The union of cubes of a lattice."""
    filled: Set[Cell] = set(cells)
    number: dict[Cell, int] = {}
    faces: List[List[int]] = []
    for cell in sorted(filled):
        for axis, side in itertools.product(range(3), (0, 1)):
            beyond = tuple(c + (2 * side - 1) * (k == axis) for k, c in enumerate(cell))
            if beyond in filled:
                continue
            one, other = (axis + 1) % 3, (axis + 2) % 3
            face = []
            for i, j in ((0, 0), (1, 0), (1, 1), (0, 1)):
                corner = [0, 0, 0]
                corner[axis], corner[one], corner[other] = (
                    cell[axis] + side,
                    cell[one] + i,
                    cell[other] + j,
                )
                face.append(number.setdefault((corner[0], corner[1], corner[2]), len(number)))
            faces.append(face if side else face[::-1])
    return Mesh(numpy.array(list(number), float) * size, faces)


def star(draw: numpy.random.Generator, many: int, least: float = 0.5) -> Mesh:
    """Triangles around the origin whose corners lie at random distances: not convex, and not self-crossing."""
    ways = draw.normal(size=(many, 3))
    ways /= numpy.linalg.norm(ways, axis=1)[:, None]
    hull = ConvexHull(ways)
    faces = []
    for (a, b, c), equation in zip(hull.simplices.tolist(), hull.equations):
        upright = numpy.cross(ways[b] - ways[a], ways[c] - ways[a]) @ equation[:3] > 0
        faces.append([a, b, c] if upright else [a, c, b])
    return Mesh(ways * draw.uniform(least, 1.0, many)[:, None] * 100, faces)


def turned(mesh: Mesh, x: float, y: float, z: float) -> Mesh:
    """Turned about the three axes, one after the other; degrees."""
    points = numpy.asarray(mesh.points, float)
    for axis, angle in enumerate((x, y, z)):
        c, s = math.cos(math.radians(angle)), math.sin(math.radians(angle))
        one, other = (axis + 1) % 3, (axis + 2) % 3
        made = points.copy()
        made[:, one], made[:, other] = (
            c * points[:, one] - s * points[:, other],
            s * points[:, one] + c * points[:, other],
        )
        points = made
    return Mesh(points, mesh.faces)


def twisted(mesh: Mesh, turn: float) -> Mesh:
    """In triangles, each point turned about the upright axis by so many radians for a unit of its height."""
    points = numpy.asarray(mesh.points, float)
    c, s = numpy.cos(turn * points[:, 2]), numpy.sin(turn * points[:, 2])
    x, y = c * points[:, 0] - s * points[:, 1], s * points[:, 0] + c * points[:, 1]
    faces = [[face[0], one, other] for face in mesh.faces for one, other in zip(face[1:], face[2:])]
    return Mesh(numpy.stack([x, y, points[:, 2]], axis=1), faces)


def moved(mesh: Mesh, *step: float) -> Mesh:
    return Mesh(numpy.asarray(mesh.points, float) + numpy.array(step), mesh.faces)


def both(one: Mesh, other: Mesh) -> Mesh:
    """Two meshes as one."""
    shifted = [[corner + len(one.points) for corner in face] for face in other.faces]
    return Mesh(numpy.vstack([one.points, other.points]), one.faces + shifted)


def solid(mesh: Mesh, scale: int = 1000, name: str = "it") -> Solid:
    return Solid(name, Fraction(scale), mesh)


def six_volumes(mesh: Mesh) -> float:
    """Six times the volume."""
    total = 0.0
    for face in mesh.faces:
        for one, other in zip(face[1:], face[2:]):
            total += float(
                numpy.linalg.det(numpy.asarray(mesh.points, float)[[face[0], one, other]])
            )
    return total


def volume_of(found: Pieces, scale: float) -> float:
    """The volumes of the pieces together."""
    return sum(float(ConvexHull(piece.points).volume) for piece in found.pieces) / scale**3


def beaten(
    of: Solid, found: Pieces, draw: numpy.random.Generator, many: int = 30
) -> Tuple[float, float]:
    """By how much random points beat the bounds of pieces; neither is above 0 where the bounds hold.

    of: its `exact` is the solid of the model. How far points of the solid lie outside of the pieces is a lower bound.
    """
    assert of.exact is not None
    grid = 1 / float(of.scale)
    over = float(mesh_distance(of.exact)(random_points(found.pieces, grid, draw, many)).max())
    inner = mesh_points(of.exact, draw, 20 * many)
    box = draw.uniform(of.exact.points.min(axis=0), of.exact.points.max(axis=0), (20 * many, 3))
    within = box[mesh_distance(of.exact)(box) == 0]
    under = short_of(numpy.vstack([inner, within]), found.pieces, grid)
    return over - found.over - 1e-9, under - found.under - 1e-9


def is_convex(polygon: Sequence[Spot]) -> bool:
    ways = [way(one, other) for one, other in zip(polygon, [*polygon[1:], polygon[0]])]
    return all(turn(one, other) >= 0 for one, other in zip(ways, [*ways[1:], ways[0]]))
