"""Putting a mesh on the grid without bending a face."""
from __future__ import annotations

from fractions import Fraction
from typing import Dict, List, Optional, Tuple

import numpy

from .closing import edges_of
from .groups import Groups
from .solid import GREATEST, Mesh
from .triangles import newells

EXACT = 1e-9  # of the greatest coordinate: what is left of it by numbers with sixteen digits
TIE = 1e-6  # halves of a step, and what rounding left of them, all go up: so equal coordinates stay equal


def rounded(points: numpy.ndarray, scale: Fraction) -> numpy.ndarray:
    """Points (n, 3) in model units as whole steps, int64."""
    return numpy.floor(points * float(scale) + 0.5 + TIE).astype(numpy.int64)


def planes_of(mesh: Mesh) -> List[List[int]]:
    """The faces in lists, each of faces that meet along edges and lie in one plane."""
    normals = newells(mesh.points, mesh.faces)
    sizes = numpy.linalg.norm(normals, axis=1)
    units = normals / numpy.maximum(sizes, 1e-300)[:, None]
    near = 1e-7 * float(numpy.ptp(mesh.points, axis=0).max())
    groups = Groups(len(mesh.faces))
    owners: Dict[Tuple[int, int], int] = {}
    for number, face in enumerate(mesh.faces):
        for edge in edges_of(face):
            other = owners.setdefault(edge, number)
            if other != number and units[other] @ units[number] > 1 - 1e-9:
                rows = mesh.points[face] - mesh.points[mesh.faces[other][0]]
                if numpy.abs(rows @ units[other]).max() < near:
                    groups.join(number, other)
    lists: Dict[int, List[int]] = {}
    for number in range(len(mesh.faces)):
        lists.setdefault(groups.of(number), []).append(number)
    return list(lists.values())


def on_grid(mesh: Mesh, scale: Fraction) -> Optional[Mesh]:
    """The mesh with whole points; nothing where a face would be bent, turned over or lost, or points would meet."""
    points = rounded(mesh.points, scale)
    if numpy.abs(points).max() > GREATEST or len(numpy.unique(points, axis=0)) < len(points):
        return None
    normals = newells(mesh.points, mesh.faces)
    for numbers in planes_of(mesh):
        corners = sorted({corner for number in numbers for corner in mesh.faces[number]})
        rows = points[corners] - points[corners[0]]
        normal = whole_normal(points, mesh.faces[numbers[0]])
        if not any(normal) or any(sum(n * int(x) for n, x in zip(normal, row)) for row in rows):
            return None
        for number in numbers:
            if normals[number] @ numpy.array(whole_normal(points, mesh.faces[number]), float) <= 0:
                return None
    return Mesh(points, mesh.faces, mesh.name)


def whole_normal(points: numpy.ndarray, face: List[int]) -> Tuple[int, int, int]:
    """Twice the area vector of a face, in whole numbers of any size."""
    rows = [[int(x) for x in points[corner] - points[face[0]]] for corner in face]
    total = [0, 0, 0]
    for one, two in zip(rows, rows[1:] + rows[:1]):
        for axis in range(3):
            a, b = (axis + 1) % 3, (axis + 2) % 3
            total[axis] += one[a] * two[b] - one[b] * two[a]
    return total[0], total[1], total[2]


def moved(exact: Mesh, whole: Mesh, scale: Fraction) -> numpy.ndarray:
    """How far each point was moved, in model units; nothing where it was no farther than the numbers are good for.

    All points of the surface were moved no farther than the farthest of these.
    """
    ways = numpy.linalg.norm(whole.points / float(scale) - exact.points, axis=1)
    return numpy.where(ways > EXACT * float(numpy.abs(exact.points).max()), ways, 0.0)
