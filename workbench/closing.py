"""From the faces of a mesh to closed surfaces, each wound outwards."""
from __future__ import annotations

from dataclasses import dataclass
from typing import Dict, Iterable, List, Optional, Tuple

import numpy
from scipy.spatial import cKDTree

from .groups import Groups
from .solid import Mesh
from .triangles import newells, triangulated
from .wedges import is_balanced, parted

Faces = List[List[int]]
Edge = Tuple[int, int]


@dataclass
class Shell:
    """A connected surface: its mesh, how many of its edges are open, its volume as drawn.

    gaps: edges that are not shared by exactly two faces, unless all edges are followed as often one way as the other

    drawn: the volume, negative where the faces are wound inwards; nothing where they are wound both ways
    """

    mesh: Mesh
    gaps: int
    drawn: Optional[float] = None


def pairs_of(face: List[int]) -> Iterable[Edge]:
    return zip(face, face[1:] + face[:1])


def edges_of(face: List[int]) -> List[Edge]:
    return [(min(one, other), max(one, other)) for one, other in pairs_of(face)]


def times_of(faces: Faces) -> Dict[Edge, int]:
    """How many faces have each edge."""
    times: Dict[Edge, int] = {}
    for face in faces:
        for edge in edges_of(face):
            times[edge] = times.get(edge, 0) + 1
    return times


def open_edges(faces: Faces) -> int:
    return sum(1 for number in times_of(faces).values() if number != 2)


def connected(faces: Faces) -> List[Faces]:
    """The faces in lists, each of faces that hang together by edges, in order of the first face."""
    groups = Groups(len(faces))
    seen: Dict[Edge, int] = {}
    for number, face in enumerate(faces):
        for edge in edges_of(face):
            groups.join(number, seen.setdefault(edge, number))
    lists: Dict[int, Faces] = {}
    for number, face in enumerate(faces):
        lists.setdefault(groups.of(number), []).append(face)
    return list(lists.values())


def proper(faces: Faces) -> Faces:
    """The faces without repeated corners; those that have no three corners are left out."""
    kept = []
    for face in faces:
        face = [corner for corner, after in pairs_of(face) if corner != after]
        if len(set(face)) >= 3:
            kept.append(face)
    return kept


def split_edges(points: numpy.ndarray, faces: Faces, near: float) -> Faces:
    """The faces, where the edges that are not shared by two are split at points that lie on them."""
    used = sorted({corner for face in faces for corner in face})
    places = points[used]
    between: Dict[Edge, List[int]] = {}
    for one, other in (edge for edge, number in times_of(faces).items() if number != 2):
        way = points[other] - points[one]
        length = float(numpy.linalg.norm(way))
        along = (places - points[one]) @ way / (length or 1)
        off = numpy.linalg.norm(
            places - points[one] - numpy.outer(along, way / (length or 1)), axis=1
        )
        on = numpy.nonzero((off <= near) & (along > near) & (along < length - near))[0]
        between[one, other] = [
            used[number] for number in sorted(on, key=lambda number: along[number])
        ]
    new: Faces = []
    for face in faces:
        row: List[int] = []
        for one, other in pairs_of(face):
            inner = between.get((min(one, other), max(one, other)), [])
            row += [one] + (inner if one < other else inner[::-1])
        new.append(row)
    return new


def merged(points: numpy.ndarray, faces: Faces, merge: float) -> Faces:
    """The faces, where points that lie together are one."""
    groups = Groups(len(points))
    for one, other in cKDTree(points).query_pairs(merge):
        groups.join(one, other)
    return proper([[groups.of(corner) for corner in face] for face in faces])


def wound(faces: Faces) -> Tuple[Faces, bool]:
    """The faces of a closed connected surface, all wound like the first; whether they were so."""
    owners: Dict[Edge, List[int]] = {}
    for number, face in enumerate(faces):
        for edge in edges_of(face):
            owners.setdefault(edge, []).append(number)
    turned: Dict[int, bool] = {0: False}
    waiting = [0]
    while waiting:
        number = waiting.pop()
        for one, other in pairs_of(faces[number]):
            for beside in owners[min(one, other), max(one, other)]:
                if beside not in turned:
                    along = (one, other) in pairs_of(faces[beside])
                    turned[beside] = turned[number] != along
                    waiting.append(beside)
    return [
        face[::-1] if turned.get(number) else face for number, face in enumerate(faces)
    ], not any(turned.values())


def volume(mesh: Mesh) -> float:
    """The volume of a closed surface, negative where it is wound inwards."""
    rows = mesh.points - mesh.points.mean(axis=0)
    firsts = rows[[face[0] for face in mesh.faces]]
    return float((firsts * newells(rows, mesh.faces)).sum()) / 6


def plane_faces(mesh: Mesh, near: float) -> Mesh:
    """The mesh, where faces whose corners lie farther than `near` from a plane are cut into triangles."""
    faces: Faces = []
    for face, normal in zip(mesh.faces, newells(mesh.points, mesh.faces)):
        rows = mesh.points[face]
        length = float(numpy.linalg.norm(normal))
        if len(face) > 3 and length > 0 and numpy.ptp(rows @ normal) > near * length:
            faces += triangulated(mesh.points, [face], normal)
        else:
            faces.append(face)
    return Mesh(mesh.points, faces, mesh.name)


def shell_of(points: numpy.ndarray, faces: Faces, near: float) -> Shell:
    used = sorted({corner for face in faces for corner in face})
    place = {corner: number for number, corner in enumerate(used)}
    mesh = Mesh(points[used], [[place[corner] for corner in face] for face in faces])
    gaps, kept = open_edges(mesh.faces), True
    if gaps and not is_balanced(mesh.faces):
        return Shell(mesh, gaps)
    if not gaps:
        mesh.faces, kept = wound(mesh.faces)
    mesh = plane_faces(mesh, near)
    drawn = volume(mesh)
    if drawn < 0:
        mesh.faces = [face[::-1] for face in mesh.faces]
    return Shell(mesh, 0, drawn if kept else None)


def shells_of(mesh: Mesh, merge: Optional[float] = None) -> List[Shell]:
    """The connected surfaces of a mesh.

    merge: points so near each other are one where a surface is open; else a millionth of the extent. An edge that is
    not shared by two is split at points within a ten-thousandth of the extent of it. Solids that touch along edges are
    told apart.
    """
    extent = float(numpy.ptp(mesh.points, axis=0).max()) if len(mesh.points) else 0.0
    merge = extent / 1e6 if merge is None else merge
    closed: List[Faces] = []
    rest: Faces = []
    for some in connected(proper(mesh.faces)):
        if open_edges(some) == 0:
            closed.append(some)
        else:
            rest += some
    if rest:  # triangles that were written one by one hang together only so
        rest = merged(mesh.points, rest, merge)
        if 0 < open_edges(rest) <= 2000:
            rest = proper(split_edges(mesh.points, rest, extent / 10000))
    for some in connected(rest):
        touching = open_edges(some) > 0 and is_balanced(some)
        closed += parted(mesh.points, some) if touching else [some]
    return [shell_of(mesh.points, some, extent / 1e7) for some in closed]


def holds(shell: Shell, point: numpy.ndarray) -> bool:
    """Whether a point lies inside a closed surface, by solid angles (Van Oosterom and Strackee 1983)."""
    corners = [
        [face[0], face[k], face[k + 1]]
        for face in shell.mesh.faces
        for k in range(1, len(face) - 1)
    ]
    rows = shell.mesh.points[numpy.array(corners)] - point
    one, two, three = rows[:, 0], rows[:, 1], rows[:, 2]
    a, b, c = (numpy.linalg.norm(row, axis=1) for row in (one, two, three))
    up = numpy.einsum("ij,ij->i", one, numpy.cross(two, three))
    down = a * b * c + (one * two).sum(1) * c + (one * three).sum(1) * b + (two * three).sum(1) * a
    return abs(float(2 * numpy.arctan2(up, down).sum())) > 2 * numpy.pi
