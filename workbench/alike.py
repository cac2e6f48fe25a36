"""Solids that are alike but for their place: moved by whole steps, or turned.

What is told by no model is found in its meshes. A face of the one is laid on each face of the other that may be the
same, and where all points and faces then meet, the solids are alike.
"""
from __future__ import annotations

from dataclasses import dataclass, field
from typing import Dict, Iterator, List, Optional, Sequence, Tuple

import numpy
from scipy.spatial import cKDTree

from .snapping import EXACT, rounded
from .solid import Mesh, Solid
from .triangles import newells

NEAR = 1.0  # in steps: points that are to meet lie no farther apart
LOOSE = 8.0  # in steps: as long as one face alone tells the turn
FINE = 1e-6  # how far the components of a turn may be from whole numbers that are meant
MOST_TRIED = 240  # ways to lay one face on another
FEW_TRIES = 60  # of these, a face is taken for its size
Loop = Tuple[int, ...]


@dataclass
class Turn:
    """The point p of one solid is the point p @ frame + way of the other, but for `off`; all in steps.

    whole: whether it is so exactly for the surfaces on the grid, and the frame and the way are whole
    """

    frame: numpy.ndarray
    way: numpy.ndarray
    off: float
    whole: bool = False

    def of(self, points: numpy.ndarray) -> numpy.ndarray:
        return points @ self.frame + self.way


@dataclass
class Alike:
    """A solid to be cut, and those that are the same.

    others: their numbers and how many steps they lie from it; turned: their numbers and how they were turned
    """

    first: int
    others: List[Tuple[int, numpy.ndarray]] = field(default_factory=list)
    turned: List[Tuple["Alike", Turn]] = field(default_factory=list)


def mesh_of(solid: Solid) -> Mesh:
    mesh = solid.whole or solid.exact
    assert mesh is not None
    return mesh


def key_of(solid: Solid) -> Tuple[object, numpy.ndarray]:
    """What solids have in common that are alike but for a way of whole steps, and where this one lies."""
    mesh = mesh_of(solid)
    place = (
        rounded(mesh.points.min(axis=0), solid.scale)
        if solid.whole is None
        else mesh.points.min(axis=0)
    )
    scale = float(solid.scale) if solid.whole is None else 1.0
    rows = numpy.rint((mesh.points * scale - place) * 1024).astype(numpy.int64)
    faces = tuple(tuple(face) for face in mesh.faces)
    bounds = (solid.over, solid.under, solid.whole_over, solid.whole_under)
    steps = tuple(round(bound * float(solid.scale) * 1e6) for bound in bounds)
    return (solid.whole is None, rows.tobytes(), faces, steps), place


def further(one: Solid, other: Solid, way: numpy.ndarray) -> Tuple[float, float]:
    """By how much bounds of the one may be beaten by its pieces as those of the other, which lies a way of whole steps
    from it: in model units, nothing where numbers are good for no less."""
    mesh, scale = mesh_of(other), float(other.scale)
    greatest = float(numpy.abs(mesh.points).max())
    if one.whole is not None:
        greatest /= scale
        found = (other.whole_over - one.whole_over, other.whole_under - one.whole_under)
    else:
        ways = mesh.points - mesh_of(one).points - way / scale
        off = float(numpy.linalg.norm(ways, axis=1).max())
        found = (off, off)
    least = EXACT * greatest
    return found[0] if found[0] > least else 0.0, found[1] if found[1] > least else 0.0


def moved_groups(solids: Sequence[Solid]) -> List[Alike]:
    """The solids in groups of those that are alike but for a way of whole steps."""
    found: Dict[object, Tuple[Alike, numpy.ndarray]] = {}
    for number, solid in enumerate(solids):
        key, place = key_of(solid)
        if key in found:
            found[key][0].others.append((number, place - found[key][1]))
        else:
            found[key] = (Alike(number), place)
    return [alike for alike, _ in found.values()]


def groups_of(solids: Sequence[Solid]) -> List[Alike]:
    """The solids in groups of those that are alike; first in each is one whose surface is on the grid, if one is."""
    groups: List[Alike] = []
    shapes: Dict[Tuple[int, int], List[Tuple[Alike, Shape]]] = {}
    some = moved_groups(solids)
    for alike in sorted(some, key=lambda group: (solids[group.first].whole is None, group.first)):
        solid = solids[alike.first]
        if solid.exact is None:
            groups.append(alike)
            continue
        shape = Shape(solid.exact, float(solid.scale))
        known = shapes.setdefault((len(shape.points), len(shape.faces)), [])
        for other, theirs in known:
            turn = turn_between(theirs, shape)
            if turn is not None:
                turn.whole = is_whole(turn, solids[other.first], solid)
                other.turned.append((alike, turn))
                break
        else:
            known.append((alike, shape))
            groups.append(alike)
    return sorted(groups, key=lambda group: group.first)


def is_whole(turn: Turn, one: Solid, other: Solid) -> bool:
    """Whether a turn leads from the one surface on the grid to the other, exactly. It is made whole where it can be."""
    frame = numpy.rint(turn.frame)
    if one.whole is None or other.whole is None or numpy.abs(turn.frame - frame).max() > FINE:
        return False
    first, second = one.whole.points.astype(float) @ frame, other.whole.points.astype(float)
    way = second.min(axis=0) - first.min(axis=0)
    if {tuple(row) for row in (first + way).tolist()} != {tuple(row) for row in second.tolist()}:
        return False
    turn.frame, turn.way = frame, way
    return True


class Shape:
    """A closed mesh in steps around its middle, with what is the same of it however it lies."""

    def __init__(self, mesh: Mesh, scale: float) -> None:
        used = numpy.unique(numpy.concatenate([numpy.array(face, int) for face in mesh.faces]))
        place = {int(corner): number for number, corner in enumerate(used)}
        self.points = numpy.asarray(mesh.points, float)[used] * scale
        self.middle = self.points.mean(axis=0)
        self.points = self.points - self.middle
        self.faces = [[place[corner] for corner in face] for face in mesh.faces]
        self.lengths = numpy.sort(numpy.linalg.norm(self.points, axis=1))
        self.sizes = numpy.array([len(face) for face in self.faces])
        self.areas = numpy.linalg.norm(newells(self.points, self.faces), axis=1)
        self.depths = numpy.array(
            [numpy.linalg.norm(self.points[face].mean(axis=0)) for face in self.faces]
        )

    def like(self, size: int, depth: float) -> numpy.ndarray:
        """The numbers of the faces of so many corners whose middles lie so far from that of the solid."""
        return numpy.nonzero((self.sizes == size) & (numpy.abs(self.depths - depth) <= LOOSE))[0]

    def rarest(self) -> int:
        """The number of a great face that few are like."""
        keys = numpy.stack([self.sizes, numpy.rint(self.depths / LOOSE)], axis=1)
        _, places, many = numpy.unique(keys, axis=0, return_inverse=True, return_counts=True)
        tries = many[places.ravel()] * self.sizes
        return int(numpy.where(tries <= max(tries.min(), FEW_TRIES), self.areas, -1.0).argmax())

    def loops(self, places: Optional[numpy.ndarray] = None) -> List[Loop]:
        """The faces, each from its least corner on, in order; with these numbers for the corners."""
        found = []
        for face in self.faces:
            row = face if places is None else [int(places[corner]) for corner in face]
            at = row.index(min(row))
            found.append((*row[at:], *row[:at]))
        return sorted(found)


def turn_between(one: Shape, other: Shape) -> Optional[Turn]:
    """How the one is turned to be the other; nothing where they are not found to be alike."""
    if numpy.abs(one.lengths - other.lengths).max() > 2 * NEAR:
        return None
    tree, loops = cKDTree(other.points), other.loops()
    for frame in frames_between(one, other):
        places = met(one.points @ frame, tree)
        if places is None or one.loops(places) != loops:
            continue
        better = rotation(one.points, other.points[places])
        off = float(numpy.linalg.norm(one.points @ better - other.points[places], axis=1).max())
        if off <= NEAR:
            return Turn(better, other.middle - one.middle @ better, off)
    return None


def met(points: numpy.ndarray, tree: cKDTree) -> Optional[numpy.ndarray]:
    """For each point the number of that of the tree which it meets; nothing where some meet none, or two the same."""
    far, places = tree.query(points)
    if far.max() > LOOSE or len(numpy.unique(places)) < len(points):
        return None
    return numpy.asarray(places)


def frames_between(one: Shape, other: Shape) -> Iterator[numpy.ndarray]:
    """The rotations that lay a face of the one on a face of the other."""
    number = one.rarest()
    face = one.faces[number]
    tried = 0
    for candidate in other.like(len(face), float(one.depths[number])):
        loop = other.faces[int(candidate)]
        for at in range(len(loop)):
            tried += 1
            if tried > MOST_TRIED:
                return
            goals = other.points[loop[at:] + loop[:at]]
            frame = rotation(one.points[face], goals)
            if numpy.linalg.norm(one.points[face] @ frame - goals, axis=1).max() <= LOOSE:
                yield frame


def rotation(points: numpy.ndarray, goals: numpy.ndarray) -> numpy.ndarray:
    """The rotation about the origin, as points @ rotation, that leads points nearest to their goals (Kabsch 1976)."""
    left, _, right = numpy.linalg.svd(points.T @ goals)
    sign = numpy.sign(numpy.linalg.det(left @ right)) or 1.0
    return numpy.asarray(left @ numpy.diag([1.0, 1.0, sign]) @ right)
