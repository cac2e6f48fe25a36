"""Surfaces that touch along edges: at an edge of four or more faces, which of them bound one wedge of a solid.

Around such an edge wedges of solids and of what is outside follow each other. The two faces of a wedge of a solid
belong to one surface (the radial order of Weiler 1986), so solids that only touch are told apart.
"""
from __future__ import annotations

from collections import Counter, defaultdict
from typing import Dict, List, Tuple

import numpy

from .groups import Groups
from .triangles import newell

Faces = List[List[int]]
Edge = Tuple[int, int]
NEAR = 1e-7  # radians: faces so near each other lie on each other


def directed(face: List[int]) -> List[Edge]:
    return list(zip(face, face[1:] + face[:1]))


def is_balanced(faces: Faces) -> bool:
    """Whether each edge is followed as often one way as the other: then the faces bound solids, as they are wound."""
    times = Counter(edge for face in faces for edge in directed(face))
    return all(times[other, one] == many for (one, other), many in times.items())


def parted(points: numpy.ndarray, faces: Faces) -> List[Faces]:
    """The faces of a balanced surface in lists, those that touch along edges apart, in order of the first face."""
    owners: Dict[Edge, List[int]] = defaultdict(list)
    for number, face in enumerate(faces):
        for one, other in directed(face):
            owners[min(one, other), max(one, other)].append(number)
    groups = Groups(len(faces))
    for edge, some in owners.items():
        for one, other in (
            [(some[0], some[-1])] if len(some) == 2 else wedges(points, faces, edge, some)
        ):
            groups.join(one, other)
    lists: Dict[int, Faces] = {}
    for number, face in enumerate(faces):
        lists.setdefault(groups.of(number), []).append(face)
    return list(lists.values())


def wedges(
    points: numpy.ndarray, faces: Faces, edge: Edge, numbers: List[int]
) -> List[Tuple[int, int]]:
    """The faces around an edge in pairs, each of the two that bound one wedge of a solid.

    Seen along the edge, a solid lies against the clock behind a face that follows the edge backwards, and before one
    that follows it forwards. Where faces lie on each other, one wedge ends before the next begins.
    """
    way = points[edge[1]] - points[edge[0]]
    way = way / (numpy.linalg.norm(way) or 1.0)
    backwards = [edge not in directed(faces[number]) for number in numbers]
    inwards = []
    for number, back in zip(numbers, backwards):
        normal = newell(points[faces[number]] - points[edge[0]])
        inwards.append(numpy.cross(normal, -way if back else way))
    start = inwards[backwards.index(True)]
    across = numpy.cross(way, start)
    angles = [float(numpy.arctan2(row @ across, row @ start)) for row in inwards]
    angles = [angle % (2 * numpy.pi) for angle in angles]
    angles = [0.0 if angle > 2 * numpy.pi - NEAR else angle for angle in angles]
    order = sorted(range(len(numbers)), key=lambda at: (round(angles[at] / NEAR), backwards[at]))
    first = next(at for at, place in enumerate(order) if backwards[place])
    order = order[first:] + order[:first]
    return [(numbers[one], numbers[other]) for one, other in zip(order[::2], order[1::2])]
