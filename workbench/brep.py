"""A solid as modellers keep it: faces on surfaces, bounded by edges on curves between vertices.

Faces that lie on one surface and meet along an edge are made one here, and edges that only parted them fall away: a
cylinder in two halves becomes one, with two whole circles around it.
"""
from __future__ import annotations

from dataclasses import dataclass, field
from typing import Callable, Dict, List, Optional, Set, Tuple

import numpy

from .fitting import NEAR, Arc, Fit
from .groups import Groups

Curve = Callable[[numpy.ndarray], numpy.ndarray]  # parameters (n,) from 0 to 1 to points (n, 3)


@dataclass
class Edge:
    """A bounded curve. `ends` are numbers of vertices, equal where it is closed; `at` follows the curve from 0 to 1."""

    ends: Tuple[int, int]
    kind: str
    at: Curve
    arc: Optional[Arc] = None


@dataclass
class Face:
    """A bounded surface; `edges` are those around it, each as often as it bounds the face.

    tag: the modeller's number
    inner: a point of the face, where its surface is a ball
    """

    fit: Fit
    edges: List[int]
    tag: int = 0
    inner: numpy.ndarray = field(default_factory=lambda: numpy.zeros(3))


@dataclass
class Body:
    """A solid: its name, vertices (n, 3), edges and faces, by their numbers; `tag` is the modeller's."""

    name: str
    vertices: Dict[int, numpy.ndarray]
    edges: Dict[int, Edge]
    faces: List[Face]
    tag: int = 0


@dataclass
class Region:
    """Faces on one surface that hang together.

    loops: the edges around them, in order; with False an edge is followed from its second end to its first
    tags, inner: as of the faces; the inner point is one of the first face
    """

    fit: Fit
    loops: List[List[Tuple[int, bool]]] = field(default_factory=list)
    tags: List[int] = field(default_factory=list)
    inner: numpy.ndarray = field(default_factory=lambda: numpy.zeros(3))

    def edges(self) -> Set[int]:
        return {number for loop in self.loops for number, _ in loop}


def same(one: Fit, other: Fit, near: float) -> bool:
    """Whether two surfaces are one, but for `near`."""
    if one.kind != other.kind or one.kind == "other" or abs(one.radius - other.radius) > near:
        return False
    way = other.point - one.point
    if one.kind == "sphere":
        return float(numpy.linalg.norm(way)) < near
    if float(numpy.linalg.norm(numpy.cross(one.axis, other.axis))) > NEAR:
        return False
    if one.kind == "plane":
        return abs(float(way @ one.axis)) < near
    if one.kind == "cone":
        return float(numpy.linalg.norm(way)) < near
    return float(numpy.linalg.norm(numpy.cross(way, one.axis))) < near


def regions_of(body: Body, near: float) -> List[Region]:
    """The regions of a body. ValueError: the edges around one make no loops."""
    groups = Groups(len(body.faces))
    owners: Dict[int, List[int]] = {}
    for number, face in enumerate(body.faces):
        for edge in face.edges:
            owners.setdefault(edge, []).append(number)
    for some in owners.values():
        for other in some[1:]:
            if same(body.faces[some[0]].fit, body.faces[other].fit, near):
                groups.join(some[0], other)
    members: Dict[int, List[int]] = {}
    for number in range(len(body.faces)):
        members.setdefault(groups.of(number), []).append(number)
    regions = []
    for some in members.values():
        times: Dict[int, int] = {}
        for number in some:
            for edge in body.faces[number].edges:
                times[edge] = times.get(edge, 0) + 1
        around = [edge for edge, many in times.items() if many == 1]
        region = Region(body.faces[some[0]].fit, loops_of(body, around))
        region.tags = [body.faces[number].tag for number in some]
        region.inner = body.faces[some[0]].inner
        regions.append(region)
    return regions


def loops_of(body: Body, around: List[int]) -> List[List[Tuple[int, bool]]]:
    """The edges in closed loops; an edge with False is followed from its second end to its first."""
    at: Dict[int, Set[int]] = {}
    for number in around:
        for end in body.edges[number].ends:
            at.setdefault(end, set()).add(number)
    left, loops = set(around), []
    while left:
        first = min(left)
        left.remove(first)
        loop, (start, end) = [(first, True)], body.edges[first].ends
        while end != start:
            onwards = [number for number in sorted(at[end]) if number in left]
            if not onwards:
                raise ValueError("the edges around a face make no loop")
            number = onwards[0]
            left.remove(number)
            forward = body.edges[number].ends[0] == end
            loop.append((number, forward))
            end = body.edges[number].ends[1 if forward else 0]
        loops.append(loop)
    return loops
