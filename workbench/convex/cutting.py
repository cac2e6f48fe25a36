"""Solids that fall into convex pieces by cuts on the grid: convex ones, prisms, and what planes cut into these.

So boxes with holes, brackets, bolts and nuts come out exactly: each corner of a piece is a point of the grid, and the
union of the pieces is the solid.
"""
from __future__ import annotations

import time
from collections import Counter
from typing import Dict, Iterator, List, Optional, Sequence

from ..hulls import Point, cross, dot, less, primitive
from .bodies import Body, OffGrid, Plane, Tangled, flattened, loops_of
from .outlines import Spot, convex_parts

MOST_PLANES = 200  # that are tried as cuts of one body
MOST_FACES = 3000  # of a body that is cut in this way


def convex_pieces(body: Body, corners: int, until: float) -> Optional[List[List[Point]]]:
    """The corners of convex pieces whose union is the body, or nothing where no cut on the grid was found.

    corners: of a piece, at most; only prisms are held to it
    until: a processor time of this process after which none is looked for
    """
    convex = body.is_convex()
    if convex and len(body.points) <= corners:
        return [body.points]
    try:
        found = prism_pieces(body, corners)
        if found is not None or convex:
            return found or [body.points]
        if len(body.faces) > MOST_FACES:
            return None
        return cut_pieces(body, corners, until)
    except Tangled:
        return None


def cut_pieces(body: Body, corners: int, until: float) -> Optional[List[List[Point]]]:
    parts = body.parts()
    if len(parts) == 1:
        for plane in wanted_planes(body):
            if time.process_time() > until:
                return None
            try:
                parts = [part for side in body.cut(plane) if side.faces for part in side.parts()]
            except OffGrid:
                continue
            if len(parts) > 1:
                break
        else:
            return None
    found: List[List[Point]] = []
    for part in parts:
        pieces = convex_pieces(part, corners, until)
        if pieces is None:
            return None
        found += pieces
    return found


def wanted_planes(body: Body) -> Iterator[Plane]:
    """Planes of faces at reflex edges: across an axis first, then those in which most of these edges lie."""
    times: Counter = Counter()
    for _, one, other in body.reflex_edges():
        for normal, height in (one, other):
            times[max((normal, height), (less((0, 0, 0), normal), -height))] += 1
    ranked = sorted(times, key=lambda plane: (sum(map(bool, plane[0])) > 1, -times[plane], plane))
    yield from ranked[:MOST_PLANES]


def prism_pieces(body: Body, corners: int) -> Optional[List[List[Point]]]:
    """The pieces of a prism; nothing where the body is none."""
    for normal in ends_of_prism(body):
        heights = sorted(
            height if own == normal else -height
            for own, height in body.faces
            if parallel(own, normal)
        )
        bottom = body.faces.get((less((0, 0, 0), normal), -heights[0]))
        if len(heights) != 2 or bottom is None:
            continue
        along = lift_of(body, normal, heights)
        if along is None:
            continue
        polygons = polygons_of(bottom, less((0, 0, 0), normal))
        if polygons is None:
            return None
        some = [polygon for whole in polygons for polygon in halves(whole, corners // 2)]
        return [[*polygon, *(plus(point, along) for point in polygon)] for polygon in some]
    return None


def plus(one: Point, other: Point) -> Point:
    return (one[0] + other[0], one[1] + other[1], one[2] + other[2])


def parallel(one: Point, other: Point) -> bool:
    return one in (other, less((0, 0, 0), other))


def ends_of_prism(body: Body) -> Iterator[Point]:
    """Normals of faces that may be the ends of a prism: the normals of all other faces lie in one plane."""
    lines = sorted({max(normal, less((0, 0, 0), normal)) for normal, _ in body.faces})
    if len(lines) == 3:
        yield from lines
        return
    tried = set()
    for one, other in ((0, 1), (0, 2), (1, 2)):
        along = primitive(cross(lines[one], lines[other])) if len(lines) > 3 else (0, 0, 0)
        ends = [line for line in lines if dot(line, along)]
        if len(ends) == 1 and ends[0] not in tried:
            tried.add(ends[0])
            yield ends[0]


def lift_of(body: Body, normal: Point, heights: Sequence[int]) -> Optional[Point]:
    """The way from the bottom to the top of a prism; nothing where some edge between them leads another way."""
    lifts = set()
    for face in body.faces.values():
        for one, other in face:
            if dot(normal, one) == heights[0] and dot(normal, other) == heights[1]:
                lifts.add(less(other, one))
    return lifts.pop() if len(lifts) == 1 else None


def polygons_of(face: set, normal: Point) -> Optional[List[List[Point]]]:
    """Convex polygons that make up a face."""
    first, second = flattened(normal)
    loops = loops_of(face, normal)
    place: Dict[Spot, Point] = {
        (point[first], point[second]): point for loop in loops for point in loop
    }
    parts = convex_parts([[(point[first], point[second]) for point in loop] for loop in loops])
    return None if parts is None else [[place[spot] for spot in part] for part in parts]


def halves(polygon: List[Point], corners: int) -> List[List[Point]]:
    """A convex polygon in parts of at most so many corners."""
    if len(polygon) <= corners:
        return [polygon]
    middle = len(polygon) // 2
    return halves(polygon[: middle + 1], corners) + halves(polygon[middle:] + polygon[:1], corners)
