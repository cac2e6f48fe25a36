"""Which parts of a list overlap, where, and how deep; and what to do about it."""
from __future__ import annotations

import shlex
from dataclasses import dataclass
from typing import Any, Dict, List, Sequence, Tuple

import numpy
from scipy.optimize import linprog

from .grids import short
from .hulls import piece_of as hull_of
from .named import Parts
from .overlaps import Body, Overlap, overlaps


@dataclass(frozen=True)
class Clash:
    """Two parts that overlap: the pairs of pieces that do, and of these the deepest one.

    depth: the least way that takes its pieces apart; near: a point well within both; model units
    """

    part: int
    by: int
    pieces: Tuple[Tuple[int, int], ...]
    deepest: Tuple[int, int]
    depth: float
    near: Tuple[float, float, float]


def clashes_of(parts: Parts) -> List[Clash]:
    """All parts that overlap, two by two, by their numbers."""
    pairs: Dict[Tuple[int, int], List[Overlap]] = {}
    hulls = [[hull_of(piece.points.tolist()) for piece in some] for some in parts.pieces]
    for overlap in overlaps(hulls):
        pairs.setdefault((overlap.a, overlap.b), []).append(overlap)
    return [clash_of(parts, some) for some in pairs.values()]


def clash_of(parts: Parts, some: Sequence[Overlap]) -> Clash:
    deep = max(some, key=lambda overlap: overlap.depth)
    point = inner_point(parts.body(deep.a, deep.i), parts.body(deep.b, deep.j))
    return Clash(
        deep.a,
        deep.b,
        tuple((overlap.i, overlap.j) for overlap in some),
        (deep.i, deep.j),
        parts.length(deep.depth),
        parts.place(point),
    )


def inner_point(one: Body, other: Body) -> List[float]:
    """The middle of the greatest ball in both of two pieces that overlap, in steps."""
    normals = numpy.array(one.normals + other.normals, dtype=float)
    levels = [
        float((numpy.array(normal) @ body.points.T).max())
        for body in (one, other)
        for normal in body.normals
    ]
    rows = numpy.column_stack([normals, numpy.linalg.norm(normals, axis=1)])
    bounds = [(None, None)] * 3 + [(0, None)]
    found = linprog([0, 0, 0, -1], A_ub=rows, b_ub=levels, bounds=bounds)
    if found.success:
        return [float(number) for number in found.x[:3]]
    low, high = numpy.maximum(one.least, other.least), numpy.minimum(one.most, other.most)
    return [float(number) for number in (low + high) / 2]


def lines_of(clashes: Sequence[Clash], parts: Parts) -> List[str]:
    """The answer for people: which parts overlap, and the words with which one goes on."""
    unit = f" {parts.unit}" if parts.unit else ""
    lines = [f"parts overlap: {len(clashes)} " + ("pair" if len(clashes) == 1 else "pairs")]
    for clash in clashes:
        one, other = parts.names[clash.part], parts.names[clash.by]
        where = ", ".join(f"{number:g}" for number in clash.near)
        line = f"   {one} and {other}, {short(clash.depth)}{unit} deep near ({where})"
        line += ": pieces {} and {}".format(*clash.deepest)
        more = len(clash.pieces) - 1
        lines.append(line + (f", and {more} more pairs" if more else ""))
    return lines + ways_on(clashes, parts)


def ways_on(clashes: Sequence[Clash], parts: Parts) -> List[str]:
    deepest = max(clash.depth for clash in clashes)
    first = clashes[0]
    join = shlex.quote(f"{parts.names[first.part]},{parts.names[first.by]}")
    return [
        f"a press fit or a thread: pieces --clearance={short(deepest)} lets the faces give way",
        f"parts that stay together: pieces --join={join} makes them one",
        "round faces that became polygons that differ: pieces --sides=N with a greater N; else correct the model",
    ]


def data_of(clashes: Sequence[Clash]) -> List[Dict[str, Any]]:
    """The same for programs."""
    return [
        {
            "parts": [clash.part, clash.by],
            "pieces": [list(pair) for pair in clash.pieces],
            "depth": clash.depth,
            "near": list(clash.near),
        }
        for clash in clashes
    ]
