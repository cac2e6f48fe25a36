"""Which parts of a product are the same: alike in name, and alike in their pieces but for their place."""
from __future__ import annotations

import re
from dataclasses import dataclass
from typing import Dict, List, Sequence, Tuple

import numpy
from scipy.spatial import ConvexHull

from .solid import Piece

NEAR = 1e-3  # of their greatest: numbers that are the same of two parts differ by no more
CUT = 0.05  # the same of two that the model takes for one: round faces were cut at different angles


def plain_name(name: str) -> str:
    """The name without the assemblies that it stands in, and without the numbers of copies: BOLT of A::1/B::2/BOLT."""
    return re.sub(r"(::\d+|-\d+)+$", "", name.rstrip("/").split("/")[-1]) or name


def copies_of(name: str) -> bool:
    """Whether the model says that a part is one of several copies, as A::1/B::2/BOLT."""
    return "::" in name


def measure(pieces: Sequence[Piece]) -> numpy.ndarray:
    """Lengths that are the same of a part however it lies: of its volume, and of its moments about its middle."""
    volumes, middles, spreads = [], [], []
    for piece in pieces:
        points = piece.points.astype(float)
        volumes.append(float(ConvexHull(points).volume))
        middles.append(points.mean(axis=0))
        spreads.append(numpy.cov(points.T, bias=True))
    weights = numpy.array(volumes) / sum(volumes)
    centre = weights @ numpy.array(middles)
    rows = numpy.array(middles) - centre
    moments = numpy.einsum("k,kij->ij", weights, numpy.array(spreads))
    moments = moments + numpy.einsum("k,ki,kj->ij", weights, rows, rows)
    widths = numpy.sqrt(numpy.maximum(numpy.linalg.eigvalsh(moments), 0.0))
    return numpy.array([float(numpy.cbrt(sum(volumes))), *widths])


def same_parts(parts: Sequence[Tuple[str, List[Piece]]]) -> List[Tuple[str, List[int]]]:
    """The parts in groups of those that are the same, each with its plain name, in order of the first.

    Where the model says that they are copies, their pieces need be alike only as far as cutting leaves them so.
    Different groups of one name get numbers behind it.
    """
    groups: Dict[str, List[Tuple[Likeness, List[int]]]] = {}
    order: List[Tuple[str, List[int]]] = []
    for number, (name, pieces) in enumerate(parts):
        plain, like = plain_name(name), Likeness(measure(pieces), len(pieces), copies_of(name))
        known = groups.setdefault(plain, [])
        members = next((members for other, members in known if like.is_that_of(other)), None)
        if members is None:
            members = []
            order.append((f"{plain} (kind {len(known) + 1})" if known else plain, members))
            known.append((like, members))
        members.append(number)
    return order


@dataclass(frozen=True)
class Likeness:
    """What parts have in common that are the same: sizes, how many pieces, and whether the model has copies of it."""

    sizes: numpy.ndarray
    many: int
    is_copy: bool

    def is_that_of(self, other: "Likeness") -> bool:
        off = float(numpy.abs(other.sizes - self.sizes).max() / other.sizes.max())
        return (
            off <= NEAR and self.many == other.many or self.is_copy and other.is_copy and off <= CUT
        )
