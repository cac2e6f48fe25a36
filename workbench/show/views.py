"""From where a product is looked at: so that its parts hide each other little once they are apart."""
from __future__ import annotations

import math
from typing import List, Sequence, Tuple

import numpy

from .plans import Vector
from .travel import Box

HEIGHTS = (24.0, 34.0)  # degrees above the horizon
AROUND = 24  # so many ways to stand around the product
LIKED = 240.0  # degrees: in front and a little to the left, where nothing else tells


def looked_from(boxes: Sequence[Box], rows: Sequence[Sequence[Vector]]) -> List[float]:
    """A unit vector from the product to the viewer.

    rows: where the parts stand before the first step, and after each
    """
    every = numpy.array(
        [
            [corners(box) + numpy.array(at, dtype=float) for box, at in zip(boxes, row)]
            for row in rows
        ]
    )
    ways = [(height, 360.0 / AROUND * turn) for height in HEIGHTS for turn in range(AROUND)]
    best = max(ways, key=lambda way: worth(every, *way))
    return [float(number) for number in axes(*best)[2]]


def corners(box: Box) -> numpy.ndarray:
    ends = numpy.array([box.low, box.high], dtype=float)
    return numpy.array(
        [[ends[i][0], ends[j][1], ends[k][2]] for i in (0, 1) for j in (0, 1) for k in (0, 1)]
    )


def axes(height: float, turn: float) -> Tuple[numpy.ndarray, numpy.ndarray, numpy.ndarray]:
    """To the right, upwards and towards the viewer."""
    up, around = math.radians(height), math.radians(turn)
    back = numpy.array(
        [math.cos(up) * math.cos(around), math.cos(up) * math.sin(around), math.sin(up)]
    )
    right = numpy.array([-math.sin(around), math.cos(around), 0.0])
    return right, numpy.cross(back, right), back


def worth(every: numpy.ndarray, height: float, turn: float) -> float:
    """How well one sees from there: little hidden in the last row, ways that lie across, and no wall straight ahead.

    every: the corners of the parts' boxes, by row and part
    """
    right, up, back = axes(height, turn)
    flat = numpy.stack([every @ right, every @ up], axis=-1)
    depth = (every[-1] @ back).mean(axis=1)
    hidden = covered(flat[-1].min(axis=1), flat[-1].max(axis=1), depth)
    across = length_of(flat.mean(axis=2))
    length = length_of(every.mean(axis=2))
    off = abs(math.sin(math.radians(2 * turn)))  # 0 where the axes lie across or straight ahead
    near = math.cos(math.radians(turn - LIKED))
    seen = across / length if length else 1.0
    return float(seen - hidden / every.shape[1] + 0.6 * min(off, 0.85) + 0.2 * near)


def length_of(middles: numpy.ndarray) -> float:
    """How long the ways of all parts are together; middles: by row and part."""
    return float(numpy.linalg.norm(middles[1:] - middles[:-1], axis=-1).sum())


def covered(low: numpy.ndarray, high: numpy.ndarray, depth: numpy.ndarray) -> float:
    """Which shares of their rectangles (n, 2) others cover that are before them, of a greater depth; the sum."""
    common = numpy.minimum(high[:, None], high[None]) - numpy.maximum(low[:, None], low[None])
    shares = numpy.clip(common, 0, None).prod(axis=2) / (high - low).prod(axis=1)[:, None]
    return float(shares[depth[:, None] < depth[None]].sum())
