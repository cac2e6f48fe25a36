"""Balls with one centre are cut alike: along the angles of one axis through it, and at the same latitudes.

So a ball and its socket get one polyhedron. A latitude at which a solid has an edge is one of them.
"""
from __future__ import annotations

import math
from dataclasses import dataclass, field
from typing import List, Optional, Tuple

import numpy

from .fitting import NEAR, Arc, canonical

UPRIGHT = numpy.array([0.0, 0.0, 1.0])


@dataclass
class Ball:
    """A centre, the axis through it, and the latitudes (radians) at which all balls around it are cut.

    way: nothing as long as no circle tells it
    forced: latitudes of edges
    """

    centre: numpy.ndarray
    way: Optional[numpy.ndarray] = None
    radii: List[float] = field(default_factory=list)
    forced: List[float] = field(default_factory=list)
    levels: List[float] = field(default_factory=list)

    @property
    def axis(self) -> numpy.ndarray:
        return UPRIGHT if self.way is None else self.way

    def latitude_of(self, point: numpy.ndarray) -> float:
        step = point - self.centre
        sine = float(step @ self.axis) / float(numpy.linalg.norm(step))
        return math.asin(max(-1.0, min(1.0, sine)))

    def note(self, radius: float, circles: List[Arc]) -> bool:
        """A part of such a ball is there, bounded by circles; whether all of them lie around one axis."""
        self.radii.append(radius)
        for arc in circles:
            way = canonical(arc.axis)
            if self.way is None:
                self.way = way
            off = numpy.cross(arc.centre - self.centre, way)
            if numpy.abs(way - self.way).max() > NEAR or numpy.abs(off).max() > NEAR * radius:
                return False
            height = float((arc.centre - self.centre) @ way)
            self.forced.append(math.asin(max(-1.0, min(1.0, height / radius))))
        return True

    def cut(self, sides: int) -> None:
        """Chooses the latitudes, for so many sides of a whole circle."""
        marks = [-math.pi / 2]
        for level in sorted(self.forced) + [math.pi / 2]:
            if level - marks[-1] > 1e-6:
                marks.append(level)
        self.levels = [marks[0]]
        for low, high in zip(marks, marks[1:]):
            many = max(1, math.ceil((high - low) / (2 * math.pi / sides) - 1e-6))
            self.levels += [low + (high - low) * k / many for k in range(1, many + 1)]

    def between(self, low: float, high: float) -> List[float]:
        return [level for level in self.levels if low - 1e-6 <= level <= high + 1e-6]

    def tallest(self) -> float:
        """The greatest way from one latitude to the next."""
        return max(high - low for low, high in zip(self.levels, self.levels[1:]))

    def zone(self, inner: numpy.ndarray, circles: List[Arc]) -> Tuple[float, float]:
        """The latitudes between which the part of the ball lies that holds a point."""
        at, low, high = self.latitude_of(inner), -math.pi / 2, math.pi / 2
        for arc in circles:
            level = math.asin(
                max(-1.0, min(1.0, float((arc.centre - self.centre) @ self.axis) / self.reach(arc)))
            )
            if level <= at:
                low = max(low, level)
            else:
                high = min(high, level)
        return low, high

    def reach(self, arc: Arc) -> float:
        """The radius of the ball that a circle lies on."""
        height = float((arc.centre - self.centre) @ self.axis)
        return math.hypot(height, arc.radius)
