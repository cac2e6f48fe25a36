"""Round things with one axis are cut at the same angles, whatever solid they belong to.

So a pin and its bore get one polygon, and what is nested stays nested. An angle at which a solid has a corner of its
own is one of them; between such angles the circle is divided evenly.
"""
from __future__ import annotations

import math
from dataclasses import dataclass, field
from typing import List, Optional, Sequence

import numpy

from .balls import Ball
from .fitting import NEAR, Arc, canonical, frame
from .solid import Options

FEWEST = 6  # sides of a whole circle
SIDES = 12  # where neither sides nor a chord tolerance are asked for
TURN = 2 * math.pi


@dataclass
class Axis:
    """An axis, the radii around it, and the angles (radians, from 0 to below a whole turn) at which it is cut."""

    point: numpy.ndarray
    way: numpy.ndarray
    radii: List[float] = field(default_factory=list)
    forced: List[float] = field(default_factory=list)
    angles: List[float] = field(default_factory=list)

    def angle_of(self, point: numpy.ndarray) -> float:
        first, second = frame(self.way)
        step = point - self.point
        angle = math.atan2(float(step @ second), float(step @ first)) % TURN
        return 0.0 if TURN - angle < 1e-9 else angle

    def height_of(self, point: numpy.ndarray) -> float:
        return float((point - self.point) @ self.way)

    def out(self, angle: float) -> numpy.ndarray:
        """The unit vector across the axis at an angle; its components are exact where the axis lies along another."""
        first, second = frame(self.way)
        way = math.cos(angle) * first + math.sin(angle) * second
        return numpy.where(numpy.abs(way) < 1e-12, 0.0, way)

    def place_of(self, point: numpy.ndarray) -> Optional[int]:
        """The number of the angle at which a point lies; nothing where it lies at none."""
        angle = self.angle_of(point)
        for place, other in enumerate(self.angles):
            if min(abs(angle - other), TURN - abs(angle - other)) < 1e-6:
                return place
        return None

    def widest(self) -> float:
        """The greatest angle from one cut to the next."""
        after = self.angles[1:] + [self.angles[0] + TURN]
        return max(high - low for low, high in zip(self.angles, after))

    def sagitta(self, radius: float) -> float:
        """How far a circle lies beyond its polygon, at most."""
        return radius * (1 - math.cos(self.widest() / 2))

    def factor(self) -> float:
        """By how much a polygon grows that is drawn around the circle and not within it."""
        return 1 / math.cos(self.widest() / 2)

    def cut(self, options: Options) -> None:
        """Chooses the angles."""
        step = TURN / sides_for(max(self.radii), options)
        forced: List[float] = []
        for angle in sorted(self.forced):
            if not forced or angle - forced[-1] > 1e-6:
                forced.append(angle)
        if not forced:
            forced = [0.0]
        self.angles = []
        for low, high in zip(forced, forced[1:] + [forced[0] + TURN]):
            many = max(1, math.ceil((high - low) / step - 1e-6))
            self.angles += [(low + (high - low) * k / many) % TURN for k in range(many)]
        self.angles.sort()


def sides_for(radius: float, options: Options) -> int:
    """How many sides a whole circle gets: as asked for, or as many as the chord tolerance wants."""
    if options.chord is None or options.sides is not None:
        return max(3, options.sides or SIDES)
    if options.chord >= radius:
        return FEWEST
    return max(FEWEST, math.ceil(math.pi / math.acos(1 - options.chord / radius) - 1e-9))


class Axes:
    """All axes of a product."""

    def __init__(self, extent: float) -> None:
        self.near = NEAR * max(extent, 1e-9)
        self.known: List[Axis] = []
        self.balls: List[Ball] = []

    def of(self, arc: Arc) -> Axis:
        """The axis of a circle, which is made where it is not known."""
        way = canonical(arc.axis)
        for axis in self.known:
            if numpy.abs(axis.way - way).max() < NEAR:
                if (
                    float(numpy.linalg.norm(numpy.cross(arc.centre - axis.point, axis.way)))
                    < self.near
                ):
                    return axis
        foot = arc.centre - way * float(arc.centre @ way)
        self.known.append(Axis(foot, way))
        return self.known[-1]

    def note(self, arc: Arc, corners: Sequence[numpy.ndarray]) -> None:
        """A circle is there, with corners of its solid on it."""
        axis = self.of(arc)
        axis.radii.append(arc.radius)
        axis.forced += [axis.angle_of(corner) for corner in corners]

    def ball(self, centre: numpy.ndarray) -> Ball:
        """The ball around a centre, which is made where it is not known."""
        for ball in self.balls:
            if numpy.abs(ball.centre - centre).max() < self.near:
                return ball
        self.balls.append(Ball(centre))
        return self.balls[-1]

    def axis_of(self, ball: Ball) -> Axis:
        return self.of(Arc(ball.centre, ball.axis, max(ball.radii)))

    def cut(self, options: Options) -> None:
        """Chooses all angles and latitudes."""
        for ball in self.balls:
            self.axis_of(ball).radii.append(max(ball.radii))
            ball.cut(sides_for(max(ball.radii), options))
        for axis in self.known:
            if axis.radii:
                axis.cut(options)
