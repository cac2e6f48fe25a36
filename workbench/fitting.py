"""Which plane, cylinder, cone or sphere sampled points with normals lie on, and which line or circle sampled points do.

Modellers hand over cylinders as rational splines, so what a surface is called is not asked: it is fitted.
"""
from __future__ import annotations

from dataclasses import dataclass
from typing import Optional, Tuple

import numpy

NEAR = 1e-6  # how well a fit must hold, against the extent of what is fitted


@dataclass
class Fit:
    """kind: "plane", "cylinder", "cone", "sphere" or "other"; the rest as in `Surface` of solid.py."""

    kind: str
    point: numpy.ndarray
    axis: numpy.ndarray
    radius: float = 0.0


@dataclass
class Arc:
    """A circle; `axis` is a unit vector."""

    centre: numpy.ndarray
    axis: numpy.ndarray
    radius: float


def unit(vector: numpy.ndarray) -> numpy.ndarray:
    return vector / numpy.linalg.norm(vector)


def canonical(axis: numpy.ndarray) -> numpy.ndarray:
    """The unit vector or its opposite, the one whose first component that is not nearly nothing is positive; components
    that are nearly whole become whole, so that what lies along an axis does so exactly."""
    axis = unit(axis)
    whole = numpy.rint(axis)
    if numpy.abs(axis - whole).max() < 1e-8:
        axis = whole
    first = axis[int(numpy.argmax(numpy.abs(axis) > 1e-9))]
    return axis if first > 0 else -axis


def frame(axis: numpy.ndarray) -> Tuple[numpy.ndarray, numpy.ndarray]:
    """Two unit vectors across an axis, one for each axis, whatever else lies on it; angles count from the first."""
    least = numpy.zeros(3)
    main = int(numpy.argmax(numpy.abs(axis)))
    least[(main + 1) % 3] = 1.0
    first = unit(least - axis * (axis @ least))
    return first, numpy.cross(axis, first)


def circle_through(flat: numpy.ndarray) -> Tuple[numpy.ndarray, float, float]:
    """Centre, radius and greatest deviation of the circle that fits points (n, 2) best."""
    rows = numpy.c_[2 * flat, numpy.ones(len(flat))]
    found = numpy.linalg.lstsq(rows, (flat**2).sum(axis=1), rcond=None)[0]
    radius = float(numpy.sqrt(max(found[2] + found[0] ** 2 + found[1] ** 2, 0.0)))
    off = numpy.abs(numpy.hypot(*(flat - found[:2]).T) - radius).max()
    return found[:2], radius, float(off)


def fit_surface(points: numpy.ndarray, normals: numpy.ndarray) -> Fit:
    """The surface through points (n, 3) with unit normals (n, 3)."""
    middle = points.mean(axis=0)
    rows, extent = points - middle, float(numpy.ptp(points, axis=0).max())
    near = NEAR * max(extent, 1e-9)
    weights, ways = numpy.linalg.eigh(normals.T @ normals)
    if weights[1] < 1e-10 * len(points) and numpy.abs(rows @ ways[:, 2]).max() < near:
        return Fit("plane", middle, canonical(ways[:, 2]))
    if weights[0] < 1e-10 * len(points):
        axis = canonical(ways[:, 0])
        first, second = frame(axis)
        centre, radius, off = circle_through(numpy.c_[rows @ first, rows @ second])
        if off < near:
            return Fit("cylinder", middle + centre[0] * first + centre[1] * second, axis, radius)
    return (
        fit_sphere(rows, normals, middle, near)
        or fit_cone(rows, normals, middle, near)
        or Fit("other", middle, canonical(ways[:, 2]))
    )


def fit_sphere(
    rows: numpy.ndarray, normals: numpy.ndarray, middle: numpy.ndarray, near: float
) -> Optional[Fit]:
    table = numpy.c_[2 * rows, numpy.ones(len(rows))]
    found = numpy.linalg.lstsq(table, (rows**2).sum(axis=1), rcond=None)[0]
    radius = float(numpy.sqrt(max(found[3] + (found[:3] ** 2).sum(), 0.0)))
    ways = rows - found[:3]
    off = numpy.abs(numpy.linalg.norm(ways, axis=1) - radius).max()
    if (
        off > near
        or numpy.abs(numpy.abs((ways * normals).sum(axis=1)) - radius).max() > 1e-5 * radius
    ):
        return None
    return Fit("sphere", middle + found[:3], numpy.array([0.0, 0.0, 1.0]), radius)


def fit_cone(
    rows: numpy.ndarray, normals: numpy.ndarray, middle: numpy.ndarray, near: float
) -> Optional[Fit]:
    differences = normals - normals.mean(axis=0)
    weights, ways = numpy.linalg.eigh(differences.T @ differences)
    if weights[0] > 1e-10 * len(rows) or weights[1] < 1e-10 * len(rows):
        return None
    axis = canonical(ways[:, 0])
    # All tangent planes of a cone meet in its tip.
    tip = numpy.linalg.lstsq(normals, (normals * rows).sum(axis=1), rcond=None)[0]
    heights = (rows - tip) @ axis
    across = numpy.linalg.norm(rows - tip - numpy.outer(heights, axis), axis=1)
    slope = float(across.sum() / numpy.abs(heights).sum())
    if numpy.abs(across - slope * numpy.abs(heights)).max() > near:
        return None
    return Fit("cone", middle + tip, axis, slope)


def fit_curve(points: numpy.ndarray) -> Tuple[str, Optional[Arc]]:
    """ "line", "circle" with its circle, or "other" for points (n, 3) along a curve."""
    middle = points.mean(axis=0)
    rows = points - middle
    near = NEAR * max(float(numpy.ptp(points, axis=0).max()), 1e-9)
    _, sizes, ways = numpy.linalg.svd(rows)
    if numpy.abs(rows @ ways[1:].T).max() < near:
        return "line", None
    if numpy.abs(rows @ ways[2]).max() > near:
        return "other", None
    axis = canonical(ways[2])
    first, second = frame(axis)
    centre, radius, off = circle_through(numpy.c_[rows @ first, rows @ second])
    if off > near:
        return "other", None
    return "circle", Arc(middle + centre[0] * first + centre[1] * second, axis, radius)
