"""Solids that gmsh's OpenCASCADE makes, with the distance of a point from each as a formula; and how far pieces lie."""
from __future__ import annotations

import re
from typing import Any, Callable, List, Optional, Sequence, Tuple

import numpy
from scipy.spatial import ConvexHull

from workbench.reading import step
from workbench.solid import Mesh, Piece

Distance = Callable[
    [numpy.ndarray], numpy.ndarray
]  # points (n, 3) to distances from a solid (n,), 0 within


MOST_ENTRIES = 200_000  # of a table of points by triangles


def write_step(
    path: str, make: Callable[[Any], None], names: Sequence[str] = (), unit: Optional[str] = None
) -> str:
    """Writes what `make` builds by gmsh's `occ` as STEP, its solids with these names, in that unit."""
    gmsh = step.start()
    gmsh.clear()
    make(gmsh.model.occ)
    gmsh.model.occ.synchronize()
    with step.silent():
        gmsh.write(path)
    gmsh.clear()
    with open(path) as file:
        text = file.read()
    many = iter(names)
    nameless = r"Open CASCADE STEP translator [\d.]+ \d+" + (r"\.\d+" if len(names) > 1 else "")
    found: dict[str, str] = {}

    def name(match: "re.Match[str]") -> str:
        key = match.group(1)
        if key not in found and re.fullmatch(nameless, key):
            found[key] = next(many, key)
        return f"PRODUCT('{found.get(key, key)}','{found.get(key, key)}'"

    text = re.sub(r"PRODUCT\('([^']*)',\s*'[^']*'", name, text)
    if unit == "inch":
        length = re.compile(
            r"#(\d+) = \( LENGTH_UNIT\(\) NAMED_UNIT\(\*\) SI_UNIT\(\.MILLI\.,\.METRE\.\) \);"
        )
        number = max(int(key) for key in re.findall(r"#(\d+) =", text)) + 1

        def inches(match: "re.Match[str]") -> str:
            nonlocal number
            number += 3
            return (
                f"#{number} = ( LENGTH_UNIT() NAMED_UNIT(*) SI_UNIT(.MILLI.,.METRE.) );\n"
                f"#{number + 1} = LENGTH_MEASURE_WITH_UNIT(LENGTH_MEASURE(25.4),#{number});\n"
                f"#{number + 2} = DIMENSIONAL_EXPONENTS(1.,0.,0.,0.,0.,0.,0.);\n"
                f"#{match.group(1)} = ( CONVERSION_BASED_UNIT('INCH',#{number + 1}) LENGTH_UNIT() "
                f"NAMED_UNIT(#{number + 2}) );"
            )

        text = length.sub(inches, text)
    with open(path, "w") as file:
        file.write(text)
    return path


def box_distance(low: Sequence[float], high: Sequence[float]) -> Distance:
    def distance(points: numpy.ndarray) -> numpy.ndarray:
        return numpy.linalg.norm(
            numpy.maximum(0, numpy.maximum(low - points, points - high)), axis=1
        )

    return distance


def rod_distance(
    radius: float, low: float, high: float, x: float = 0.0, y: float = 0.0
) -> Distance:
    """An upright cylinder."""

    def distance(points: numpy.ndarray) -> numpy.ndarray:
        out = numpy.maximum(0, numpy.hypot(points[:, 0] - x, points[:, 1] - y) - radius)
        return numpy.hypot(
            out, numpy.maximum(0, numpy.maximum(low - points[:, 2], points[:, 2] - high))
        )

    return distance


def bored_distance(outer: Distance, radius: float, x: float = 0.0, y: float = 0.0) -> Distance:
    """A solid through which an upright bore goes, well within it; good near the bore and outside of the solid."""

    def distance(points: numpy.ndarray) -> numpy.ndarray:
        return numpy.maximum(
            outer(points), radius - numpy.hypot(points[:, 0] - x, points[:, 1] - y)
        )

    return distance


def ball_distance(centre: Sequence[float], radius: float) -> Distance:
    def distance(points: numpy.ndarray) -> numpy.ndarray:
        return numpy.maximum(0, numpy.linalg.norm(points - numpy.array(centre), axis=1) - radius)

    return distance


def ring_distance(centre: Sequence[float], radius: float, tube: float) -> Distance:
    """An upright torus."""

    def distance(points: numpy.ndarray) -> numpy.ndarray:
        rows = points - numpy.array(centre)
        return numpy.maximum(
            0, numpy.hypot(numpy.hypot(rows[:, 0], rows[:, 1]) - radius, rows[:, 2]) - tube
        )

    return distance


def cone_distance(
    base: float, top: float, height: float, x: float = 0.0, y: float = 0.0
) -> Distance:
    """An upright frustum from z = 0; a lower bound of the distance beyond its rims."""

    def distance(points: numpy.ndarray) -> numpy.ndarray:
        radial = numpy.hypot(points[:, 0] - x, points[:, 1] - y)
        length = numpy.hypot(base - top, height)
        out = ((radial - base) * height + points[:, 2] * (base - top)) / length
        return numpy.maximum(
            0, numpy.maximum(out, numpy.maximum(-points[:, 2], points[:, 2] - height))
        )

    return distance


def random_points(
    pieces: Sequence[Piece], grid: float, draw: numpy.random.Generator, many: int
) -> numpy.ndarray:
    """Points of pieces, in model units: corners, and mixtures of corners."""
    rows = []
    for piece in pieces:
        weights = draw.dirichlet(numpy.full(len(piece.points), 0.3), many)
        rows.append(numpy.vstack([piece.points, weights @ piece.points]) * grid)
    return numpy.vstack(rows)


def walls_of(piece: Piece, grid: float) -> numpy.ndarray:
    """The planes of a piece as rows of a unit normal and an offset; a point ahead of one is outside."""
    return ConvexHull(piece.points * grid).equations


def short_of(points: numpy.ndarray, pieces: Sequence[Piece], grid: float) -> float:
    """How far a point lies outside of all pieces, the farthest; a lower bound of it."""
    far = numpy.full(len(points), numpy.inf)
    for piece in pieces:
        walls = walls_of(piece, grid)
        far = numpy.minimum(far, (points @ walls[:, :3].T + walls[:, 3]).max(axis=1))
    return float(numpy.maximum(far, 0).max())


def triangle_distances(points: numpy.ndarray, triangle: numpy.ndarray) -> numpy.ndarray:
    """The distances of points (n, 3) from a triangle (3, 3)."""
    one, two, three = triangle
    far = numpy.full(len(points), numpy.inf)
    for a, b in ((one, two), (two, three), (three, one)):
        way = b - a
        along = numpy.clip((points - a) @ way / max(float(way @ way), 1e-300), 0, 1)
        far = numpy.minimum(far, numpy.linalg.norm(points - a - numpy.outer(along, way), axis=1))
    normal = numpy.cross(two - one, three - one)
    size = float(numpy.linalg.norm(normal))
    if size > 0:
        inside = numpy.ones(len(points), bool)
        for a, b in ((one, two), (two, three), (three, one)):
            inside &= (points - a) @ numpy.cross(normal, b - a) >= 0
        far = numpy.where(
            inside, numpy.minimum(far, numpy.abs((points - one) @ normal) / size), far
        )
    return far


def within(points: numpy.ndarray, triangles: numpy.ndarray) -> numpy.ndarray:
    """Which points (n, 3) lie in the solid between triangles (m, 3, 3), by solid angles, as `closing.holds`."""
    found = numpy.zeros(len(points), bool)
    most = max(1, MOST_ENTRIES // len(triangles))
    for start in range(0, len(points), most):
        some = slice(start, start + most)
        one, two, three = (triangles[None, :, k] - points[some, None] for k in range(3))
        a, b, c = (numpy.sqrt((row * row).sum(axis=2)) for row in (one, two, three))
        up = (one * numpy.cross(two, three)).sum(axis=2)
        down = a * b * c + (one * two).sum(axis=2) * c + (one * three).sum(axis=2) * b
        down += (two * three).sum(axis=2) * a
        found[some] = numpy.abs(2 * numpy.arctan2(up, down).sum(axis=1)) > 2 * numpy.pi
    return found


def mesh_distance(mesh: Mesh) -> Distance:
    """The distance from the solid in a closed mesh."""
    triangles = numpy.array(
        [
            mesh.points[[face[0], face[k], face[k + 1]]]
            for face in mesh.faces
            for k in range(1, len(face) - 1)
        ]
    )

    def distance(points: numpy.ndarray) -> numpy.ndarray:
        far = numpy.full(len(points), numpy.inf)
        for triangle in triangles:
            far = numpy.minimum(far, triangle_distances(points, triangle))
        return numpy.where(within(points, triangles), 0.0, far)

    return distance


def on_face(points: numpy.ndarray, corners: numpy.ndarray) -> numpy.ndarray:
    """Which points (n, 3) of the plane of a face lie in it: its corners (m, 3) go round them.

    The face need not be convex.
    """
    normal = numpy.cross(corners, numpy.roll(corners, -1, axis=0)).sum(axis=0)
    ways = corners[None] - points[:, None]
    nexts = numpy.roll(ways, -1, axis=1)
    turns = numpy.cross(ways, nexts) @ normal / numpy.linalg.norm(normal)
    around = numpy.arctan2(turns, (ways * nexts).sum(axis=2)).sum(axis=1)
    found: numpy.ndarray = numpy.abs(around) > numpy.pi
    return found


def mesh_points(mesh: Mesh, draw: numpy.random.Generator, many: int) -> numpy.ndarray:
    """Points of the surface of a mesh: its corners, and points of its faces, so many or fewer.

    They are drawn in the triangles of a fan for each face; of a face that is not convex those beside it are left out.
    """
    fans = [
        (at, face[0], face[k], face[k + 1])
        for at, face in enumerate(mesh.faces)
        for k in range(1, len(face) - 1)
    ]
    chosen = numpy.array(fans)[draw.integers(len(fans), size=many)]
    weights = draw.dirichlet((1, 1, 1), many)
    rows = numpy.einsum("ij,ijk->ik", weights, mesh.points[chosen[:, 1:]])
    kept = numpy.ones(many, bool)
    for at, face in enumerate(mesh.faces):
        if len(face) > 3:
            here = chosen[:, 0] == at
            kept[here] = on_face(rows[here], mesh.points[face])
    return numpy.vstack([mesh.points, rows[kept]])


Made = Tuple[Callable[[Any], None], List[Distance]]
