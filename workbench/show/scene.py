"""The parts as they are drawn: their pieces, their lines and their colours."""
from __future__ import annotations

import colorsys
from dataclasses import dataclass, replace
from typing import Iterator, List, Optional, Sequence, Tuple

import numpy

from ..reading.lists import Listed
from ..reading.off import read_off_file
from ..solid import Mesh
from ..triangles import newell, triangulated
from .creases import Body, creases
from .surface import surface
from .travel import Box

# told apart by those too who see red and green alike
COLOURS = (
    "#e0584a",
    "#4f8ccb",
    "#efb73e",
    "#5fa867",
    "#9d70bb",
    "#45b5b5",
    "#e088b2",
    "#98785a",
)
GOLDEN = 0.381966  # of a circle: so far apart are the hues of further parts


@dataclass(frozen=True)
class Part:
    """A part at its place in the product, in steps of the grid.

    surface: convex polygons (n, 3), wound outwards, which bound the union of the pieces
    lines: (n, 2, 3), where that surface has a bend
    colour: as #rrggbb
    drawn: convex polygons of the surface that the model has, where it was read
    """

    name: str
    pieces: Tuple[Body, ...]
    surface: List[numpy.ndarray]
    lines: numpy.ndarray
    colour: str
    drawn: Optional[List[numpy.ndarray]] = None

    @property
    def points(self) -> numpy.ndarray:
        return numpy.concatenate([piece.points for piece in self.pieces])

    @property
    def box(self) -> Box:
        low, high = self.points.min(axis=0), self.points.max(axis=0)
        return Box(
            (int(low[0]), int(low[1]), int(low[2])), (int(high[0]), int(high[1]), int(high[2]))
        )


def parts_of(listed: Sequence[Listed]) -> List[Part]:
    """The parts of a list. Refusal: a file cannot be read."""
    bodies = [
        tuple(body_of(file, numpy.array(part.at, dtype=float)) for file in part.files)
        for part in listed
    ]
    every = numpy.concatenate([body.points for some in bodies for body in some])
    extent = float((every.max(axis=0) - every.min(axis=0)).max())
    return [
        Part(part.name, some, surface(some, extent), creases(some, extent), colour_of(number))
        for number, (part, some) in enumerate(zip(listed, bodies))
    ]


def as_drawn(parts: Sequence[Part], meshes: Sequence[Mesh], steps: float) -> List[Part]:
    """The parts with their surfaces in the model, of which one unit is so many steps of the grid."""
    return [
        replace(part, drawn=[polygon * steps for polygon in polygons_of(mesh)])
        for part, mesh in zip(parts, meshes)
    ]


def polygons_of(mesh: Mesh) -> Iterator[numpy.ndarray]:
    """The faces of a mesh, those with more than three corners in triangles."""
    for face in mesh.faces:
        corners = mesh.points[face]
        normal = newell(corners - corners[0])
        if len(face) > 3 and normal.any():
            numbers = list(range(len(face)))
            yield from (corners[some] for some in triangulated(corners, [numbers], normal))
        elif len(face) == 3:
            yield corners


def body_of(file: str, at: numpy.ndarray) -> Body:
    """The piece in a file, moved. Refusal: it cannot be read."""
    points, faces = read_off_file(file)
    return Body(numpy.array(points, dtype=float)[:, :3] + at, tuple(map(tuple, faces)))


def colour_of(number: int) -> str:
    """The colour of a part, by its number: one of those that are named, then lighter and darker hues."""
    if number < len(COLOURS):
        return COLOURS[number]
    light = (0.66, 0.48)[number % 2]
    channels = colorsys.hls_to_rgb(number * GOLDEN % 1, light, 0.5)
    return "#" + "".join(f"{round(255 * channel):02x}" for channel in channels)


def triangles(polygons: Sequence[numpy.ndarray]) -> Tuple[numpy.ndarray, numpy.ndarray]:
    """The corners (n, 3, 3) of the triangles of convex polygons, and the normal (n, 3) of each.

    Triangles without area are left out.
    """
    found = numpy.array(
        [polygon[[0, k, k + 1]] for polygon in polygons for k in range(1, len(polygon) - 1)]
    )
    across = numpy.cross(found[:, 1] - found[:, 0], found[:, 2] - found[:, 0])
    size = numpy.linalg.norm(across, axis=1)
    kept = size > 0
    return found[kept], across[kept] / size[kept, None]
