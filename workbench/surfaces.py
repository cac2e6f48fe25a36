"""The surfaces of the parts as they were read, in one file beside the part list (Wavefront OBJ, in model units).

Pieces may go beyond them and fall short of them. A curved face of a STEP file is there as the plane ones that it was
cut from.
"""
from __future__ import annotations

import os
from typing import Dict, List, Sequence

import numpy

from .product import Part
from .reading.obj import read_obj
from .solid import Mesh, Refusal

SURFACES = "model.obj"


def written_name(name: str) -> str:
    """The name as a reader of OBJ finds it again: up to a `#`, with single spaces."""
    return " ".join(name.split("#")[0].split())


def surfaces_text(parts: Sequence[Part]) -> str:
    """The text of the file: an object for each part, with the faces of all its solids."""
    lines: List[str] = []
    many = 1  # points count from 1
    for part in parts:
        lines.append(f"o {part.name}")
        for solid in part.solids:
            if solid.exact is not None:
                lines += [f"v {x!r} {y!r} {z!r}" for x, y, z in solid.exact.points.tolist()]
                lines += [
                    "f " + " ".join(str(corner + many) for corner in face)
                    for face in solid.exact.faces
                ]
                many += len(solid.exact.points)
    return "\n".join(lines) + "\n"


def read_surfaces(folder: str, names: Sequence[str]) -> List[Mesh]:
    """The surfaces of the parts with these names; none where the file is not there or tells of other parts.

    Refusal: it is damaged.
    """
    path = os.path.join(folder, SURFACES)
    try:
        with open(path, "rb") as file:
            points, faces = read_obj(file.read())
    except OSError:
        return []
    except Refusal as fault:
        raise Refusal(f"{path}: {fault}") from fault
    if list(faces) != [written_name(name) for name in names]:
        return []
    if any(
        corner >= len(points) or corner < 0 for some in faces.values() for f in some for corner in f
    ):
        raise Refusal(f"{path}: a face names a point that is not there")
    rows = numpy.array(points, dtype=float)
    return [own_points(rows, some, name) for name, some in zip(names, faces.values())]


def own_points(rows: numpy.ndarray, faces: List[List[int]], name: str) -> Mesh:
    """A mesh of these faces with the points that they have alone."""
    used = sorted({corner for face in faces for corner in face})
    place: Dict[int, int] = {corner: number for number, corner in enumerate(used)}
    return Mesh(rows[used], [[place[corner] for corner in face] for face in faces], name)
