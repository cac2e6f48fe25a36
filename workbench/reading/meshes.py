"""Files of points and faces, by their suffix: STL, PLY, OBJ, OFF and 3MF."""
from __future__ import annotations

import contextlib
import io
import os
import re
import tempfile
from typing import Any, Callable, Dict, List, Tuple

import numpy

from ..packages import module
from ..solid import Mesh, Refusal
from .obj import read_obj
from .off import read_off
from .threemf import read_3mf


def from_off(data: bytes) -> List[Mesh]:
    points, faces = read_off(data)
    return [checked(points, faces)]


def from_obj(data: bytes) -> List[Mesh]:
    points, named = read_obj(data)
    if not named:
        raise Refusal("no faces")
    return [checked(points, faces, name) for name, faces in named.items()]


def from_3mf(data: bytes) -> Tuple[List[Mesh], str]:
    meshes, unit = read_3mf(data)
    return [checked(mesh.points, mesh.faces, mesh.name) for mesh in meshes], unit


def from_stl(data: bytes) -> List[Mesh]:
    solids = re.findall(rb"(?m)^\s*solid\b", data) if data.lstrip().startswith(b"solid") else []
    if len(solids) > 1 and b"facet" in data:
        return [
            mesh for mesh in map(one_solid, re.split(rb"(?m)^(?=\s*solid\b)", data)) if mesh.faces
        ]
    return [by_meshio("stl", data)]


def one_solid(text: bytes) -> Mesh:
    """One of several solids of a text file."""
    head = text.lstrip().split(b"\n")[0].split(None, 1)
    numbers = re.findall(rb"vertex\s+(\S+)\s+(\S+)\s+(\S+)", text)
    points = [[float(word) for word in row] for row in numbers]
    faces = [[k, k + 1, k + 2] for k in range(0, len(points) - 2, 3)]
    name = head[1].decode("utf-8", "replace").strip() if len(head) > 1 else ""
    return checked(points, faces, name) if faces else Mesh(numpy.zeros((0, 3)), [], name)


def from_ply(data: bytes) -> List[Mesh]:
    if not re.search(rb"\bend_header\r?\n", data):  # without it meshio would read for ever
        raise Refusal("no mesh that can be read (a PLY file without the line end_header)")
    # meshio knows the corners of faces by one of their two usual names
    return [by_meshio("ply", re.sub(rb"\bvertex_index(?=\r?\n)", b"vertex_indices", data, count=1))]


def by_meshio(kind: str, data: bytes) -> Mesh:
    meshio: Any = module("meshio")
    with tempfile.NamedTemporaryFile(suffix="." + kind) as copy:
        copy.write(data)
        copy.flush()
        with contextlib.redirect_stdout(io.StringIO()), contextlib.redirect_stderr(io.StringIO()):
            mesh = (meshio.stl if kind == "stl" else meshio.ply).read(copy.name)
    faces: List[List[int]] = []
    for block in mesh.cells:
        if block.type in ("triangle", "quad") or block.type.startswith("polygon"):
            faces += [[int(corner) for corner in face] for face in block.data]
    return checked(mesh.points, faces)


def checked(points: Any, faces: List[List[int]], name: str = "") -> Mesh:
    """The mesh of these rows. Refusal: a point that is none, or a corner that is the number of no point."""
    faces = [face for face in faces if len(face)]
    if not faces:
        raise Refusal("no faces")
    rows = numpy.array([list(point[:3]) for point in points if len(point) >= 3], float).reshape(
        -1, 3
    )
    if len(rows) < len(points) or not numpy.isfinite(rows).all():
        raise Refusal("a point has no three finite coordinates")
    least, most = min(min(face) for face in faces), max(max(face) for face in faces)
    if least < 0 or most >= len(rows):
        raise Refusal(
            f"a face names point {least if least < 0 else most}, and there is no such point"
        )
    return Mesh(rows, faces, name)


READERS: Dict[str, Callable[[bytes], List[Mesh]]] = {
    ".stl": from_stl,
    ".obj": from_obj,
    ".ply": from_ply,
}


def read_meshes(path: str) -> Tuple[List[Mesh], str]:
    """The meshes of a file with their names, and its unit where it tells one. Refusal names the file."""
    suffix = os.path.splitext(path)[1].lower()
    try:
        with open(path, "rb") as file:
            data = file.read()
        if suffix == ".3mf":
            return from_3mf(data)
        return READERS.get(suffix, from_off)(data), ""
    except Refusal as fault:
        raise Refusal(f"{path}: {fault}") from fault
    except OSError as fault:
        raise Refusal(f"cannot read {path}: {fault.strerror or fault}") from fault
    except (
        Exception,
        SystemExit,
    ) as fault:  # meshio answers a bad file by exceptions of many kinds
        cause = " ".join([type(fault).__name__, *str(fault).split()])[:200]
        raise Refusal(f"{path}: no mesh that can be read ({cause})") from fault
