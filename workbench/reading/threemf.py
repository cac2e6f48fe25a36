"""3MF: a ZIP archive with the triangles of objects in XML, and the places where they stand (3MF core specification)."""
from __future__ import annotations

import io
import zipfile
from dataclasses import dataclass, field
from typing import Dict, List, Optional, Tuple
from xml.etree import ElementTree

import numpy

from ..solid import Mesh, Refusal

UNITS = {
    "micron": "µm",
    "millimeter": "mm",
    "centimeter": "cm",
    "inch": "inch",
    "foot": "foot",
    "meter": "m",
}


@dataclass
class Thing:
    """An object of the archive: triangles, or other objects at their places."""

    name: str
    points: List[List[float]] = field(default_factory=list)
    faces: List[List[int]] = field(default_factory=list)
    members: List[Tuple[str, numpy.ndarray]] = field(default_factory=list)


def read_3mf(data: bytes) -> Tuple[List[Mesh], str]:
    """What is to be built, each with its name and at its place, and the unit. Refusal: no such archive."""
    try:
        archive = zipfile.ZipFile(io.BytesIO(data))
        models = [name for name in archive.namelist() if name.lower().endswith(".model")]
        roots = [ElementTree.fromstring(archive.read(name)) for name in models]
    except (zipfile.BadZipFile, ElementTree.ParseError, KeyError) as fault:
        raise Refusal(f"no 3MF archive that can be read ({fault})") from fault
    if not roots:
        raise Refusal("no model in this 3MF archive")
    things: Dict[str, Thing] = {}
    meshes: List[Mesh] = []
    for root in roots:
        things.update(
            {child.attrib["id"]: thing_of(child) for child in children(root, "resources", "object")}
        )
    for root in roots:
        for item in children(root, "build", "item"):
            meshes += placed(
                things, item.attrib["objectid"], turn_of(item.attrib.get("transform")), "", 0
            )
    return meshes, UNITS.get(roots[0].attrib.get("unit", "millimeter"), "")


def local(element: ElementTree.Element) -> str:
    return element.tag.rsplit("}", 1)[-1]


def children(element: ElementTree.Element, *names: str) -> List[ElementTree.Element]:
    """What stands under the element along a path of names, whatever their namespaces."""
    found = [element]
    for name in names:
        found = [child for one in found for child in one if local(child) == name]
    return found


def thing_of(element: ElementTree.Element) -> Thing:
    thing = Thing(element.attrib.get("name", ""))
    for vertex in children(element, "mesh", "vertices", "vertex"):
        thing.points.append([float(vertex.attrib[axis]) for axis in "xyz"])
    for triangle in children(element, "mesh", "triangles", "triangle"):
        thing.faces.append([int(triangle.attrib[corner]) for corner in ("v1", "v2", "v3")])
    for part in children(element, "components", "component"):
        thing.members.append((part.attrib["objectid"], turn_of(part.attrib.get("transform"))))
    return thing


def turn_of(text: Optional[str]) -> numpy.ndarray:
    """The matrix, four rows of three numbers, by which rows of coordinates with a 1 behind are multiplied."""
    if text is None:
        return numpy.vstack([numpy.eye(3), numpy.zeros(3)])
    return numpy.array([float(word) for word in text.split()]).reshape(4, 3)


def placed(
    things: Dict[str, Thing], key: str, turn: numpy.ndarray, above: str, depth: int
) -> List[Mesh]:
    """The meshes of an object and of what it is made of."""
    if key not in things or depth > 32:
        raise Refusal(f"object {key} is named and is not there")
    thing = things[key]
    name = "/".join(word for word in (above, thing.name) if word)
    meshes = []
    if thing.faces:
        points = numpy.array(thing.points, float).reshape(-1, 3) @ turn[:3] + turn[3]
        faces = (
            thing.faces if numpy.linalg.det(turn[:3]) > 0 else [face[::-1] for face in thing.faces]
        )
        meshes.append(Mesh(points, [list(face) for face in faces], name))
    for member, place in thing.members:
        joined = numpy.vstack([place[:3] @ turn[:3], place[3] @ turn[:3] + turn[3]])
        meshes += placed(things, member, joined, name, depth + 1)
    return meshes
