"""STEP (and IGES and BREP) by gmsh, which reads it with OpenCASCADE: solids with names, places and units.

What gmsh calls a surface or curve is not asked; what points of it lie on is fitted. Traps of gmsh 4.8: boxes are those
of control points, so extents come from points of edges; cylinders may be splines, in halves.
"""
from __future__ import annotations

import contextlib
import os
import re
import sys
from dataclasses import dataclass, field
from typing import Any, Dict, Iterator, List, Tuple

import numpy

from ..brep import Body, Edge, Face
from ..fitting import Fit, fit_curve, fit_surface
from ..packages import module
from ..solid import Refusal

SUFFIXES = (".step", ".stp", ".p21", ".igs", ".iges", ".brep")
UNITS = {"MILLI": "mm", "CENTI": "cm", "MICRO": "µm", "": "m"}
TARGETS = {"mm": "MM", "cm": "CM", "µm": "UM", "m": "M", "inch": "INCH", "foot": "FT"}


NAMELESS = "solid"
MADE_UP = "Open CASCADE STEP translator"  # begins the names that OpenCASCADE gives to what has none
STARTED: List[bool] = []  # gmsh 4.8 does not tell whether it was begun, and must be so once


@dataclass
class Drawn:
    """The solids of a file, and the unit that it tells, in which all lengths are; nothing where it tells none."""

    bodies: List[Body] = field(default_factory=list)
    unit: str = ""


def start() -> Any:
    """gmsh, silent, with an empty model. Refusal: python3-gmsh is missing."""
    gmsh: Any = module("gmsh")
    if not STARTED:
        gmsh.initialize(["gmsh"], False)
        STARTED.append(True)
    gmsh.option.setNumber("General.Terminal", 0)
    gmsh.option.setNumber("General.NumThreads", 1)
    return gmsh


def clear() -> None:
    """Forgets all models, so that numbers of solids begin anew."""
    if STARTED:
        start().clear()


def read_step(path: str) -> Drawn:
    """The solids of a file. Refusal: it cannot be read, or has no solids."""
    if not os.path.isfile(path):
        raise Refusal(f"cannot read {path}: No such file or directory")
    gmsh = start()
    told = told_unit(path)
    before = {tag for _, tag in gmsh.model.getEntities(3)}
    try:
        gmsh.option.setString("Geometry.OCCTargetUnit", TARGETS.get(told, "MM"))
        with silent():
            gmsh.model.occ.importShapes(path)
            gmsh.model.occ.synchronize()
    except Exception as fault:  # gmsh raises exceptions of no type of its own
        cause = " ".join(str(fault).split())[:200]
        raise Refusal(
            f"{path}: OpenCASCADE cannot read it ({cause}); export it again, as STEP AP214"
        ) from fault
    drawn = Drawn(unit=told)
    tags = [tag for _, tag in gmsh.model.getEntities(3) if tag not in before]
    names = short_names([gmsh.model.getEntityName(3, tag) for tag in tags])
    reader = Reader(gmsh)
    for tag, name in zip(tags, names):
        drawn.bodies.append(reader.body(tag, name))
    if not drawn.bodies:
        raise Refusal(
            f"{path}: no solids; surfaces alone bound nothing: sew them to solids and export again"
        )
    return drawn


@contextlib.contextmanager
def silent() -> Iterator[None]:
    """Keeps what OpenCASCADE says of its own accord from the terminal."""
    sys.stdout.flush()
    kept = os.dup(1)
    with open(os.devnull, "w", encoding="utf-8") as nowhere:
        os.dup2(nowhere.fileno(), 1)
    try:
        yield
    finally:
        os.dup2(kept, 1)
        os.close(kept)


def told_unit(path: str) -> str:
    """The unit of length that a STEP file tells."""
    with open(path, "rb") as file:
        text = re.sub(r"\s+", "", file.read().decode("latin-1"))
    found = re.search(r"CONVERSION_BASED_UNIT\('(INCH|FOOT)'", text, re.I)
    if found:
        return found.group(1).lower()
    units = re.search(r"LENGTH_UNIT\(\)[^;]*?SI_UNIT\((?:\.(\w+)\.|\$),\.METRE\.\)", text)
    return UNITS.get(units.group(1) or "", "") if units else ""


def short_names(paths: List[str]) -> List[str]:
    """Names of solids from gmsh's paths, as `Shapes/as1/ROD-ASSEMBLY/rod-assembly/NUT::1/nut`.

    Behind the whole product come, in turns, the name of a thing in its assembly and that of the thing itself. Where all
    solids begin with the same words, these are left out; a name is never empty.
    """
    rows = []
    for path in paths:
        words = [word.strip() for word in path.split("/")]
        words = words[1:] if words and words[0] == "Shapes" else words
        words = ["" if word.startswith(MADE_UP) else word for word in words]
        found = paired(words[1:]) if len(words) % 2 == 1 and len(words) > 1 else words
        rows.append([word for word in found if word] or [NAMELESS])
    while len(rows) > 1 and min(map(len, rows)) > 1 and len({row[0] for row in rows}) == 1:
        rows = [row[1:] for row in rows]
    return [
        "/".join("".join(letter for letter in word if ord(letter) >= 32) for word in row)
        for row in rows
    ]


def paired(words: List[str]) -> List[str]:
    """One name for each place in an assembly and the thing that stands there.

    The place's tells more, as `NUT::1` of a `nut`, unless it is but a number that some program gave it.
    """
    found = []
    for place, thing in zip(words[::2], words[1::2]):
        counted = re.fullmatch(r"(NAUO|=>)?[\d:.\[\]]*", place)
        found.append(thing if counted and thing else place)
    return found


class Reader:
    """Reads bodies from gmsh's model; what solids share is read once."""

    def __init__(self, gmsh: Any) -> None:
        self.gmsh = gmsh
        self.edges: Dict[int, Edge] = {}
        self.fits: Dict[int, Fit] = {}
        self.points: Dict[int, numpy.ndarray] = {}

    def body(self, tag: int, name: str) -> Body:
        model = self.gmsh.model
        body = Body(name, {}, {}, [], tag)
        for _, surface in model.getBoundary([(3, tag)], oriented=False, combined=False):
            around: List[int] = []
            for _, curve in model.getBoundary([(2, surface)], oriented=False, combined=False):
                edge = self.edge(abs(curve))
                if edge is not None:
                    around.append(abs(curve))
                    body.edges[abs(curve)] = edge
                    for end in edge.ends:
                        body.vertices[end] = self.point(end)
            body.faces.append(Face(self.fit(surface), around, surface, self.middle(surface)))
        return body

    def point(self, tag: int) -> numpy.ndarray:
        if tag not in self.points:
            self.points[tag] = numpy.array(self.gmsh.model.getValue(0, tag, []), float)
        return self.points[tag]

    def edge(self, tag: int) -> Any:
        """The edge; nothing where it has no length, as at the pole of a sphere."""
        if tag not in self.edges:
            self.edges[tag] = self.read_edge(tag)
        return self.edges[tag]

    def read_edge(self, tag: int) -> Any:
        model = self.gmsh.model
        ends = [end for _, end in model.getBoundary([(1, tag)], oriented=False, combined=False)]
        low, high = (float(bound[0]) for bound in model.getParametrizationBounds(1, tag))

        def at(places: numpy.ndarray) -> numpy.ndarray:
            return numpy.array(model.getValue(1, tag, low + (high - low) * places)).reshape(-1, 3)

        if model.getType(1, tag) == "Unknown" or len(ends) != 2:
            return None
        rows = at(numpy.linspace(0, 1, 17))
        if float(numpy.ptp(rows, axis=0).max()) < 1e-9:
            return None
        kind, arc = fit_curve(rows)
        if float(numpy.linalg.norm(rows[0] - self.point(ends[0]))) > float(
            numpy.linalg.norm(rows[0] - self.point(ends[1]))
        ):
            ends = ends[::-1]
        return Edge((ends[0], ends[1]), kind, at, arc)

    def fit(self, tag: int) -> Fit:
        if tag not in self.fits:
            points, normals = self.sampled(tag)
            self.fits[tag] = fit_surface(points, normals)
        return self.fits[tag]

    def middle(self, tag: int) -> numpy.ndarray:
        """A point in the middle of the parameters of a surface."""
        low, high = self.gmsh.model.getParametrizationBounds(2, tag)
        return numpy.array(self.gmsh.model.getValue(2, tag, (low + high) / 2), float)

    def sampled(self, tag: int, many: int = 9) -> Tuple[numpy.ndarray, numpy.ndarray]:
        """Points of a surface with their unit normals."""
        low, high = self.gmsh.model.getParametrizationBounds(2, tag)
        grid = numpy.meshgrid(*(numpy.linspace(a, b, many + 2)[1:-1] for a, b in zip(low, high)))
        places = numpy.column_stack([axis.ravel() for axis in grid]).ravel()
        points = numpy.array(self.gmsh.model.getValue(2, tag, places)).reshape(-1, 3)
        normals = numpy.array(self.gmsh.model.getNormal(tag, places)).reshape(-1, 3)
        sizes = numpy.linalg.norm(normals, axis=1)
        good = (sizes > 1e-12) & numpy.isfinite(points).all(axis=1)
        return points[good], normals[good] / sizes[good][:, None]
