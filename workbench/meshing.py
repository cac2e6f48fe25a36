"""Solids with faces of any kind, meshed by gmsh. Their polygons are not shared with neighbours."""
from __future__ import annotations

from typing import Any, Dict, List, Tuple

import numpy

from .brep import Body
from .closing import shell_of
from .facets import Faceted
from .lattices import SIDES, sides_for
from .solid import Mesh, Options, Refusal
from .triangles import newell

SAFE = 2.0  # distances are measured at the middles of triangles and of their edges, and taken this many times


def meshed(gmsh: Any, body: Body, options: Options) -> Faceted:
    """The body in triangles with their corners on its surfaces. Refusal: gmsh makes no closed mesh of it."""
    model = gmsh.model
    sides = (
        sides_for(widest_radius(gmsh, body), options)
        if options.chord is not None
        else options.sides or SIDES
    )
    gmsh.option.setNumber("Mesh.MeshSizeFromCurvature", sides)
    gmsh.option.setNumber("Mesh.MeshSizeExtendFromBoundary", 0)
    gmsh.option.setNumber("Mesh.MeshOnlyVisible", 1)
    model.mesh.clear()
    model.setVisibility(model.getEntities(), 0)
    model.setVisibility([(3, body.tag)], 1, True)
    try:
        model.mesh.generate(2)
    except Exception as fault:  # gmsh raises exceptions of no type of its own
        cause = " ".join(str(fault).split())[:120]
        raise Refusal(f"gmsh cannot mesh it ({cause}); export this solid as STL") from fault
    tags, rows, _ = model.mesh.getNodes()
    place = {int(tag): number for number, tag in enumerate(tags)}
    points = numpy.array(rows).reshape(-1, 3)
    faces: List[List[int]] = []
    owners: List[int] = []
    for face in body.faces:
        for kind, nodes in zip(*element_rows(model, face.tag)):
            found = [
                [place[int(node)] for node in row] for row in numpy.array(nodes).reshape(-1, kind)
            ]
            faces += found
            owners += [face.tag] * len(found)
    shell = shell_of(points, faces, numpy.inf)
    if shell.gaps or not faces:
        raise Refusal(f"gmsh leaves {shell.gaps} edges of its mesh open; export this solid as STL")
    plane = {face.tag for face in body.faces if face.fit.kind == "plane"}
    over, under = measured(gmsh, shell.mesh, owners, plane)
    shell.mesh.name = body.name
    return Faceted(shell.mesh, over, under, [])


def element_rows(model: Any, tag: int) -> Tuple[List[int], List[Any]]:
    """How many corners the elements of a surface have, by kinds, and their nodes."""
    kinds, _, nodes = model.mesh.getElements(2, tag)
    return [{2: 3, 3: 4}[int(kind)] for kind in kinds], list(nodes)


def widest_radius(gmsh: Any, body: Body) -> float:
    """The greatest radius of the edges and fitted faces of a body."""
    radii = [edge.arc.radius for edge in body.edges.values() if edge.arc is not None]
    radii += [face.fit.radius for face in body.faces if face.fit.kind in ("cylinder", "sphere")]
    if radii:
        return max(radii)
    if not body.vertices:
        return 1.0
    return float(numpy.ptp(numpy.array(list(body.vertices.values())), axis=0).max()) / 2 or 1.0


def measured(gmsh: Any, mesh: Mesh, owners: List[int], plane: set[int]) -> Tuple[float, float]:
    """How far the triangles go beyond their surfaces, and how far they fall short of them."""
    by_surface: Dict[int, List[int]] = {}
    for number, owner in enumerate(owners):
        if owner not in plane:
            by_surface.setdefault(owner, []).append(number)
    over = under = 0.0
    for owner, numbers in by_surface.items():
        rows = mesh.points[numpy.array([mesh.faces[number] for number in numbers])]
        normals = numpy.array([newell(row) for row in rows])
        sizes = numpy.linalg.norm(normals, axis=1)[:, None]
        normals /= numpy.where(sizes > 0, sizes, 1.0)  # a triangle without area has no side
        middles = [rows.mean(axis=1)] + [(rows[:, k] + rows[:, k - 1]) / 2 for k in range(3)]
        for places in middles:
            found = gmsh.model.getClosestPoint(2, owner, places.ravel())[0]
            ways = numpy.array(found).reshape(-1, 3) - places
            far = numpy.linalg.norm(ways, axis=1)
            out = (ways * normals).sum(axis=1) >= 0
            under = max(under, SAFE * float(far[out].max(initial=0.0)))
            over = max(over, SAFE * float(far[~out].max(initial=0.0)))
    return over, under
