"""Products that are made here for the tests: by gmsh's OpenCASCADE, by OpenSCAD, or from those of the gallery, turned.

Each call writes files to a folder, and answers the words that `./staat-cad` is given.
"""
from __future__ import annotations

import itertools
import json
import math
import os
import subprocess
from typing import Any, Dict, List, Sequence, Tuple

from workbench.planner import TOP
from workbench.reading import step
from workbench.reading.lists import Listed
from workbench.reading.off import read_off
from workbench.tests.kit import off

GALLERY = os.path.join(TOP, "gallery")
LAMP = "/usr/share/openscad/examples/Old/example017.scad"
SLABS = [[0, 1, 3, 2], [4, 6, 7, 5], [0, 4, 5, 1], [2, 3, 7, 6], [0, 2, 6, 4], [1, 5, 7, 3]]
Point = Sequence[float]
Cell = Tuple[int, ...]


def turned(point: Point, degrees: float) -> List[float]:
    """Turned about the upright axis, and then as much about the axis x."""
    c, s = math.cos(math.radians(degrees)), math.sin(math.radians(degrees))
    x, y, z = c * point[0] - s * point[1], s * point[0] + c * point[1], point[2]
    return [x, c * y - s * z, s * y + c * z]


def listed(name: str) -> List[Listed]:
    """The parts of a product of the gallery, with the paths of their files, whose names hold at the top."""
    with open(os.path.join(GALLERY, name, "parts.json"), encoding="utf-8") as file:
        parts = json.load(file)["parts"]
    return [
        Listed(
            part["name"],
            [os.path.join(TOP, file) for file in part["pieces"]],
            (at[0], at[1], at[2]),
        )
        for part, at in ((part, part.get("at", (0, 0, 0))) for part in parts)
    ]


def turned_product(name: str, degrees: float, folder: str) -> List[str]:
    """A product of the gallery, turned: a part list of pieces with coordinates that are no whole numbers."""
    told = []
    for number, part in enumerate(listed(name)):
        files = []
        for place, file in enumerate(part.files):
            with open(file, "rb") as opened:
                points, faces = read_off(opened.read())
            rows = [turned([p + a for p, a in zip(row, part.at)], degrees) for row in points]
            files.append(f"{number}-{place}.off")
            with open(os.path.join(folder, files[-1]), "w", encoding="ascii") as turned_file:
                turned_file.write(off(rows, faces))
        told.append({"name": part.name, "pieces": files})
    path = os.path.join(folder, "turned.json")
    with open(path, "w", encoding="utf-8") as file_of_list:
        json.dump({"parts": told}, file_of_list)
    return [path]


def lamp(folder: str) -> List[str]:
    """The lamp of plates of OpenSCAD's example017, each part at its place: two discs, three legs at 120 degrees."""
    parts = {
        "outer disc": "linear_extrude(6) shape_outer_disc();",
        "inner disc": "translate([0, 0, 74]) linear_extrude(6) shape_inner_disc();",
    }
    place = "translate([0, 102, 0]) rotate([90, 0, -90])"  # that of the example's module assembled
    for number, angle in enumerate((0, 120, 240), 1):
        parts[
            f"leg-{number}"
        ] = f"rotate({angle}) {place} linear_extrude(6, center = true) shape_tripod();"
    paths = []
    for name, text in parts.items():
        source, path = os.path.join(folder, f"{name}.scad"), os.path.join(folder, f"{name}.stl")
        with open(source, "w", encoding="utf-8") as file:
            file.write(f"use <{LAMP}>\n{text}\n")
        setting = {**os.environ, "QT_QPA_PLATFORM": "offscreen"}
        subprocess.run(["openscad", "-q", "-o", path, source], check=True, env=setting)
        paths.append(path)
    return paths


def ring(number: int, sides: int, folder: str) -> str:
    """A ring of so many pieces, square across, in a chain along x: a folder of OFF files. Every other one stands."""
    path = os.path.join(folder, f"ring-{number}")
    os.makedirs(path)
    for side in range(sides):
        ends = [2 * math.pi * (side + k) / sides for k in (0, 1)]
        points = [
            lying(number, [r * math.cos(angle), r * math.sin(angle), z])
            for angle in ends
            for r in (40, 50)
            for z in (-5, 5)
        ]
        with open(os.path.join(path, f"{side}.off"), "w", encoding="ascii") as file:
            file.write(off(points, SLABS))
    return path


def lying(number: int, point: Point) -> List[float]:
    x, y, z = point if number % 2 == 0 else (point[0], -point[2], point[1])
    return [x + 60 * number, y, z]


def rings(folder: str) -> List[str]:
    """Three linked rings of 24 sides each."""
    return [ring(number, 24, folder) for number in range(3)]


# By gmsh's OpenCASCADE


def cylinder(kernel: Any, low: Point, high: float, radius: float) -> Tuple[int, int]:
    return (3, kernel.addCylinder(*low, 0, 0, high, radius))


def block(kernel: Any, low: Point, high: Point) -> Tuple[int, int]:
    return (3, kernel.addBox(*low, *(b - a for a, b in zip(low, high))))


def less(kernel: Any, one: Tuple[int, int], *others: Tuple[int, int]) -> Tuple[int, int]:
    """The one without the others."""
    found: Tuple[int, int] = kernel.cut([one], list(others))[0][0]
    return found


def plus(kernel: Any, one: Tuple[int, int], *others: Tuple[int, int]) -> Tuple[int, int]:
    """The one with the others."""
    found: Tuple[int, int] = kernel.fuse([one], list(others))[0][0]
    return found


def written(gmsh: Any, path: str) -> None:
    gmsh.model.occ.synchronize()
    with step.silent():
        gmsh.write(path)
    gmsh.clear()


def start() -> Any:
    """gmsh, with nothing in it."""
    gmsh = step.start()
    gmsh.clear()
    return gmsh


def crate(kernel: Any, x: float, z: float) -> List[Tuple[int, int]]:
    """A crate with its lid, four screws and what is in it, 60 wide and 40 deep, on a shelf."""
    holes = [(x + a, b) for a in (4, 56) for b in (4, 36)]
    box = less(
        kernel,
        block(kernel, (x, 0, z), (x + 60, 40, z + 30)),
        block(kernel, (x + 8, 8, z + 4), (x + 52, 32, z + 30)),
        *(cylinder(kernel, (a, b, z + 15), 15, 2) for a, b in holes),
    )
    lid = less(
        kernel,
        block(kernel, (x, 0, z + 30), (x + 60, 40, z + 34)),
        *(cylinder(kernel, (a, b, z + 30), 4, 2) for a, b in holes),
    )
    screws = [
        plus(
            kernel,
            cylinder(kernel, (a, b, z + 15), 19, 2),
            cylinder(kernel, (a, b, z + 34), 2, 3.5),
        )
        for a, b in holes
    ]
    return [box, lid, *screws, block(kernel, (x + 15, 12, z + 4), (x + 45, 28, z + 24))]


def rack(folder: str) -> List[str]:
    """A rack of five shelves with three crates on each: 106 parts in STEP files, one for each kind."""
    gmsh = start()
    kernel = gmsh.model.occ
    places = [(70.0 * column, 50.0 * row) for row in range(5) for column in range(3)]
    kinds = {"crate": (0,), "lid": (1,), "screw M4": (2, 3, 4, 5), "load": (6,)}
    paths = []
    for name, kept in kinds.items():
        for x, z in places:
            made = crate(kernel, x, z)
            kernel.remove([made[k] for k in range(len(made)) if k not in kept], recursive=True)
        paths.append(os.path.join(folder, f"{name}.step"))
        written(gmsh, paths[-1])
    shelves = [block(kernel, (-10, 0, 50 * row - 4), (210, 40, 50 * row)) for row in range(6)]
    sides = [block(kernel, (x, 0, -4), (x + 10, 40, 250)) for x in (-20, 210)]
    plus(kernel, sides[0], sides[1], *shelves)
    paths.append(os.path.join(folder, "rack.step"))
    written(gmsh, paths[-1])
    return paths


def bolt_in_a_board(folder: str) -> List[str]:
    """A nut that the ridges of a bolt hold, on a board with twenty pegs."""
    gmsh = start()
    kernel = gmsh.model.occ
    kernel.addCylinder(0, 0, 0, 0, 0, 40, 4)
    thread = [cylinder(kernel, (0, 0, z), 2, 5) for z in (26, 30, 34)]
    plus(kernel, (3, 1), cylinder(kernel, (0, 0, -5), 5, 8), *thread)
    paths = [os.path.join(folder, "bolt.step")]
    written(gmsh, paths[-1])
    nut = block(kernel, (-8, -8, 28), (8, 8, 36))
    less(
        kernel,
        nut,
        cylinder(kernel, (0, 0, 28), 8, 4),
        cylinder(kernel, (0, 0, 30), 2, 5),
        cylinder(kernel, (0, 0, 34), 2, 5),
    )
    paths.append(os.path.join(folder, "nut.step"))
    written(gmsh, paths[-1])
    pegs = [(x, y) for x in range(-50, 51, 25) for y in (-45, -30, 30, 45)]
    less(
        kernel,
        block(kernel, (-60, -60, 0), (60, 60, 20)),
        cylinder(kernel, (0, 0, 0), 20, 4),
        *(block(kernel, (x - 3, y - 3, 10), (x + 3, y + 3, 20)) for x, y in pegs),
    )
    paths.append(os.path.join(folder, "board.step"))
    written(gmsh, paths[-1])
    for x, y in pegs:
        block(kernel, (x - 3, y - 3, 10), (x + 3, y + 3, 30))
    paths.append(os.path.join(folder, "peg.step"))
    written(gmsh, paths[-1])
    return paths


def cells_of(name: str) -> List[Tuple[str, List[Cell]]]:
    """The cubes of side 1 of each part of a product of the gallery whose pieces are boxes on a grid of such cubes."""
    found = []
    for part in listed(name):
        cells = set()
        for file in part.files:
            with open(file, "rb") as opened:
                points = read_off(opened.read())[0]
            low, high = (
                [int(pick(point[k] for point in points)) + part.at[k] for k in range(3)]
                for pick in (min, max)
            )
            cells |= set(itertools.product(*(range(a, b) for a, b in zip(low, high))))
        found.append((part.name, sorted(cells)))
    return found


def surface(cells: Sequence[Cell]) -> Tuple[List[List[float]], List[List[int]]]:
    """The squares that bound cubes of side 1, wound outwards."""
    points: Dict[Cell, int] = {}
    faces = []
    filled = set(cells)
    for cell in cells:
        for axis, side in itertools.product(range(3), (0, 1)):
            beyond = list(cell)
            beyond[axis] += 2 * side - 1
            if tuple(beyond) in filled:
                continue
            face = []
            for u, v in (
                ((0, 0), (1, 0), (1, 1), (0, 1)) if side else ((0, 0), (0, 1), (1, 1), (1, 0))
            ):
                corner = list(cell)
                corner[axis] += side
                corner[(axis + 1) % 3] += u
                corner[(axis + 2) % 3] += v
                face.append(points.setdefault(tuple(corner), len(points)))
            faces.append(face)
    return [list(map(float, point)) for point in points], faces


def turned_cells(name: str, degrees: float, folder: str) -> List[str]:
    """A product of cubes, turned: each part as one mesh of unit squares."""
    paths = []
    for part, cells in cells_of(name):
        points, faces = surface(cells)
        paths.append(os.path.join(folder, f"{part}.off"))
        with open(paths[-1], "w", encoding="ascii") as file:
            file.write(off([turned(point, degrees) for point in points], faces))
    return paths
