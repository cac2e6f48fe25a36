#!/usr/bin/python3
"""Products from models that nobody made for this gallery: where each lies, and how it becomes files that are read.

None of the models is kept here. Those of packages are read where the packages are installed; the puzzles are made from
what is published of them. `gallery/drawn.py NAME FOLDER` writes the files of one, and says what to call.
"""
from __future__ import annotations

import gzip
import os
import shlex
import shutil
import subprocess
import sys
from dataclasses import dataclass
from typing import Callable, Dict, List, Tuple

import puzzles

AS1 = "/usr/share/doc/gmsh-doc/doc/gmsh/demos/boolean/as1-tu-203.stp.gz"
LAMP = "/usr/share/openscad/examples/Old/example017.scad"
BRICK = "/usr/share/openscad/libraries/MCAD/lego_compatibility.scad"
IDF = "/usr/share/freecad/Mod/Idf/Idflibs"
OCC = "/usr/share/opencascade/data/occ"


@dataclass(frozen=True)
class Model:
    """A product that somebody else drew.

    needs: packages of Debian, each with a file that it has; make: writes files to a folder, their paths
    words: what `./staat-cad` is given besides, so that there is an answer; status: that of the answer
    """

    name: str
    needs: Tuple[Tuple[str, str], ...]
    make: Callable[[str], List[str]]
    words: Tuple[str, ...] = ()
    status: int = 0

    def missing(self) -> List[str]:
        """The packages that are not installed."""
        return [package for package, path in self.needs if not is_there(path)]


def is_there(path: str) -> bool:
    return os.path.exists(path) if os.path.isabs(path) else shutil.which(path) is not None


def as1(folder: str) -> List[str]:
    path = os.path.join(folder, "as1.stp")
    with gzip.open(AS1) as text, open(path, "wb") as file:
        shutil.copyfileobj(text, file)
    return [path]


def drawn(parts: Dict[str, str], library: str) -> Callable[[str], List[str]]:
    """What has OpenSCAD export each part, by a line that uses the modules of a file."""

    def make(folder: str) -> List[str]:
        paths = []
        for name, line in parts.items():
            source, path = (os.path.join(folder, name + suffix) for suffix in (".scad", ".stl"))
            with open(source, "w", encoding="utf-8") as file:
                file.write(f"use <{library}>\n{line}\n")
            setting = {**os.environ, "QT_QPA_PLATFORM": "offscreen"}
            words = ["openscad", "-q", "-o", path, source]
            subprocess.run(words, check=True, env=setting, capture_output=True)
            paths.append(path)
        return paths

    return make


def kept(*paths: str) -> Callable[[str], List[str]]:
    """What reads files of a package where they are."""
    return lambda folder: list(paths)


def filled(puzzle: Callable[[], Dict[str, puzzles.Cells]]) -> Callable[[str], List[str]]:
    return lambda folder: puzzles.written(puzzle(), folder)


LEG = "translate([0, 102, 0]) rotate([90, 0, -90]) linear_extrude(6, center = true) shape_tripod();"
LAMP_PARTS = {
    "outer disc": "linear_extrude(6) shape_outer_disc();",
    "inner disc": "translate([0, 0, 74]) linear_extrude(6) shape_inner_disc();",
    **{f"leg-{k + 1}": f"rotate({120 * k}) {LEG}" for k in range(3)},
}
BRICKS = {
    "brick 2 by 4": "block(2, 4, 1, solid_bottom = false);",
    "brick 2 by 2-1": "translate([0, 0, 9.5]) block(2, 2, 1, solid_bottom = false);",
    "brick 2 by 2-2": "translate([16, 0, 9.5]) block(2, 2, 1, solid_bottom = false);",
    "plate 2 by 3": "translate([8, 0, 19]) block(2, 3, 1 / 3, solid_bottom = false);",
}
FREECAD = (("freecad-common", IDF), ("python3-gmsh", "/usr/lib/python3/dist-packages/gmsh.py"))
OPENCASCADE = (("occt-misc", OCC), FREECAD[1])
OPENSCAD = ("openscad", "openscad")

MODELS: Tuple[Model, ...] = (
    Model("as1", (("gmsh-doc", AS1), FREECAD[1]), as1),
    Model("lamp", (("openscad", LAMP), OPENSCAD), drawn(LAMP_PARTS, LAMP), ("--clearance=0.42",)),
    Model(
        "bricks",
        (("openscad-mcad", BRICK), OPENSCAD),
        drawn(BRICKS, BRICK),
        ("--clearance=0.19",),
    ),
    Model("planar-core", FREECAD, kept(f"{IDF}/I22_2_5_16withEPL22_6_16.stp")),
    Model("inductor", FREECAD, kept(f"{IDF}/RLF_12545.stp")),
    Model("refrigerator", OPENCASCADE, kept(f"{OCC}/MODERN_Refrigerator_1.brep")),
    Model("soma", (), filled(puzzles.soma)),
    Model("slothouber-graatsma", (), filled(puzzles.slothouber_graatsma)),
    Model("numbered-burr", (), filled(puzzles.burr)),
)


def main(words: List[str]) -> int:
    """Writes the files of a product to a folder, and says with which words `./staat-cad` answers."""
    found = [model for model in MODELS if words[:1] == [model.name]]
    if len(words) != 2 or not found:
        print(f"drawn.py NAME FOLDER, of {', '.join(model.name for model in MODELS)}")
        return 2
    lacking = found[0].missing()
    if lacking:
        print("to install: apt-get install -y " + " ".join(lacking))
        return 3
    os.makedirs(words[1], exist_ok=True)
    files = found[0].make(words[1])
    print(shlex.join(["./staat-cad", *files, *found[0].words, f"--out={found[0].name}"]))
    return 0


if __name__ == "__main__":
    sys.exit(main(sys.argv[1:]))
