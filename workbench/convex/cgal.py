"""Exact convex decomposition by CGAL: a program of one page in C++, built on first use, run beside this one.

The decomposition is that of Hachenberger (2007), `convex_decomposition_3` of CGAL. It takes any closed surface that
does not cross itself, and is exact; its pieces may have corners at fractions.
"""
from __future__ import annotations

import hashlib
import os
import re
import signal
import subprocess
import sys
import tempfile
from fractions import Fraction
from typing import List, Sequence

from ..hulls import Point
from ..packages import program
from ..solid import Refusal
from .cells import Cell, Corner

SOURCE = os.path.join(os.path.dirname(os.path.abspath(__file__)), "decompose.cpp")
HEADER = "/usr/include/CGAL/convex_decomposition_3.h"
CAUSES = {
    3: "it is not closed on this grid; repair the mesh, or give a finer grid",
    4: "its surface crosses itself on this grid; repair the mesh, or give a finer grid",
}


class OutOfTime(Refusal):
    """It takes longer than it may."""


def cache() -> str:
    """The folder in which the built program is kept."""
    top = os.environ.get("XDG_CACHE_HOME") or os.path.join(os.path.expanduser("~"), ".cache")
    return os.path.join(top, "staat")


def built() -> str:
    """The path of the program, which is built where this source was not built before. Refusal: it cannot be built."""
    with open(SOURCE, "rb") as file:
        mark = hashlib.sha256(file.read()).hexdigest()[:16]
    path = os.path.join(cache(), f"decompose-{mark}")
    if os.access(path, os.X_OK):
        return path
    compiler = program("g++", "g++")
    if not os.path.exists(HEADER):
        raise Refusal("libcgal-dev is missing; install it by: sudo apt-get install -y libcgal-dev")
    print(
        "staat-cad: building the decomposition by CGAL, once; this takes a minute or two",
        file=sys.stderr,
    )
    os.makedirs(cache(), exist_ok=True)
    with tempfile.TemporaryDirectory(dir=cache()) as folder:
        made = os.path.join(folder, "decompose")
        words = [compiler, "-O2", "-DNDEBUG", SOURCE, "-o", made, "-lgmp", "-lmpfr"]
        told = subprocess.run(words, capture_output=True, text=True, check=False)
        if told.returncode:
            fault = next(
                (line for line in told.stderr.splitlines() if "error" in line), "it gave no reason"
            )
            raise Refusal(f"the decomposition by CGAL could not be built: {fault}")
        os.replace(made, path)
    return path


def number_of(word: str) -> "int | Fraction":
    return Fraction(word) if "/" in word else int(word)


def cells_in(text: str) -> List[Cell]:
    """The cells that the program wrote."""
    cells = []
    for block in re.split(r"^piece ", text, flags=re.MULTILINE)[1:]:
        lines = block.splitlines()
        end = 1 + int(lines[0].split()[0])
        corners: List[Corner] = []
        for line in lines[1:end]:
            x, y, z = map(number_of, line.split())
            corners.append((x, y, z))
        faces = [[int(word) for word in line.split()[1:]] for line in lines[end:]]
        cells.append(Cell.of_faces(corners, faces))
    return cells


def decomposed(
    points: Sequence[Point], faces: Sequence[Sequence[int]], seconds: float
) -> List[Cell]:
    """Convex cells without common inner points whose union is the solid.

    faces: a closed surface of plane faces, wound outwards. seconds: of a processor, so that the answer does not hang on
    what else runs. Refusal: CGAL does not take it, or not within the time.
    """
    command = built()
    with tempfile.TemporaryDirectory() as folder:
        source, target = os.path.join(folder, "solid"), os.path.join(folder, "pieces")
        with open(source, "w", encoding="ascii") as file:
            file.write(f"{len(points)} {len(faces)}\n")
            file.writelines("%d %d %d\n" % tuple(point) for point in points)
            file.writelines(" ".join(map(str, [len(face), *face])) + "\n" for face in faces)
        limit = max(1, round(seconds))
        limited = [program("prlimit", "util-linux"), f"--cpu={limit}:{limit + 1}"]
        words = [*limited, command, source, target]
        told = subprocess.run(words, capture_output=True, text=True, check=False)
        if told.returncode in (-signal.SIGXCPU, -signal.SIGKILL):
            raise OutOfTime(
                f"it has {len(faces)} faces and takes CGAL over {limit} seconds; draw round faces with fewer sides, or "
                "give more --seconds"
            )
        if told.returncode in CAUSES:
            raise Refusal(CAUSES[told.returncode])
        if told.returncode:
            raise Refusal("CGAL could not decompose it; repair the mesh, or give another grid")
        with open(target, encoding="ascii") as file:
            return cells_in(file.read())
