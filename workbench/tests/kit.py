"""What the tests share: small models, a folder of their own, and the command as a call."""
from __future__ import annotations

import contextlib
import io
import itertools
import json
import math
import os
import shutil
import subprocess
import tempfile
import unittest
from typing import Any, Dict, List, Sequence, Tuple

from workbench import planner
from workbench.__main__ import start
from workbench.hulls import Point
from workbench.reading.off import read_off
from workbench.solid import Piece

TOP = planner.TOP
STL = os.path.join(TOP, "tools", "example", "stl")
SIDES = [[0, 1, 3, 2], [4, 6, 7, 5], [0, 4, 5, 1], [2, 3, 7, 6], [0, 2, 6, 4], [1, 5, 7, 3]]
Rows = List[List[float]]
Faces = List[List[int]]

# An angle: a square prism with a corner cut out.
ANGLE = [[0, 0], [2, 0], [2, 1], [1, 1], [1, 2], [0, 2]]
ANGLE_POINTS: Rows = [[x, y, z] for z in (0, 1) for x, y in ANGLE]
ANGLE_FACES = [[5, 4, 3, 2, 1, 0], [6, 7, 8, 9, 10, 11]] + [
    [k, (k + 1) % 6, (k + 1) % 6 + 6, k + 6] for k in range(6)
]


def corners(low: Sequence[float], high: Sequence[float]) -> Rows:
    return [list(point) for point in itertools.product(*zip(low, high))]


def off(
    points: Sequence[Sequence[float]], faces: Faces, header: str = "OFF\n", tail: str = ""
) -> str:
    rows = [" ".join(map(str, point)) for point in points]
    rows += [" ".join(map(str, [len(face), *face])) + tail for face in faces]
    return f"{header}{len(points)} {len(faces)} 0\n" + "\n".join(rows) + "\n"


def turned(points: Rows, degrees: float) -> Rows:
    """Turned about the upright axis, and then as much about another one."""
    c, s = math.cos(math.radians(degrees)), math.sin(math.radians(degrees))
    once = [[c * x - s * y, s * x + c * y, z] for x, y, z in points]
    return [[x, c * y - s * z, s * y + c * z] for x, y, z in once]


def both(*meshes: Tuple[Rows, Faces]) -> Tuple[Rows, Faces]:
    points: Rows = []
    faces: Faces = []
    for some, more in meshes:
        faces += [[corner + len(points) for corner in face] for face in more]
        points += some
    return points, faces


class Case(unittest.TestCase):
    """A test with a folder of its own, in which the command writes to `out`."""

    def setUp(self) -> None:
        self.folder = tempfile.TemporaryDirectory()
        self.addCleanup(self.folder.cleanup)

    def path(self, name: str) -> str:
        return os.path.join(self.folder.name, name)

    def write(self, name: str, text: str) -> str:
        os.makedirs(os.path.dirname(self.path(name)), exist_ok=True)
        with open(self.path(name), "w") as file:
            file.write(text)
        return self.path(name)

    def run_tool(self, *words: str) -> Tuple[Any, str, str]:
        """The status, and what stands on out and err."""
        out, err = io.StringIO(), io.StringIO()
        with contextlib.redirect_stdout(out), contextlib.redirect_stderr(err):
            try:
                status: Any = start(["pieces", *words, "--out", self.path("out")])
            except SystemExit as end:
                status = end.code
        return status, out.getvalue(), err.getvalue()

    def refused(self, want: str, *words: str, status: int = 3) -> None:
        shutil.rmtree(self.path("out"), ignore_errors=True)
        got, out, err = self.run_tool(*words)
        self.assertEqual((got, out, err.count("\n")), (status, "", 1), err)
        self.assertIn(want, err)
        self.assertFalse(os.path.exists(self.path("out")))

    def accepted(self, *words: str) -> Dict[str, List[List[Point]]]:
        """The parts that are written, each with the points of its pieces; the planner judges them if there is one."""
        status, out, err = self.run_tool(*words)
        self.assertEqual((status, err), (0, ""), out)
        self.judge()
        return self.parts()

    def judge(self) -> None:
        with open(self.path("out/parts.json")) as file:
            listed = json.load(file)["parts"]
        if len(listed) > 32 or sum(len(part["pieces"]) for part in listed) > 64:
            return  # more than this planner takes; the tool's own test of overlaps has spoken
        judged = planner.look(self.path("out"))
        if judged is not None:
            self.assertEqual(judged.returncode, 0, judged.stderr)
            self.assertTrue(judged.stdout.endswith("sound\n"))

    def ask(self, *words: str) -> "subprocess.CompletedProcess[str]":
        """What the planner says of the part list; the test is passed over where there is none."""
        built = planner.program()
        if built is None:
            self.skipTest("no built planner")
        return subprocess.run(
            [built, *words, "--manifest=parts.json"],
            cwd=self.path("out"),
            capture_output=True,
            text=True,
            check=False,
        )

    def parts(self) -> Dict[str, List[List[Point]]]:
        found: Dict[str, List[List[Point]]] = {}
        for name, some in self.pieces():
            found[name] = [sorted((x, y, z) for x, y, z in piece.points.tolist()) for piece in some]
        return found

    def pieces(self) -> List[Tuple[str, List[Piece]]]:
        with open(self.path("out/parts.json")) as file:
            listed = json.load(file)["parts"]
        return [(part["name"], [self.piece(name) for name in part["pieces"]]) for part in listed]

    def piece(self, name: str) -> Piece:
        import numpy

        with open(self.path("out/" + name), "rb") as file:
            points, faces = read_off(file.read())
        whole = numpy.array(points)
        self.assertTrue((whole == numpy.rint(whole)).all())
        return Piece(whole.astype(numpy.int64), faces)

    def model(self) -> Dict[str, Any]:
        with open(self.path("out/model.json")) as file:
            found: Dict[str, Any] = json.load(file)
        return found

    def bounds(self) -> Dict[str, Tuple[float, float]]:
        """How far each part is gone beyond and fallen short of, as the tool says."""
        return {part["name"]: (part["over"], part["under"]) for part in self.model()["parts"]}
