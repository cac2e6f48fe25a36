"""From models to the report by one call; the model's own surfaces; what is shown where there is no plan."""
from __future__ import annotations

import contextlib
import io
import json
import os
import struct
import tempfile
import unittest.mock
from typing import Any, Dict, Tuple

import numpy

from workbench.__main__ import start
from workbench.planner import Place
from workbench.show.command import PAPER, PRODUCT, REPORT, STRIP, shown_of
from workbench.solid import Refusal
from workbench.surfaces import SURFACES, read_surfaces
from workbench.tests.kit import ANGLE_FACES, ANGLE_POINTS, SIDES, corners, off

from . import kit
from .in_browser import InBrowser

CHROMIUM = "workbench.show.browser.chromium"
THIRD = 1 / 3  # on no grid that is a decimal fraction


def angle_and_block(folder: str) -> Tuple[str, str]:
    """An angle on the table, and a block in its corner: names of files; the angle is no whole steps long."""
    files = os.path.join(folder, "angle.off"), os.path.join(folder, "block.off")
    points = [[THIRD * x, THIRD * y, THIRD * z] for x, y, z in ANGLE_POINTS]
    for path, text in zip(files, (off(points, ANGLE_FACES), off(block(), SIDES))):
        with open(path, "w", encoding="ascii") as file:
            file.write(text)
    return files


def block() -> Any:
    return corners((0.5, 0.5, 0), (1, 1, 0.25))


def called(*words: str) -> Tuple[int, str, str]:
    """The status of a call, and what stands on out and err."""
    out, err = io.StringIO(), io.StringIO()
    with contextlib.redirect_stdout(out), contextlib.redirect_stderr(err):
        status = start(list(words))
    return status, out.getvalue(), err.getvalue()


def meshes_of(path: str) -> Dict[str, numpy.ndarray]:
    """The corners of the triangles of each part of a glTF file, in steps of the grid."""
    with open(path, "rb") as file:
        data = file.read()
    (size,) = struct.unpack_from("<I", data, 12)
    told, binary = json.loads(data[20 : 20 + size]), data[28 + size :]
    found = {}
    for node in told["nodes"][:-1]:
        primitive = told["meshes"][node["mesh"]]["primitives"][0]
        accessor = told["accessors"][primitive["attributes"]["POSITION"]]
        view = told["bufferViews"][accessor["bufferView"]]
        rows = numpy.frombuffer(binary, "<f4", 3 * accessor["count"], view["byteOffset"])
        found[node["name"]] = rows.reshape(-1, 3)
    return found


class Whole(InBrowser):
    """What `./staat-cad MODEL.. --out=FOLDER` writes."""

    def setUp(self) -> None:
        self.scratch = tempfile.TemporaryDirectory()
        self.addCleanup(self.scratch.cleanup)

    def out(self, name: str = "") -> str:
        return os.path.join(self.scratch.name, "out", name)

    def starts(self, name: str, begin: bytes) -> None:
        with open(self.out(name), "rb") as file:
            self.assertEqual(file.read(len(begin)), begin)

    def test_one_call_leads_from_models_to_the_report(self) -> None:
        files = angle_and_block(self.scratch.name)
        status, out, err = called(*files, "--grid=0.01", "--out", self.out())
        self.assertEqual((status, err), (0, ""), out)
        for name in ("parts.json", "plan.cert", "plan.json", REPORT, PRODUCT, STRIP, PAPER):
            self.assertIn(f"written {self.out(name)}", out.splitlines())
        self.starts(STRIP, b"\x89PNG")
        self.starts(PAPER, b"%PDF")
        with open(self.out(PAPER), "rb") as file:
            self.assertIn(b"/Subtype /Image", file.read())
        self.open_in(self.out())
        self.assertIn("comes apart in one step", self.text("#answer"))
        checked = self.text("#checks")
        for words in (
            "staat-cad " + files[0],
            "staat decide --rest --cert",
            "staat confirm",
            "valid plan",
        ):
            self.assertIn(words, checked)
        self.assertIn("grid of 1/100", self.text("#near"))
        self.assertIn("angle", self.text("#bounds"))
        self.quiet()
        self.surfaces_are_those_of_the_model(files[0])

    def surfaces_are_those_of_the_model(self, angle: str) -> None:
        """The glTF file has the points as they were drawn, though those of the pieces are whole steps."""
        names = ["angle", "block"]
        self.assertEqual([mesh.name for mesh in read_surfaces(self.out(), names)], names)
        with open(self.out("model.json"), encoding="utf-8") as file:
            self.assertEqual(json.load(file)["models"], [os.path.basename(angle), "block.off"])
        nodes = kit.by_assimp(self.out(PRODUCT))["rootnode"]["children"]
        self.assertEqual(sorted(node["name"] for node in nodes), names)
        found = meshes_of(self.out(PRODUCT))
        for name, points in (("angle", THIRD * numpy.array(ANGLE_POINTS)), ("block", block())):
            wanted = numpy.unique(numpy.array(points, dtype=float).round(6), axis=0)
            rows = numpy.unique(found[name].round(3), axis=0) * 0.01
            self.assertEqual(rows.shape, wanted.shape)
            self.assertLess(float(numpy.abs(rows - wanted).max()), 1e-5)

    def test_where_no_surface_was_read_the_pieces_are_shown(self) -> None:
        files = angle_and_block(self.scratch.name)
        called("pieces", *files, "--grid=0.01", "--out", self.out())
        os.remove(self.out(SURFACES))
        self.assertEqual([part.drawn for part in shown_of(Place(self.out())).parts], [None] * 2)

    def test_surfaces_of_other_parts_are_not_shown(self) -> None:
        files = angle_and_block(self.scratch.name)
        called("pieces", *files, "--grid=0.01", "--out", self.out())
        self.assertEqual(read_surfaces(self.out(), ["block", "angle"]), [])

    def test_parts_that_overlap_are_shown_with_the_two_pieces(self) -> None:
        angle, _ = angle_and_block(self.scratch.name)
        other = os.path.join(self.scratch.name, "other.off")
        with open(other, "w", encoding="ascii") as file:
            file.write(off(corners((0, 0, 0.1), (0.2, 0.2, 0.2)), SIDES))
        called("pieces", angle, other, "--grid=0.01", "--out", self.out())
        shown = shown_of(Place(self.out()))
        kit.write_files(shown, self.out())
        self.open_in(self.out())
        self.assertIn("no plan: angle and other overlap", self.text("#answer"))
        self.press("#holds button")
        overlap = shown.plan.overlap
        assert overlap is not None
        self.assertEqual(
            self.lit(), [[overlap.part, overlap.piece], [overlap.by, overlap.by_piece]]
        )
        self.quiet()

    def test_a_checker_that_is_killed_leaves_one_line_and_no_plan(self) -> None:
        files = angle_and_block(self.scratch.name)
        called("pieces", *files, "--grid=0.01", "--out", self.out())
        staat = os.path.join(self.scratch.name, "staat")
        with open(staat, "w", encoding="ascii") as file:
            file.write("#!/bin/sh\nkill -9 $$\n")
        os.chmod(staat, 0o755)
        with unittest.mock.patch.dict(os.environ, {"STAAT": staat}):
            with unittest.mock.patch(CHROMIUM, side_effect=Refusal("chromium is missing")):
                status, _, err = called("show", self.out())
        self.assertEqual(status, 3)
        wanted = ["staat decide was ended by signal 9", "chromium is missing"]
        self.assertEqual(err.splitlines(), [f"staat-cad: {line}" for line in wanted])
        self.open_in(self.out())
        self.assertIn("no plan: staat decide was ended by signal 9", self.text("#answer"))
        self.assertIn("There is no plan", self.text("#now"))
        self.quiet()
