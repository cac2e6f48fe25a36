"""Meshes of all formats, and what is refused of them."""
from __future__ import annotations

import contextlib
import io
import math
import os
import random
import re
import shutil
import subprocess
import unittest
import zipfile
from fractions import Fraction

import numpy
from scipy.spatial import ConvexHull

from workbench import hulls, planner
from workbench.grids import finest
from workbench.hulls import Point
from workbench.solid import GREATEST
from workbench.tests.kit import (
    ANGLE_FACES,
    ANGLE_POINTS,
    SIDES,
    STL,
    TOP,
    Case,
    Rows,
    both,
    corners,
    off,
    turned,
)

try:
    import meshio
except ImportError:
    meshio = None

FILES = os.path.join(TOP, "workbench", "tests", "files")
GEOMVIEW = "/usr/share/geomview/geom"


class Formats(Case):
    def setUp(self) -> None:
        super().setUp()
        self.points = corners([0, 0, 0], [1.5, 2, 0.25])
        self.want = {
            "cube": [sorted((x, y, z) for x in (0, 150) for y in (0, 200) for z in (0, 25))]
        }
        self.triangles = [part for a, b, c, d in SIDES for part in ([a, b, c], [a, c, d])]

    def test_texts(self) -> None:
        points = self.points
        coloured = [point + [0.1, 0.2, 0.3, 1] for point in points]
        texts = {
            "a/cube.off": off(points, SIDES),
            "b/cube.off": off(points, SIDES, header="OFF "),
            "c/cube.off": off(points, SIDES, header="# of a tool\n", tail="  0.5 0.5 0.5"),
            "d/cube.off": off(coloured, SIDES, header="COFF\n"),
            "e/cube.off": "{ appearance { +edge }\n{ " + off(points, SIDES, tail=" 7") + "} }\n",
            "f/cube.obj": "".join(f"v {x} {y} {z}\n" for x, y, z in points)
            + "".join(
                "f " + " ".join(f"{corner + 1}//1" for corner in face) + "\n" for face in SIDES
            ),
        }
        for name, text in texts.items():
            with self.subTest(name):
                self.assertEqual(self.accepted(self.write(name, text), "--grid=0.01"), self.want)

    @unittest.skipUnless(meshio, "python3-meshio is not installed")
    def test_by_meshio(self) -> None:
        for name, options in (
            ("g/cube.stl", {"binary": False}),
            ("h/cube.stl", {"binary": True}),
            ("i/cube.ply", {"binary": False}),
            ("j/cube.ply", {"binary": True}),
            ("k/cube.obj", {}),
        ):
            with self.subTest(name):
                os.makedirs(os.path.dirname(self.path(name)))
                with contextlib.redirect_stdout(io.StringIO()), contextlib.redirect_stderr(
                    io.StringIO()
                ):
                    meshio.Mesh(
                        numpy.array(self.points, float), [("triangle", self.triangles)]
                    ).write(self.path(name), **options)
                self.assertEqual(self.accepted(self.path(name), "--grid=0.01"), self.want)

    def test_obj_of_freecad_and_blender(self) -> None:
        """What FreeCAD 0.20.2 and both exporters of Blender 3.4.1 wrote; beside the files stands how they were made."""
        want = {
            "freecad.obj": {"Plate": (4, 9600 - 800), "Pin": (1, 831.384)},
            "blender.obj": {"Cube": (4, 8 - 0.25), "Pin": (1, 1.530734)},
            "blender-old.obj": {"Cube": (4, 8 - 0.25), "Pin_Cylinder": (1, 1.530734)},
        }
        for name, parts in want.items():
            with self.subTest(name):
                self.accepted(os.path.join(FILES, name))
                grid = float(Fraction(self.model()["grid"]))
                self.assertEqual([part for part, _ in self.pieces()], list(parts))
                for part, pieces in self.pieces():
                    volume = sum(ConvexHull(piece.points * grid).volume for piece in pieces)
                    self.assertEqual(len(pieces), parts[part][0])
                    self.assertAlmostEqual(volume / parts[part][1], 1, places=4)
                    self.assertLess(max(self.bounds()[part]), 2 * grid)

    def test_obj(self) -> None:
        """Corners with normals, with places in a picture, counted backwards; materials and groups between them."""
        points = "".join(f"v {x} {y} {z}\n" for x, y, z in self.points)
        normals = "vn 0 0 1\nvn 0 0 -1\n"
        freecad = "# Created by FreeCAD <http://www.freecadweb.org>\ng Box\n" + points + normals
        freecad += "".join(
            "f " + " ".join(f"{corner + 1}//2" for corner in face) + " \n"
            for face in self.triangles
        )
        blender = (
            "# Blender v3.4.1 OBJ File: ''\n# www.blender.org\nmtllib cube.mtl\no Cube\n" + points
        )
        blender += "vt 0.625 0.5\nvt 0.875 0.5\n" + normals + "usemtl Material\ns off\n"
        blender += "".join(
            "f " + " ".join(f"{corner + 1}/2/1" for corner in face) + "\n" for face in SIDES
        )
        back = points + "".join(
            "f " + " ".join(f"{corner - 8}/1" for corner in face) + "\n" for face in SIDES
        )
        for name, text in (("a/cube.obj", freecad), ("b/cube.obj", blender), ("c/cube.obj", back)):
            with self.subTest(name):
                self.assertEqual(self.accepted(self.write(name, text), "--grid=0.01"), self.want)
        self.refused(
            "line 9: a corner has the number 0", self.write("d/cube.obj", points + "f 0 1 2\n")
        )

    def test_groups_are_names(self) -> None:
        text = ""
        for number, (name, low) in enumerate((("base plate", 0), ("lid", 1))):
            text += f"o {name}\n" + "".join(
                f"v {x} {y} {z}\n" for x, y, z in corners([0, 0, low], [1, 1, low + 1])
            )
            text += "".join(
                "f " + " ".join(str(k + 1 + 8 * number) for k in face) + "\n" for face in SIDES
            )
        name = self.write("box.obj", text)
        self.assertEqual(sorted(self.accepted(name)), ["base plate", "lid"])
        self.assertEqual(list(self.accepted(name, "--each=file")), ["box"])
        # Groups that part one closed surface name no parts.
        points = "".join(f"v {x} {y} {z}\n" for x, y, z in corners([0, 0, 0], [1, 1, 1]))
        sides = "".join(
            f"g side{k}\nf " + " ".join(str(corner + 1) for corner in face) + "\n"
            for k, face in enumerate(SIDES)
        )
        self.assertEqual(list(self.accepted(self.write("cube.obj", points + sides))), ["cube"])

    def test_3mf(self) -> None:
        vertices = "".join(f'<vertex x="{x}" y="{y}" z="{z}"/>' for x, y, z in self.points)
        triangles = "".join(f'<triangle v1="{a}" v2="{b}" v3="{c}"/>' for a, b, c in self.triangles)
        thing = f'<object id="1" name="cube" type="model"><mesh><vertices>{vertices}</vertices>'
        thing += f"<triangles>{triangles}</triangles></mesh></object>"
        pair = '<object id="2" name="pair"><components><component objectid="1"/>'
        pair += (
            '<component objectid="1" transform="1 0 0 0 1 0 0 0 1 0 0 5"/></components></object>'
        )
        core = 'xmlns="http://schemas.microsoft.com/3dmanufacturing/core/2015/02"'
        for name, item, want in (
            ("a/cube.3mf", '<item objectid="1"/>', self.want),
            ("b/pair.3mf", '<item objectid="2" transform="1 0 0 0 1 0 0 0 1 0 0 1"/>', None),
        ):
            os.makedirs(os.path.dirname(self.path(name)))
            with zipfile.ZipFile(self.path(name), "w") as archive:
                archive.writestr(
                    "3D/3dmodel.model",
                    f'<?xml version="1.0"?><model unit="inch" {core}><resources>{thing}{pair}</resources>'
                    f"<build>{item}</build></model>",
                )
            found = self.accepted(self.path(name), "--grid=0.01")
            self.assertEqual(self.model()["unit"], "inch")
            if want:
                self.assertEqual(found, want)
            else:
                self.assertEqual(
                    sorted(row[0][2] for rows in found.values() for row in rows), [100, 600]
                )
        self.refused("no 3MF archive", self.write("c.3mf", "a text"))

    def test_several_solids_of_a_text_stl(self) -> None:
        def solid(name: str, low: float) -> str:
            rows = corners([0, 0, low], [1, 1, low + 1])
            text = f"solid {name}\n"
            for face in self.triangles:
                text += "facet normal 0 0 0\nouter loop\n"
                text += (
                    "".join("vertex {} {} {}\n".format(*rows[corner]) for corner in face)
                    + "endloop\nendfacet\n"
                )
            return text + f"endsolid {name}\n"

        name = self.write("two.stl", solid("base", 0) + solid("lid", 1))
        self.assertEqual(sorted(self.accepted(name)), ["base", "lid"])


class Meshes(Case):
    def test_finest_grid(self) -> None:
        status, out, _ = self.run_tool(
            self.write("cube.off", off(corners([0, 0, 0], [1, 1, 262.144]), SIDES))
        )
        self.assertEqual((status, out.split("\n")[0]), (0, "grid 0.001"))
        self.assertIn((1000, 1000, 262144), self.parts()["cube"][0])
        self.assertEqual(finest(262.145), Fraction(2, 1000))
        self.refused("too fine", self.path("cube.off"), "--grid=0.0005")

    def test_bounds_are_told(self) -> None:
        points = corners([0, 0, 0], [1, 1, 1])
        points[7] = [1, 1, 1.25]
        status, out, _ = self.run_tool(
            self.write("cube.off", off(points, SIDES)), "--grid=1", "--tolerance=0.3"
        )
        self.assertEqual(status, 0)
        over, under = self.bounds()["cube"]
        # The corner that was rounded down by 0.25 lies outside of what is written.
        self.assertGreaterEqual(under, 0.14)
        self.assertLessEqual(max(over, under), 0.6)
        self.assertIn(f"part 0 pieces {len(self.parts()['cube'])} over ", out)

    def test_solids(self) -> None:
        two = both((corners([0, 0, 0], [1, 1, 1]), SIDES), (corners([1, 0, 0], [2, 1, 1]), SIDES))
        name = self.write("two.off", off(*two))
        self.assertEqual(
            {part: len(some) for part, some in self.accepted(name).items()}, {"two": 2}
        )
        self.assertEqual(sorted(self.accepted(name, "--each=solid")), ["two-0", "two-1"])
        shutil.rmtree(self.path("out"))
        outer, inner = (corners([0, 0, 0], [3, 3, 3]), SIDES), (
            corners([1, 1, 1], [2, 2, 2]),
            SIDES,
        )
        self.refused(
            "solid 1 lies inside solid 0", self.write("hollow.off", off(*both(outer, inner)))
        )
        # A hollow space is wound inwards, and is kept free.
        inwards = (inner[0], [face[::-1] for face in SIDES])
        for space in (inwards, inner):
            other = [face[::-1] for face in SIDES] if space is inner else SIDES
            some = self.run_tool(
                self.write("hollow.off", off(*both((outer[0], other), space))), "--grid=1"
            )
            if some[0] == 0:
                volume = sum(abs(hull_volume(points)) for points in self.parts()["hollow"])
                self.assertAlmostEqual(volume, 26)
                break
        else:
            self.fail("neither way of winding was taken")

    def test_folder_is_a_part(self) -> None:
        self.write("box/b.off", off(corners([0, 0, 0], [1, 1, 1]), SIDES))
        self.write("box/a.off", off(corners([1, 0, 0], [2, 1, 1]), SIDES))
        lid = self.write("lid.off", off(corners([0, 0, 1], [2, 1, 2]), SIDES))
        again = self.write("again/lid.off", off(corners([0, 0, 2], [2, 1, 3]), SIDES))
        parts = self.accepted(self.path("box"), lid, again, "--grid=1")
        self.assertEqual(
            {name: len(some) for name, some in parts.items()}, {"box": 2, "lid": 1, "lid-2": 1}
        )
        self.assertEqual(parts["box"][0][0], (1, 0, 0))

    def test_repeated_points_and_split_edges(self) -> None:
        points = corners([0, 0, 0], [1, 1, 1])
        soup = [points[corner] for face in SIDES for corner in face]
        faces = [list(range(k, k + 4)) for k in range(0, 24, 4)]
        self.accepted(self.write("soup.off", off(soup, faces)))
        faces = [SIDES[0][:1] + [8] + SIDES[0][1:]] + SIDES[1:]
        self.accepted(self.write("split.off", off(points + [[0, 0, 0.5]], faces)))

    def test_not_convex(self) -> None:
        """An angle, which had to be split by hand, becomes pieces that are no more and no less than it."""
        parts = self.accepted(self.write("angle.off", off(ANGLE_POINTS, ANGLE_FACES)), "--grid=1")
        self.assertEqual(len(parts["angle"]), 2)
        self.assertAlmostEqual(sum(hull_volume(points) for points in parts["angle"]), 3)
        self.assertEqual(self.bounds(), {"angle": (0.0, 0.0)})

    def test_a_tolerance_is_named(self) -> None:
        """Of a solid that is convex but for a little: a prism with a dented side."""
        ring: Rows = [[10, 0], [10, 10], [5, 9.97], [0, 10], [0, 0]]
        points = [[x, y, z] for z in (0.0, 5.0) for x, y in ring]
        sides = [[4, 3, 2, 1, 0], [5, 6, 7, 8, 9]]
        sides += [[k, (k + 1) % 5, (k + 1) % 5 + 5, k + 5] for k in range(5)]
        name = self.write("dented.off", off(points, sides))
        status, out, _ = self.run_tool(name)
        self.assertEqual(status, 0)
        found = re.search(
            r"dented is convex but for [\d.]+: --tolerance=([\d.]+) makes it one", out
        )
        assert found, out
        self.assertLess(float(found.group(1)), 0.1)
        words = ("--tolerance=" + found.group(1),)
        self.assertEqual(len(self.accepted(name, *words)["dented"]), 1)
        # Not where another part is in the way.
        key: Rows = [[4, 9.98], [6, 9.98], [6, 12], [4, 12]]
        points = [[x, y, z] for z in (0.0, 5.0) for x, y in key]
        sides = [[3, 2, 1, 0], [4, 5, 6, 7]]
        sides += [[k, (k + 1) % 4, (k + 1) % 4 + 4, k + 4] for k in range(4)]
        both = self.accepted(name, self.write("key.off", off(points, sides)), *words)
        self.assertGreater(len(both["dented"]), 1)

    def test_more_corners_than_a_piece_has(self) -> None:
        """A rounder solid is cut in two."""
        ring = [
            [math.cos(k / 20 * math.pi), math.sin(k / 20 * math.pi), z]
            for z in (0, 1)
            for k in range(40)
        ]
        sides = [list(range(40)), list(range(40, 80))]
        sides += [[k, (k + 1) % 40, (k + 1) % 40 + 40, k + 40] for k in range(40)]
        parts = self.accepted(self.write("round.off", off(ring, sides)))
        self.assertLessEqual(len(parts["round"]), 3)
        self.assertLessEqual(max(len(points) for points in parts["round"]), 64)

    def test_refusals(self) -> None:
        cube = corners([0, 0, 0], [1, 1, 1])
        self.refused("not closed", self.write("open.off", off(cube, SIDES[1:])))
        self.refused("grid", self.write("flat.off", off(cube, SIDES)), "--grid=5")
        self.refused("cannot read", self.path("nowhere.stl"))
        self.refused("no mesh", self.write("text.off", "a text\n"))
        self.refused("too early", self.write("short.off", "COFF\n4 4 6\n0 0 0\n"))
        self.refused("no mesh", self.write("short.ply", "ply\nformat ascii 1.0\n"))
        self.refused("no faces", self.write("empty.stl", "solid a\nendsolid a\n"))
        self.refused("no such point", self.write("far.off", off(cube, SIDES[1:] + [[0, 1, 3, 8]])))
        self.refused("three coordinates", self.write("four.off", "4OFF\n1 0 0\n0 0 0 0\n"))
        os.makedirs(self.path("empty"))
        self.refused("no file in this folder", self.path("empty"))
        self.refused("is no number", self.path("flat.off"), "--grid=a", status=2)

    def test_all_others_go_on(self) -> None:
        """A part with a bad mesh is left out and named; the others are written."""
        cube = corners([0, 0, 0], [1, 1, 1])
        good = self.write("good.off", off(cube, SIDES))
        status, out, err = self.run_tool(good, self.write("open.off", off(cube, SIDES[1:])))
        self.assertEqual((status, list(self.parts()), err.count("\n")), (3, ["good"], 1))
        self.assertIn("part open is left out: ", err)
        self.assertEqual([part["name"] for part in self.model()["left out"]], ["open"])

    def test_limits_are_told(self) -> None:
        """More than a planner takes is written, and the summary says so."""
        os.makedirs(self.path("many"))
        for k in range(65):
            self.write(f"many/{k}.off", off(corners([k, 0, 0], [k + 1, 1, 1]), SIDES))
        status, out, _ = self.run_tool(self.path("many"))
        self.assertEqual(status, 0)
        self.assertIn(
            "1 parts, 65 pieces: staat decide takes them, staat plan no more than 32 and 64", out
        )
        self.assertIn("most pieces: 65 of many", out)
        status, out, _ = self.run_tool(*(self.path(f"many/{k}.off") for k in range(33)))
        self.assertIn("33 parts, 33 pieces", out)

    def test_inputs_are_kept(self) -> None:
        name = self.write("out/cube.off", off(corners([0, 0, 0], [1, 1, 1]), SIDES))
        status, _, err = self.run_tool(name)
        self.assertEqual(
            (status, "is read" in err, os.listdir(self.path("out"))), (3, True, ["cube.off"])
        )

    def test_overlap_by_rounding(self) -> None:
        """Slanted walls that touch come to overlap where they are rounded; then a piece gives way, which is told."""
        gave_way = 0
        blocks = {
            "plate": ((0.0, 0.0, 0.0), (30.0, 20.0, 0.4)),
            "block": ((0.0, 0.0, 0.4), (30.0, 20.0, 7.0)),
            "rest": ((30.0, 0.0, 0.0), (37.0, 20.0, 7.0)),
        }
        for degrees in (11, 23, 30, 37, 41):
            names = [
                self.write(f"{name}.off", off(turned(corners(low, high), degrees), SIDES))
                for name, (low, high) in blocks.items()
            ]
            self.accepted(*names, "--grid=0.01")
            gave_way += self.run_tool(*names, "--grid=0.01")[1].count("gave way")
        self.assertGreater(gave_way, 0)

    def test_clearance(self) -> None:
        """Parts that overlap as drawn, as in a press fit, give way by no more than they may, where they meet."""
        block = self.write("block.off", off(corners([0, 0, 0], [10, 10, 10]), SIDES))
        pin = self.write("pin.off", off(corners([9.9, 4, 4], [15, 6, 6]), SIDES))
        thin = self.write("thin.off", off(corners([0, 20, 0], [10, 20.01, 10]), SIDES))
        status, out, _ = self.run_tool(block, pin, thin, "--grid=0.01")
        self.assertEqual(status, 1)
        first = next(line for line in out.split("\n") if line.startswith("parts"))
        if planner.program():
            self.assertEqual(self.ask("look").stderr, "staat: " + first.split(":")[0] + "\n")
        parts = self.accepted(block, pin, thin, "--grid=0.01", "--clearance=pin=0.2")
        self.assertEqual(parts["pin"][0][0], (1000, 400, 400))
        self.assertEqual(parts["block"][0][-1], (1000, 1000, 1000))
        self.assertEqual(parts["thin"][0][-1], (1000, 2001, 1000))
        self.assertGreaterEqual(self.bounds()["pin"][1], 0.1)
        self.refused('no part has the name "nail"', block, pin, "--clearance=nail=0.2")

    def test_overlap_as_drawn(self) -> None:
        names = [
            self.write("a.off", off(corners([0, 0, 0], [2, 2, 2]), SIDES)),
            self.write("b.off", off(corners([1.5, 0, 0], [3, 2, 2]), SIDES)),
        ]
        status, out, _ = self.run_tool(*names)
        self.assertEqual(status, 1)
        self.assertIn(
            "parts 0 and 1 overlap in pieces 0 and 0: a and b, 0.5 deep; correct the model", out
        )
        self.assertIn("became polygons that differ", out)

    def test_copies_have_bounds_of_their_own(self) -> None:
        """One that lies on the grid, and one that is the same there but was drawn beside it."""
        cubes = [(corners([k, 0, 0], [k + 1, 1, 1]), SIDES) for k in (0, 3, 6.0004)]
        self.accepted(self.write("row.off", off(*both(*cubes))), "--each=solid", "--grid=0.001")
        bounds = self.bounds()
        self.assertEqual((bounds["row-0"], bounds["row-1"]), ((0, 0), (0, 0)))
        for bound in bounds["row-2"]:
            self.assertAlmostEqual(bound, 0.0004, places=6)

    def test_same_solids_are_cut_once(self) -> None:
        angle = both(
            *(([[x + 3 * k, y, z] for x, y, z in ANGLE_POINTS], ANGLE_FACES) for k in range(3))
        )
        parts = self.accepted(self.write("row.off", off(*angle)), "--each=solid", "--grid=1")
        first = parts["row-0"]
        for number, name in enumerate(("row-0", "row-1", "row-2")):
            self.assertEqual(
                parts[name], [[(x + 3 * number, y, z) for x, y, z in some] for some in first]
            )


def hull_volume(points: list[Point]) -> float:
    from scipy.spatial import ConvexHull

    return float(ConvexHull(numpy.array(points, float)).volume)


class Hulls(unittest.TestCase):
    def test_exact_hulls(self) -> None:
        """Hulls of points that are nearly plane, nearly in line, few or far, against turning planes alone."""
        draw = random.Random(1)

        def far() -> int:
            return draw.randint(-GREATEST, GREATEST)

        for trial in range(200):
            some = []
            for _ in range(draw.randint(4, 30)):
                x, y, step = far(), far(), draw.randint(0, 1)
                some.append(
                    [
                        (draw.randint(-2, 2), draw.randint(-2, 2), draw.randint(-2, 2)),
                        (x, y, far()),
                        (x, y, (x + y) // 3 + step),
                        (x, x + step, x // 2 + draw.randint(0, 1)),
                    ][trial % 4]
                )
            some = sorted(set(some))
            if len(some) >= 4 and hulls.spans_space(some):
                faces = hulls.exact_hull(some)
                self.assertTrue(hulls.is_hull(some, faces))
                self.assertEqual(set(faces), set(hulls.wrapped(some, set())))


class Lists(Case):
    def test_part_lists(self) -> None:
        """A list is read from any folder, with the places of its parts."""
        self.write("lists/cube.off", off(corners([0, 0, 0], [1, 1, 1]), SIDES))
        text = '{"parts":[{"name":"a","pieces":["cube.off"]},{"name":"b","pieces":["cube.off"],"at":[1,0,0]}]}'
        parts = self.accepted(self.write("lists/parts.json", text), "--grid=1")
        self.assertEqual(
            {name: some[0][0] for name, some in parts.items()}, {"a": (0, 0, 0), "b": (1, 0, 0)}
        )
        shutil.rmtree(self.path("out"))
        for text, why in (
            (
                '{"parts":[{"name":"a","pieces":["cube.off"],"color":"red"}]}',
                'part 0 has a member "color"',
            ),
            (
                '{"parts":[{"name":"a","pieces":["cube.off"]}],"unit":"mm"}',
                'the list has a member "unit"',
            ),
            ('{"parts":[{"name":"a","pieces":[]}]}', 'the "pieces" of part 0'),
            ('{"parts":[{"name":"a","pieces":["cube.off"],"at":[1,2]}]}', 'the "at" of part 0'),
            ('{"parts":[]}', "no part list"),
            ('{"parts":', "not JSON"),
        ):
            with self.subTest(why):
                self.refused(why, self.write("lists/bad.json", text))

    def test_staat_runs_in_the_folder(self) -> None:
        if planner.program() is None:
            self.skipTest("no built planner")
        self.accepted(self.write("cube.off", off(corners([0, 0, 0], [1, 1, 1]), SIDES)), "--grid=1")
        run = subprocess.run(
            [os.path.join(TOP, "staat-cad"), "run", self.path("out"), "look"],
            capture_output=True,
            text=True,
            check=False,
            cwd="/",
        )
        self.assertEqual(
            (run.returncode, run.stdout),
            (0, "part 0 pieces 1 points 8 name cube\nsound\n"),
            run.stderr,
        )


@unittest.skipUnless(os.path.isdir(STL), "the example is not exported")
class Example(Case):
    def without_call(self, text: str) -> str:
        """The text of a file without the call that made it, which names folders."""
        return "".join(line for line in text.splitlines(True) if not line.startswith(' "command":'))

    def test_pencil_box(self) -> None:
        names = [os.path.join(STL, name) for name in ("box", "lid", "pin", "pencil.stl")]
        parts = self.accepted("--grid=0.001", *names)
        self.assertEqual(
            [(name, len(some)) for name, some in parts.items()],
            [("box", 12), ("lid", 4), ("pin", 2), ("pencil", 1)],
        )
        kept = os.path.join(TOP, "tools", "example", "pieces")
        for name in os.listdir(kept):
            with open(os.path.join(kept, name)) as old, open(self.path("out/" + name)) as new:
                before, now = (self.without_call(file.read()) for file in (old, new))
                self.assertEqual(before, now, name)
        self.assertEqual(
            self.ask("plan").stdout,
            "move 2 along 0 0 1 away from 0 1 3\nmove 1 along 1 0 0 away from 0 3\nmove 3 along 0 0 1 away from 0\n"
            "moves 3\n",
        )


@unittest.skipUnless(os.path.isdir(GEOMVIEW), "the package geomview is not installed")
class Geomview(Case):
    def test_convex_ones(self) -> None:
        names = [
            "abstr.off",
            "br2.off",
            "cone.off",
            "cube.off",
            "dodec.off",
            "facecube.off",
            "hdodec.off",
        ]
        names += [
            "icosa.off",
            "octa.off",
            "tetra.off",
            "unitcube.off",
            "vertcube.off",
            "cube",
            "diamond",
            "dodec",
        ]
        names += ["tetra", "pieces/cube1.off", "textured/dodec.off"]
        for name in names:
            with self.subTest(name):
                self.assertEqual(len(self.accepted(os.path.join(GEOMVIEW, name))), 1)
        shutil.rmtree(self.path("out"))
        for name, why in (
            ("tref.off", "not closed"),
            ("cam.off", "not closed"),
            ("hypercube.off", "three coordinates"),
        ):
            with self.subTest(name):
                self.refused(why, os.path.join(GEOMVIEW, name))


if __name__ == "__main__":
    unittest.main()
