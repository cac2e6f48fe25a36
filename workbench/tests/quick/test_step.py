"""STEP files that gmsh's OpenCASCADE makes at test time: names, units, shared polygons, bounds."""
from __future__ import annotations

import math
import unittest
from typing import Any, Dict

import numpy

from workbench.tests import shapes
from workbench.tests.kit import Case

try:
    import gmsh
except (ImportError, OSError):
    gmsh = None


def pin_in_bore(occ: Any) -> None:
    """A block of 20 x 20 x 10 with a bore of radius 4, and a pin that fills it and stands out on both sides."""
    block, bore = occ.addBox(-10, -10, 0, 20, 20, 10), occ.addCylinder(0, 0, -1, 0, 0, 12, 4)
    occ.cut([(3, block)], [(3, bore)])
    occ.addCylinder(0, 0, -5, 0, 0, 20, 4)


BLOCK = shapes.bored_distance(shapes.box_distance([-10, -10, 0], [10, 10, 10]), 4)
PIN = shapes.rod_distance(4, -5, 15)


@unittest.skipUnless(gmsh, "python3-gmsh is not installed")
class Step(Case):
    def within_bounds(self, distances: Dict[str, shapes.Distance], many: int = 2000) -> None:
        """No point of the pieces lies farther from the solid than is told, and none of the solid from the pieces."""
        draw = numpy.random.default_rng(1)
        bounds, grid = self.bounds(), eval_fraction(self.model()["grid"])
        for name, pieces in self.pieces():
            distance = distances[name]
            over, under = bounds[name]
            rows = shapes.random_points(pieces, grid, draw, many // 10)
            self.assertLessEqual(float(distance(rows).max()), over + 1e-9, name)
            low, high = rows.min(axis=0), rows.max(axis=0)
            room = 0.1 * (high - low)
            rows = draw.uniform(low - room, high + room, (20 * many, 3))
            inside = rows[distance(rows) == 0]
            self.assertGreater(len(inside), many // 20, name)
            self.assertLessEqual(shapes.short_of(inside, pieces, grid), under + 1e-9, name)

    def test_pin_in_bore(self) -> None:
        """The pin and its bore have no clearance, and get one polygon, whatever the number of sides."""
        path = shapes.write_step(self.path("fit.step"), pin_in_bore, ("block", "pin"))
        for sides in (5, 12, 24, 48):
            with self.subTest(sides):
                self.accepted(path, f"--sides={sides}")
                self.assertEqual([name for name, _ in self.pieces()], ["block", "pin"])
                self.within_bounds({"block": BLOCK, "pin": PIN})
                sagitta = 4 * (1 - math.cos(math.pi / sides))
                self.assertAlmostEqual(self.bounds()["block"][0], sagitta, delta=0.001)
                self.assertAlmostEqual(self.bounds()["pin"][1], sagitta, delta=0.001)

    def test_chord(self) -> None:
        path = shapes.write_step(self.path("fit.step"), pin_in_bore, ("block", "pin"))
        self.accepted(path, "--chord=0.1")
        self.assertLessEqual(max(max(pair) for pair in self.bounds().values()), 0.1 + 0.001)
        self.assertEqual(len({point[:2] for point in self.parts()["pin"][0]}), 15)

    def test_sides_of_the_error(self) -> None:
        """Pieces contain their solids, or lie within them; then fits are wider, and nothing overlaps."""
        path = shapes.write_step(self.path("fit.step"), pin_in_bore, ("block", "pin"))
        self.accepted(path, "--side=under")
        self.assertEqual({over for over, _ in self.bounds().values()}, {0.0})
        self.within_bounds({"block": BLOCK, "pin": PIN})
        status, out, _ = self.run_tool(path, "--side=over")
        self.assertEqual({under for _, under in self.bounds().values()}, {0.0})
        self.assertEqual(status, 1)
        self.assertIn("parts 0 and 1 overlap", out)
        self.within_bounds({"block": BLOCK, "pin": PIN})

    def test_round_ones(self) -> None:
        """Cones, balls and rings, each with its bounds."""

        def make(occ: Any) -> None:
            occ.addCone(0, 0, 0, 0, 0, 10, 5, 2)
            occ.addSphere(30, 0, 0, 5)

        path = shapes.write_step(self.path("round.step"), make, ("cone", "ball"))
        for side in ("near", "over", "under"):
            with self.subTest(side):
                self.accepted(path, f"--side={side}")
                distances = {
                    "cone": shapes.cone_distance(5, 2, 10),
                    "ball": shapes.ball_distance((30, 0, 0), 5),
                }
                self.within_bounds(distances)

    def test_ball_in_socket(self) -> None:
        """A ball in a socket that is open above, and a cap of a ball: all are cut at the same latitudes."""

        def make(occ: Any) -> None:
            block, hollow = occ.addBox(-8, -8, -8, 16, 16, 11), occ.addSphere(0, 0, 0, 5)
            occ.cut([(3, block)], [(3, hollow)])
            occ.addSphere(0, 0, 0, 5)
            cap = occ.addSphere(30, 0, 0, 6)
            occ.cut([(3, cap)], [(3, occ.addBox(20, -10, -10, 20, 20, 12))])

        path = shapes.write_step(self.path("ball.step"), make, ("socket", "ball", "cap"))
        self.accepted(path, "--sides=8")
        box = shapes.box_distance([-8, -8, -8], [8, 8, 3])
        self.within_bounds(
            {
                "socket": lambda points: numpy.maximum(
                    box(points), 5 - numpy.linalg.norm(points, axis=1)
                ),
                "ball": shapes.ball_distance((0, 0, 0), 5),
                "cap": lambda points: numpy.maximum(
                    shapes.ball_distance((30, 0, 0), 6)(points), 2 - points[:, 2]
                ),
            }
        )
        self.assertLess(self.bounds()["ball"][1], 0.8)

    def test_turned(self) -> None:
        """A fit that stands askew, so that no corner lies on the grid."""

        def make(occ: Any) -> None:
            pin_in_bore(occ)
            occ.rotate([(3, 1), (3, 2)], 0, 0, 0, 1, 2, 3, 0.7)

        path = shapes.write_step(self.path("askew.step"), make, ("block", "pin"))
        self.accepted(path)
        axis = numpy.array([1, 2, 3]) / math.sqrt(14)
        skew = numpy.array([[0, -axis[2], axis[1]], [axis[2], 0, -axis[0]], [-axis[1], axis[0], 0]])
        turn = numpy.eye(3) + math.sin(0.7) * skew + (1 - math.cos(0.7)) * skew @ skew
        self.within_bounds(
            {"block": lambda points: BLOCK(points @ turn), "pin": lambda points: PIN(points @ turn)}
        )

    def test_slot(self) -> None:
        """A slot has corners of its own on its round ends."""

        def make(occ: Any) -> None:
            plate = occ.addBox(0, 0, 0, 20, 10, 3)
            ends = [occ.addCylinder(x, 5, -1, 0, 0, 5, 2) for x in (7, 13)]
            slot, _ = occ.fuse([(3, ends[0])], [(3, ends[1]), (3, occ.addBox(7, 3, -1, 6, 4, 5))])
            occ.cut([(3, plate)], slot)

        path = shapes.write_step(self.path("slot.step"), make, ("plate",))
        self.accepted(path)

        def distance(points: numpy.ndarray) -> numpy.ndarray:
            x = numpy.abs(numpy.clip(points[:, 0], 7, 13) - points[:, 0])
            inner = 2 - numpy.hypot(x, points[:, 1] - 5)
            return numpy.maximum(shapes.box_distance([0, 0, 0], [20, 10, 3])(points), inner)

        self.within_bounds({"plate": distance})

    def test_names(self) -> None:
        """The same name twice, and one with letters of another script."""

        def make(occ: Any) -> None:
            for k in range(3):
                occ.addBox(2 * k, 0, 0, 1, 1, 1)

        path = shapes.write_step(self.path("boxes.step"), make, ("foot", "foot", "Füße"))
        self.assertEqual(len(self.accepted(path)), 3)
        self.assertEqual([name for name, _ in self.pieces()][:2], ["foot", "foot-2"])
        self.assertIn("Füße", self.parts())
        self.assertEqual(list(self.accepted(path, "--each=file")), ["boxes"])

    def test_units(self) -> None:
        """The unit of the file is told and kept, and files in two units are refused."""

        def make(occ: Any) -> None:
            occ.addBox(0, 0, 0, 1, 2, 3)

        inches = shapes.write_step(self.path("inches.step"), make, ("box",), "inch")
        parts = self.accepted(inches, "--grid=1/64")
        self.assertEqual(self.model()["unit"], "inch")
        self.assertEqual(parts["box"][0][-1], (64, 128, 192))
        metric = shapes.write_step(self.path("metric.step"), make, ("box",))
        self.accepted(metric)
        self.assertEqual(self.model()["unit"], "mm")
        self.refused("export both in one unit", inches, metric)

    def test_bad_files(self) -> None:
        self.refused("cannot read", self.path("nowhere.step"))
        self.refused("OpenCASCADE cannot read it", self.write("text.step", "a text\n"))


def eval_fraction(text: str) -> float:
    from fractions import Fraction

    return float(Fraction(text))


if __name__ == "__main__":
    unittest.main()
