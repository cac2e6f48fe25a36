"""What is drawn of a part: the surface and the lines of the union of its pieces; how far the steps lead."""
from __future__ import annotations

import itertools
import unittest
from typing import Dict, Sequence, Tuple

import numpy

from workbench.certificate import Step
from workbench.named import Parts
from workbench.show.creases import Body, creases
from workbench.show.page import bounds_of, step_data
from workbench.show.plans import Plan, places
from workbench.show.scene import Part, colour_of, triangles
from workbench.show.surface import surface
from workbench.show.travel import Box, travels

from . import kit

SIDES = ((0, 1, 3, 2), (4, 6, 7, 5), (0, 4, 5, 1), (2, 3, 7, 6), (0, 2, 6, 4), (1, 5, 7, 3))


def box(low: Tuple[float, ...], high: Tuple[float, ...]) -> Body:
    return Body(numpy.array(list(itertools.product(*zip(low, high))), dtype=float), SIDES)


def volume(polygons: Sequence[numpy.ndarray]) -> float:
    """What polygons enclose that are wound outwards."""
    corners, _ = triangles(polygons)
    return float(numpy.linalg.det(corners).sum() / 6)


def area(polygons: Sequence[numpy.ndarray]) -> float:
    corners, _ = triangles(polygons)
    across = numpy.cross(corners[:, 1] - corners[:, 0], corners[:, 2] - corners[:, 0])
    return float(numpy.linalg.norm(across, axis=1).sum() / 2)


def length(lines: numpy.ndarray) -> float:
    return float(numpy.linalg.norm(lines[:, 1] - lines[:, 0], axis=1).sum())


class Drawn(unittest.TestCase):
    def drawn(self, bodies: Sequence[Body]) -> Tuple[float, float, float]:
        polygons = surface(bodies, 4)
        return volume(polygons), area(polygons), length(creases(bodies, 4))

    def test_boxes_side_by_side_are_one_box(self) -> None:
        two = [box((0, 0, 0), (1, 1, 1)), box((1, 0, 0), (3, 1, 1))]
        self.assertEqual(self.drawn(two), (3, 14, 20))

    def test_a_small_box_on_a_great_one(self) -> None:
        two = [box((0, 0, 0), (4, 4, 1)), box((1, 1, 1), (2, 2, 2))]
        self.assertEqual(self.drawn(two), (17, 52, 48))

    def test_pieces_around_a_hole(self) -> None:
        four = [
            box((0, 0, 0), (4, 1, 1)),
            box((0, 3, 0), (4, 4, 1)),
            box((0, 1, 0), (1, 3, 1)),
            box((3, 1, 0), (4, 3, 1)),
        ]
        self.assertEqual(self.drawn(four), (12, 48, 56))

    def test_pieces_that_share_only_an_edge_keep_it(self) -> None:
        two = [box((0, 0, 0), (1, 1, 1)), box((1, 1, 0), (2, 2, 1))]
        self.assertEqual(self.drawn(two), (2, 12, 23))

    def parts(self, name: str) -> Sequence[Part]:
        return kit.shown(name).parts

    def test_the_surfaces_of_the_gallery_enclose_the_pieces(self) -> None:
        for name in kit.products():
            for part in self.parts(name):
                with self.subTest(name, part=part.name):
                    pieces = sum(volume(surface([piece], 1e-9)) for piece in part.pieces)
                    self.assertAlmostEqual(volume(part.surface) / pieces, 1, 9)
                    self.uncovered(part)

    def uncovered(self, part: Part) -> None:
        """A little before the middle of each polygon there is no piece of the part."""
        extent = float((part.points.max(axis=0) - part.points.min(axis=0)).max())
        for polygon in part.surface:
            _, normals = triangles([polygon])
            if len(normals):
                point = polygon.mean(axis=0) + 1e-4 * extent * normals[0]
                for piece in part.pieces:
                    outwards, levels = piece.planes
                    self.assertTrue((outwards @ point > levels).any())

    def test_each_part_has_a_colour_of_its_own(self) -> None:
        self.assertEqual(len({colour_of(number) for number in range(64)}), 64)


class Words(unittest.TestCase):
    """Parts that are the same are counted where many are meant."""

    def setUp(self) -> None:
        names = ["rack", "lid", *(f"peg-{number}" for number in range(1, 9))]
        same = [("rack", [0]), ("lid", [1]), ("peg", list(range(2, 10)))]
        self.parts = Parts(names, same)

    def step(self, moved: Sequence[int], rest: Sequence[int]) -> Dict[str, str]:
        words: Dict[str, str] = step_data(Step(tuple(moved), (0, 0, 1), tuple(rest)), self.parts)[
            "words"
        ]
        return words

    def test_of_steps(self) -> None:
        all_others = self.step([9], range(9))
        self.assertEqual(all_others, {"moved": "peg-8", "rest": "all others"})
        many = self.step([0], range(1, 9))
        self.assertEqual(many["rest"], "seven of eight pegs and lid")
        few = self.step([2, 3, 4], [0, 1])
        self.assertEqual(few, {"moved": "peg-1, peg-2 and peg-3", "rest": "rack and lid"})

    def test_of_bounds(self) -> None:
        told = [{"pieces": 1, "over": 0.1 * number, "under": 0.0} for number in range(10)]
        told[0]["pieces"] = 5
        rows = bounds_of({"parts": told}, self.parts)
        self.assertEqual([row["name"] for row in rows], ["rack", "lid", "eight pegs"])
        self.assertEqual((rows[2]["pieces"], rows[2]["over"]), (1, 0.1 * 9))


class Travel(unittest.TestCase):
    def test_steps_end_where_explode_says(self) -> None:
        for name in kit.products():
            said = kit.planned(name)
            if said.stuck:
                continue
            with self.subTest(name):
                plan = Plan(
                    tuple(
                        Step(
                            tuple(move.moved),
                            (move.along[0], move.along[1], move.along[2]),
                            tuple(move.rest),
                        )
                        for move in said.moves
                    )
                )
                boxes = [part.box for part in Drawn().parts(name)]
                rows = places(plan, travels(plan, boxes), len(boxes))
                self.assertEqual(rows, said.places())

    def test_a_side_that_is_clear_already_stays(self) -> None:
        boxes = [Box((0, 0, 0), (1, 1, 1)), Box((5, 0, 0), (6, 1, 1))]
        self.assertEqual(travels(Plan((Step((1,), (2, 0, 0), (0,)),)), boxes), [0])
        self.assertEqual(travels(Plan((Step((1,), (-2, 0, 0), (0,)),)), boxes), [4])
