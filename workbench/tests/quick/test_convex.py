"""Tests of the decomposition: what is exact is so, bounds are never beaten, and what cannot be cut is told."""
from __future__ import annotations

import itertools
import math
import unittest
from typing import List, Sequence, Tuple
from unittest import mock

import numpy

from workbench.convex import Cut, cgal, clear, decompose, frame_of
from workbench.convex.decomposing import DRAWN
from workbench.convex.frames import frames_of
from workbench.convex.outlines import convex_parts, twice_area
from workbench.overlaps import overlaps
from workbench.solid import Mesh, Options, Piece, Pieces, Refusal, Solid
from workbench.tests import solids
from workbench.tests.solids import (
    SQUARE,
    beaten,
    blocks,
    prism,
    ring,
    solid,
    star,
    turned,
    twisted,
)

BORE = [SQUARE, ring(12, 40, hole=True)]
# Cubes in one part that also meet in an edge, and in a corner.
EDGE = [(0, 0, 0), (1, 1, 0), (0, 0, 1), (1, 0, 1), (1, 1, 1)]
CORNER = [
    (0, 0, 0),
    (-1, 0, 0),
    (-1, 0, 1),
    (-1, 0, 2),
    (-1, 1, 2),
    (0, 1, 2),
    (1, 1, 2),
    (1, 1, 1),
]
CUBES = [(x, y, z) for x in range(3) for y in range(3) for z in range(3)]


def has_cgal() -> bool:
    try:
        return bool(cgal.built())
    except Refusal:
        return False


def plus(pieces: Pieces, step: Sequence[int]) -> List[Piece]:
    return [
        Piece(piece.points + numpy.array(step, numpy.int64), piece.faces) for piece in pieces.pieces
    ]


class Outlines(unittest.TestCase):
    def parted(self, *loops: Sequence[Tuple[int, int]]) -> int:
        parts = convex_parts(loops)
        assert parts is not None
        self.assertTrue(all(map(solids.is_convex, parts)))
        self.assertEqual(sum(map(twice_area, parts)), sum(map(twice_area, loops)))
        return len(parts)

    def test_few_parts(self) -> None:
        self.assertEqual(self.parted(SQUARE), 1)
        self.assertEqual(self.parted([(0, 0), (2, 0), (2, 1), (1, 1), (1, 2), (0, 2)]), 2)
        self.assertEqual(self.parted(*BORE), 12)
        self.assertEqual(
            self.parted(SQUARE, ring(8, 20, (-50, 0), True), ring(8, 20, (50, 0), True)), 14
        )

    def test_spots_on_edges_stay(self) -> None:
        parts = convex_parts([[(0, 0), (1, 0), (2, 0), (2, 2), (0, 2)]])
        self.assertEqual(parts, [[(0, 0), (1, 0), (2, 0), (2, 2), (0, 2)]])

    def test_random_stars(self) -> None:
        draw = numpy.random.default_rng(5)
        for many in (5, 9, 20, 60):
            radii = draw.integers(100, 10000, many)
            spots = [
                (
                    round(r * math.cos(2 * math.pi * k / many)),
                    round(r * math.sin(2 * math.pi * k / many)),
                )
                for k, r in enumerate(radii.tolist())
            ]
            self.parted(spots)

    def test_no_region(self) -> None:
        self.assertIsNone(convex_parts([SQUARE, [(200, 0), (210, 10), (220, 0)]]))


class Exact(unittest.TestCase):
    """Solids that are cut on the grid: the pieces are the solid."""

    def exact(self, mesh: Mesh, pieces: int) -> Cut:
        found = decompose(solid(mesh, 100), Options())
        self.assertEqual((found.over, found.under, len(found.pieces)), (0, 0, pieces), found.note)
        self.assertAlmostEqual(solids.volume_of(found, 100), solids.six_volumes(mesh) / 6, places=6)
        self.assertTrue(all(len(piece.points) <= 64 for piece in found.pieces))
        return found

    def test_boxes(self) -> None:
        self.exact(blocks([(0, 0, 0)]), 1)
        self.exact(blocks([(0, 0, 0), (1, 0, 0), (0, 0, 1)]), 2)
        self.exact(blocks([(0, 0, 0), (1, 0, 0), (2, 0, 0), (0, 0, 1), (2, 0, 1)]), 3)

    def test_hollow_box(self) -> None:
        cells = [cell for cell in CUBES if cell != (1, 1, 1)]
        self.exact(blocks(cells), 6)

    def test_box_with_crossed_holes(self) -> None:
        cells = [cell for cell in CUBES if cell.count(1) < 2]
        self.exact(blocks(cells), 12)

    def test_two_boxes_in_one_solid(self) -> None:
        self.exact(blocks([(0, 0, 0), (4, 0, 0)]), 2)

    def test_boxes_that_meet_in_an_edge(self) -> None:
        self.exact(blocks([(0, 0, 0), (1, 1, 0)]), 2)

    def test_prism_with_holes(self) -> None:
        self.exact(prism(BORE, 0, 50), 12)
        many = [ring(6, 15, (x, y), True) for x in (-50, 0, 50) for y in (-50, 0, 50)]
        self.exact(prism([SQUARE, *many], 0, 50), 26)

    def test_cylinder_of_too_many_corners(self) -> None:
        self.exact(prism([ring(100, 1000)], 0, 50), 4)

    def test_random_blocks(self) -> None:
        draw = numpy.random.default_rng(7)
        for _ in range(6):
            cells = [cell for cell in CUBES if draw.random() < 0.6]
            mesh = blocks(cells)
            found = decompose(solid(mesh, 100), Options())
            self.assertEqual((found.over, found.under), (0, 0))
            self.assertAlmostEqual(
                solids.volume_of(found, 100), solids.six_volumes(mesh) / 6, places=6
            )
            self.assertLessEqual(len(found.pieces), len(cells))


class Bolts(unittest.TestCase):
    def test_bolt_and_nut(self) -> None:
        head, shaft = ring(6, 80), ring(12, 40)
        bolt = solids.both(prism([head], -30, 0), prism([shaft], 0, 200))
        nut = prism([ring(6, 80), shaft[::-1]], 100, 150)
        found = [
            decompose(solid(mesh, 100, name), Options())
            for mesh, name in ((bolt, "bolt"), (nut, "nut"))
        ]
        self.assertEqual([len(some.pieces) for some in found], [2, 12])
        self.assertEqual(overlaps([some.pieces for some in found]), [])


@unittest.skipUnless(has_cgal(), "no CGAL")
class Rough(unittest.TestCase):
    """Solids whose pieces are not just the solid: their bounds hold."""

    def held(self, of: Solid, options: Options, seed: int = 3) -> Pieces:
        found = decompose(of, options)
        (cleared,) = clear([of], [found], options)
        for some in (found, cleared):
            over, under = beaten(of, some, numpy.random.default_rng(seed))
            self.assertLessEqual(over, 0, (options.side, some.note))
            self.assertLessEqual(under, 0, (options.side, some.note))
            self.assertTrue(all(len(piece.points) <= options.corners for piece in some.pieces))
        if options.side == "over":
            self.assertEqual(found.under, 0)
        if options.side == "under":
            self.assertEqual(found.over, 0)
        return cleared

    def test_random_stars(self) -> None:
        for seed, side in enumerate(("near", "over", "under")):
            of = solid(star(numpy.random.default_rng(seed), 12), 100)
            found = self.held(of, Options(side=side))
            if side == "near":
                self.assertLess(max(found.over, found.under), 0.05)

    def test_joined_with_a_tolerance(self) -> None:
        of = solid(star(numpy.random.default_rng(8), 20, 0.9), 100)
        rough = self.held(of, Options(join=5.0))
        self.assertLess(len(rough.pieces), len(decompose(of, Options()).pieces))

    def test_what_touches_itself(self) -> None:
        """Along an edge, or in a corner, where no cut on the grid leads: nothing is refused, and bounds hold."""
        for cells in (EDGE, CORNER):
            of = solid(twisted(blocks(cells), 0.03), 100)
            found = self.held(of, Options())
            self.assertIn("cut by CGAL", found.note)
            self.assertLess(max(found.over, found.under), 0.05)
            size = solids.volume_of(found, 100) / (
                solids.six_volumes(twisted(blocks(cells), 0.03)) / 6
            )
            self.assertAlmostEqual(size, 1, delta=0.01)

    def test_nearly_convex(self) -> None:
        """How far the hull goes beyond it is told, and with that as the tolerance it is one piece."""
        of = solid(star(numpy.random.default_rng(0), 20, 0.93), 100)
        found = decompose(of, Options())
        self.assertGreater(len(found.pieces), 1)
        self.assertLess(found.dent, 4)
        self.assertEqual(len(self.held(of, Options(join=found.dent)).pieces), 1)
        self.assertGreater(len(self.held(of, Options(join=found.dent / 8)).pieces), 1)

    def test_turned_bore_is_cut_as_drawn(self) -> None:
        for side in ("near", "over", "under"):
            of = solid(turned(prism(BORE, 0, 50), 10, 20, 30), 100)
            self.assertEqual(len(self.held(of, Options(side=side)).pieces), 12)

    def test_ball(self) -> None:
        angles = [
            (math.pi * (i + 1) / 7, 2 * math.pi * j / 12) for i in range(6) for j in range(12)
        ]
        points = [(0.0, 0.0, 50.0), (0.0, 0.0, -50.0)]
        points += [
            (50 * math.sin(a) * math.cos(b), 50 * math.sin(a) * math.sin(b), 50 * math.cos(a))
            for a, b in angles
        ]
        faces = [[0, 2 + j, 2 + (j + 1) % 12] for j in range(12)]
        faces += [[1, 62 + (j + 1) % 12, 62 + j] for j in range(12)]
        for i, j in itertools.product(range(5), range(12)):
            row, after = 2 + 12 * i, 2 + 12 * i + 12
            faces.append([row + j, after + j, after + (j + 1) % 12, row + (j + 1) % 12])
        of = solid(Mesh(numpy.array(points), faces), 100)
        self.assertLess(len(self.held(of, Options()).pieces), 8)
        self.held(of, Options(side="over"))

    def test_whole_solids_keep_their_own_bounds(self) -> None:
        mesh = prism(BORE, 0, 50)
        of = solid(mesh, 1)
        of.whole = Mesh(mesh.points.astype(numpy.int64), mesh.faces)
        of.whole_over, of.whole_under = 0.25, 0.5
        found = decompose(of, Options())
        self.assertEqual((found.over, found.under), (0.25, 0.5))

    def test_drawn_on_the_grid_before_it_was_turned(self) -> None:
        """Slanted walls stay plane alone on the grid that a solid was drawn on, which a file of few digits tells."""
        mesh = blocks([(0, 0, 0), (1, 0, 0), (2, 0, 0), (0, 1, 0), (0, 0, 1)])
        mesh.points[:, 0] += mesh.points[:, 2] / 2
        drawn = len(decompose(solid(mesh, 1), Options()).pieces)
        there = turned(mesh, 10, 20, 30)
        there.points = there.points.round(4)
        found = self.held(solid(there, 1000), Options())
        self.assertEqual((len(found.pieces), found.note), (drawn, DRAWN))

    def test_frame_of_the_product(self) -> None:
        """A solid without walls at right angles is cut in the frame of the product."""
        frame = frame_of([turned(prism([SQUARE], 0, 50), 10, 20, 30)])
        assert frame is not None
        alone = star(numpy.random.default_rng(1), 9)
        (found,) = frames_of(alone, frame)
        self.assertIs(found, frame)
        self.assertEqual(frames_of(alone, None), [])
        self.assertEqual(len(frames_of(turned(prism(BORE, 0, 50), 10, 20, 30), frame)), 1)

    def test_it_stops_in_time(self) -> None:
        of = solid(star(numpy.random.default_rng(1), 1500), 1000)
        with self.assertRaisesRegex(Refusal, "takes CGAL over"):
            decompose(of, Options(seconds=1.0))

    def test_a_fault_of_the_program_is_told(self) -> None:
        of = solid(star(numpy.random.default_rng(1), 9), 1000)
        with mock.patch.object(cgal, "built", lambda: "/bin/false"):
            with self.assertRaisesRegex(Refusal, "CGAL could not"):
                decompose(of, Options())


class Refused(unittest.TestCase):
    def test_open(self) -> None:
        mesh = blocks([(0, 0, 0)])
        with self.assertRaisesRegex(Refusal, "not closed at 4 edges"):
            decompose(solid(Mesh(mesh.points, mesh.faces[1:])), Options())

    def test_flat(self) -> None:
        with self.assertRaisesRegex(Refusal, "finer"):
            decompose(solid(prism([SQUARE], 0, 0.001), 1), Options())

    def test_beyond_the_limits(self) -> None:
        with self.assertRaisesRegex(Refusal, "262144"):
            decompose(solid(blocks([(0, 0, 0)], 1e6)), Options())

    @unittest.skipUnless(has_cgal(), "no CGAL")
    def test_crossing(self) -> None:
        mesh = star(numpy.random.default_rng(1), 12)
        mesh.points[0] = -3 * mesh.points[0]
        with self.assertRaisesRegex(Refusal, "crosses itself"):
            decompose(solid(mesh), Options())


class Neighbours(unittest.TestCase):
    def cleared(self, meshes: Sequence[Mesh], options: Options, scale: int = 100) -> List[Pieces]:
        some = [solid(mesh, scale, str(number)) for number, mesh in enumerate(meshes)]
        made = clear(some, [decompose(one, options) for one in some], options)
        for one, found in zip(some, made):
            self.assertLessEqual(max(beaten(one, found, numpy.random.default_rng(2))), 0)
        self.overlapping = len(overlaps([found.pieces for found in made]))
        return made

    def test_pin_in_bore(self) -> None:
        for sides in (12, 24, 48):
            pin = prism([ring(sides, 40)], -50, 150)
            self.cleared([pin, prism([SQUARE, ring(sides, 40, hole=True)], 0, 50)], Options())
            self.assertEqual(self.overlapping, 0)

    def test_turned_product(self) -> None:
        pin, bore = prism([ring(12, 40)], -50, 150), prism(BORE, 0, 50)
        for angles in ((10, 20, 30), (0, 0, 17)):
            found = self.cleared([turned(pin, *angles), turned(bore, *angles)], Options())
            self.assertEqual(self.overlapping, 0)
            self.assertLess(max(max(one.over, one.under) for one in found), 0.05)

    def test_polygons_that_differ_need_a_clearance(self) -> None:
        pin, bore = prism([ring(24, 40)], -50, 150), prism([SQUARE, ring(17, 40, hole=True)], 0, 50)
        self.cleared([pin, bore], Options())
        self.assertGreater(self.overlapping, 0)
        found = self.cleared([pin, bore], Options(clearance={"": 2.0}))
        self.assertEqual(self.overlapping, 0)
        self.assertLess(found[0].under, 2.0)
        found = self.cleared([pin, bore], Options(clearance={"1": 2.0}))
        self.assertEqual((self.overlapping, found[0].under), (0, 0))

    def test_a_thin_piece_elsewhere_stays(self) -> None:
        thin = solids.moved(blocks([(0, 0, 0)], 0.04), 50, 0, 0)
        wide = solids.moved(blocks([(0, 0, 0)], 20.0), 9, 0, 0)
        found = self.cleared(
            [solids.both(blocks([(0, 0, 0)]), thin), wide], Options(clearance={"0": 1.5})
        )
        self.assertEqual(self.overlapping, 0)
        self.assertEqual(len(found[0].pieces), 2)
        self.assertLessEqual(found[0].under, 1.01)
        self.assertEqual(found[1].under, 0)

    def test_joins_reach_no_neighbour(self) -> None:
        loop = [(0, 0), (100, 0), (100, 50), (52, 50), (50, 48), (48, 50), (0, 50)]
        notched, free = prism([loop], 0, 20), Options(join=3.0)
        self.assertEqual(len(self.cleared([notched], free)[0].pieces), 1)
        key = prism([[(50, 48), (52, 50), (50, 60), (48, 50)]], 0, 20)
        found = self.cleared([notched, key], free)
        self.assertEqual(self.overlapping, 0)
        self.assertGreater(len(found[0].pieces), 1)

    def test_moved_pieces_take_their_cells_along(self) -> None:
        of = solid(turned(prism(BORE, 0, 50), 0, 0, 17), 100)
        found = decompose(of, Options())
        there = solid(solids.moved(of.exact, 300, 0, 0), 100) if of.exact else of
        away = Cut(
            plus(found, (30000, 0, 0)),
            found.over,
            found.under,
            found.note,
            found.cells,
            found.beyond,
        )
        away.anchor, away.exact = found.anchor, found.exact
        (cleared,) = clear([there], [away], Options(join=1.0))
        self.assertLessEqual(max(beaten(there, cleared, numpy.random.default_rng(2))), 0)


if __name__ == "__main__":
    unittest.main()
