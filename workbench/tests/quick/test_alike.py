"""Solids that are alike but for their place are cut once; solids that touch are told apart."""
from __future__ import annotations

import unittest
from typing import List, Optional, Sequence
from unittest import mock

import numpy

from workbench import snapping
from workbench.alike import groups_of
from workbench.closing import shells_of, volume
from workbench.convex import cgal
from workbench.cut import cut
from workbench.overlaps import overlaps
from workbench.solid import Mesh, Options, Pieces, Refusal, Solid
from workbench.tests import solids
from workbench.tests.solids import SQUARE, beaten, blocks, both, moved, prism, ring, star, turned

BORED = prism([SQUARE, ring(12, 40, hole=True)], 0, 50)
ROUGH = star(numpy.random.default_rng(1), 40)


def has_cgal() -> bool:
    try:
        return bool(cgal.built())
    except Refusal:
        return False


def shuffled(mesh: Mesh, seed: int) -> Mesh:
    """The same surface, its points, faces and corners in another order."""
    draw = numpy.random.default_rng(seed)
    order = draw.permutation(len(mesh.points))
    place = numpy.argsort(order)
    faces: List[List[int]] = []
    for number in draw.permutation(len(mesh.faces)):
        face = [int(place[corner]) for corner in mesh.faces[number]]
        start = int(draw.integers(len(face)))
        faces.append(face[start:] + face[:start])
    return Mesh(mesh.points[order], faces)


def read(mesh: Mesh, name: str, scale: int = 500) -> Solid:
    """The solid as it would be read."""
    solid = solids.solid(mesh, scale, name)
    solid.whole = snapping.on_grid(mesh, solid.scale)
    if solid.whole is not None:
        way = float(snapping.moved(mesh, solid.whole, solid.scale).max())
        solid.whole_over = solid.whole_under = way
    return solid


class Turned(unittest.TestCase):
    def product(self, mesh: Mesh) -> List[Solid]:
        """A solid as it was drawn, moved, turned by a right angle, and turned in space."""
        return [
            read(mesh, "drawn"),
            read(moved(mesh, 300, 0, 0), "moved"),
            read(turned(shuffled(mesh, 3), 90, 0, 0), "upright"),
            read(moved(turned(shuffled(mesh, 4), 10, 20, 30), 0, 300, 0), "turned"),
        ]

    def cut_all(self, some: Sequence[Solid], side: str = "near") -> List[Pieces]:
        found: List[Pieces] = []
        for solid, pieces in zip(some, cut(some, Options(side=side), 1)):
            assert isinstance(pieces, Pieces), pieces
            over, under = beaten(solid, pieces, numpy.random.default_rng(2), 10)
            self.assertLessEqual(max(over, under), 0, (solid.name, side))
            found.append(pieces)
        return found

    def test_all_are_found(self) -> None:
        for mesh in (BORED, ROUGH):
            (group,) = groups_of(self.product(mesh))
            self.assertEqual([number for number, _ in group.others], [1])
            self.assertEqual(
                [(other.first, turn.whole) for other, turn in group.turned], [(2, True), (3, False)]
            )
            self.assertLess(max(turn.off for _, turn in group.turned), 1e-6)

    def test_mirrored_ones_and_others_are_not_alike(self) -> None:
        mirrored = Mesh(ROUGH.points * [-1, 1, 1], [face[::-1] for face in ROUGH.faces])
        bent = Mesh(ROUGH.points.copy(), ROUGH.faces)
        bent.points[0] *= 0.9
        some = [read(ROUGH, "one"), read(mirrored, "two"), read(bent, "three")]
        self.assertEqual(len(groups_of(some)), 3)

    def test_what_is_exact_stays_so(self) -> None:
        found = self.cut_all(self.product(BORED))
        self.assertEqual([len(pieces.pieces) for pieces in found], [12] * 4)
        self.assertEqual([(pieces.over, pieces.under) for pieces in found[:3]], [(0, 0)] * 3)
        self.assertEqual(found[2].note, "cut like one that is turned")
        self.assertEqual(overlaps([pieces.pieces for pieces in (found[0], found[3])]), [])

    @unittest.skipUnless(has_cgal(), "no CGAL")
    def test_cgal_is_asked_once(self) -> None:
        with mock.patch.object(cgal, "built", wraps=cgal.built) as built:
            found = self.cut_all(self.product(ROUGH))
        self.assertEqual(built.call_count, 1)
        self.assertEqual(found[0].note, "cut by CGAL")
        self.assertEqual({len(pieces.pieces) for pieces in found}, {len(found[0].pieces)})

    @unittest.skipUnless(has_cgal(), "no CGAL")
    def test_sides(self) -> None:
        drawn, _, _, there = self.product(star(numpy.random.default_rng(3), 14))
        for side, least in (("over", "under"), ("under", "over")):
            for pieces in self.cut_all([drawn, there], side):
                self.assertEqual(getattr(pieces, least), 0)


class Touching(unittest.TestCase):
    def sizes(self, mesh: Mesh, merge: Optional[float] = None) -> List[float]:
        """The volumes of the closed surfaces in a mesh; none of them may be open."""
        found = shells_of(mesh, merge)
        self.assertEqual([shell.gaps for shell in found], [0] * len(found))
        return sorted(round(volume(shell.mesh), 6) for shell in found)

    def test_along_an_edge(self) -> None:
        self.assertEqual(self.sizes(blocks([(0, 0, 0), (1, 1, 0)])), [1000, 1000])

    def test_along_faces(self) -> None:
        pair = both(blocks([(0, 0, 0)]), moved(blocks([(0, 0, 0)]), 10, 0, 0))
        at: dict[tuple[float, ...], int] = {}
        places = [at.setdefault(tuple(row), len(at)) for row in pair.points.tolist()]
        merged = Mesh(
            numpy.array(list(at)), [[places[corner] for corner in face] for face in pair.faces]
        )
        self.assertEqual(self.sizes(merged), [1000, 1000])

    def test_two_edges_of_one_solid(self) -> None:
        """Four cubes of eight touch along edges, and two more lead from one to another."""
        cells = [(0, 0, 0), (1, 1, 0), (0, 1, 1), (1, 0, 1)]
        self.assertEqual(self.sizes(blocks(cells)), [1000] * 4)
        self.assertEqual(sum(self.sizes(blocks([*cells, (0, 0, 1)]))), 5000)

    def test_open_ones_stay_open(self) -> None:
        mesh = blocks([(0, 0, 0), (1, 1, 0)])
        found = shells_of(Mesh(mesh.points, mesh.faces[1:]))
        self.assertTrue(all(shell.gaps for shell in found))


if __name__ == "__main__":
    unittest.main()
