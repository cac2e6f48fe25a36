"""Some models that nobody here made: AS1, and a few of OpenSCAD, CGAL and geomview, with random points of each.

The tests in workbench/tests/long try many more, and `/usr/bin/python3 -m workbench.tests.tried` all.
"""
from __future__ import annotations

import os
import shutil
import unittest

from workbench.tests import models
from workbench.tests.judging import AS1, Judged, processor_seconds

try:
    import gmsh
except (ImportError, OSError):
    gmsh = None

CLOSED = "corner_poly cross star 3torus".split()
OPEN = "cube-ouvert corner_with_hole".split()
EXAMPLES = "LetterBlock example008 example014".split()
POLYHEDRA = "cuboctahedron rhombitruncated_icosidodecahedron".split()


@unittest.skipUnless(gmsh and os.path.isfile(AS1), "python3-gmsh or gmsh-doc is not installed")
class As1(Judged):
    def test_as1(self) -> None:
        """All 18 solids with their names, in at most 20 seconds of a processor, no two overlap, and bounds hold."""
        path = self.path("as1.stp")
        models.unzipped(AS1, path)
        began = processor_seconds()
        self.assertTrue(self.answered(path))
        self.assertLess(processor_seconds() - began, 20)
        names = [name for name, _ in self.pieces()]
        self.assertEqual(len(names), 18)
        self.assertEqual(sum(1 for name in names if name.endswith("/BOLT")), 6)
        self.assertIn("ROD-ASSEMBLY/NUT::1", names)
        self.assertLess(max(max(pair) for pair in self.bounds().values()), 0.4)
        self.round_ones_held(path, ("ROD-ASSEMBLY/NUT::1", "ROD-ASSEMBLY/ROD"))


@unittest.skipUnless(os.path.isfile(models.CGAL), "libcgal-demo is not installed")
class Cgal(Judged):
    def test_meshes(self) -> None:
        found = models.cgal_models()
        self.all_answered(found, CLOSED, CLOSED)
        self.none_answered(found, OPEN)


@unittest.skipUnless(shutil.which("openscad"), "openscad is not installed")
class OpenScad(Judged):
    def test_examples(self) -> None:
        self.all_answered(models.openscad_models(), EXAMPLES, EXAMPLES)


@unittest.skipUnless(os.path.isdir(models.GEOMVIEW), "geomview is not installed")
class Geomview(Judged):
    def test_polyhedra(self) -> None:
        """Half-regular solids, convex but for rounding; the rounder ones in more pieces than one."""
        for name in POLYHEDRA:
            with self.subTest(name):
                path = os.path.join(models.GEOMVIEW, "polyhedra", name)
                self.assertTrue(self.answered(path))
                self.tried(path)


if __name__ == "__main__":
    unittest.main()
