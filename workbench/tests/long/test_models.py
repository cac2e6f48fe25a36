"""More models that nobody here made than workbench/tests/packaged has.

All of them are tried by `/usr/bin/python3 -m workbench.tests.tried`, which takes hours.
"""
from __future__ import annotations

import os
import shutil
import unittest

from workbench.tests import models
from workbench.tests.judging import AS1, BLENDER, FREECAD, Judged, processor_seconds

try:
    import gmsh
except (ImportError, OSError):
    gmsh = None

# Closed meshes of CGAL of few faces, and of one that crosses itself on no grid but touches itself.
CLOSED = (
    "reference_tetrahedron tet-shuffled tetrahedron pyramid beam cube4-shuffled cube_quad cube_poly prim corner_poly "
    "hedra octahedron cheese-box cube-shuffled cube fandisk-box horizons-domain small_cube translated-cube corner "
    "corner_with_sharp_edge icosahedron quint_tris 3torus star P torus_quad hole cross_quad tripod cross u joint "
    "blob-closed ellipsoid geosphere itemb pipe sphere"
).split()
# Those of which points are tried.
TRIED = "corner_poly star cross u blob-closed 3torus tripod hole".split()
# Open ones.
OPEN = "hedra_open cube-ouvert corner_with_hole nefertiti patch-21".split()
EXAMPLES = (
    "LetterBlock assert offset example001 example002 example003 example004 example005 example007 example008 example009 "
    "example011 example012 example013 example014 example016"
).split()
EXAMPLES_TRIED = "example001 example002 example008 example014 LetterBlock".split()


@unittest.skipUnless(gmsh and os.path.isfile(AS1), "python3-gmsh or gmsh-doc is not installed")
class As1(Judged):
    def setUp(self) -> None:
        super().setUp()
        self.step = self.path("as1.stp")
        models.unzipped(AS1, self.step)

    def test_as1(self) -> None:
        """All 18 solids with their names, in at most 20 seconds of a processor, and no two overlap."""
        for words in ((), ("--sides=10",), ("--side=under",)):
            began = processor_seconds()
            self.assertTrue(self.answered(self.step, *words))
            self.assertLess(processor_seconds() - began, 20)
            names = [name for name, _ in self.pieces()]
            self.assertEqual(len(names), 18)
            self.assertEqual(sum(1 for name in names if name.endswith("/BOLT")), 6)
            self.assertIn("ROD-ASSEMBLY/NUT::1", names)
            self.assertIn("PLATE", names)
            self.assertLess(max(max(pair) for pair in self.bounds().values()), 0.4)

    def test_bounds(self) -> None:
        """One of each kind of part, against a mesh that is much finer than the polygons."""
        for words in ((), ("--side=over",), ("--side=under",)):
            self.run_tool(self.step, *words)
            names = ("PLATE", "L-BRACKET-ASSEMBLY::1/L-BRACKET", "ROD-ASSEMBLY/NUT::1")
            self.round_ones_held(self.step, names)

    def test_subassemblies(self) -> None:
        self.assertTrue(self.answered(self.step, "--each=1", "--sides=6"))
        names = [name for name, _ in self.pieces()]
        self.assertEqual(
            names, ["ROD-ASSEMBLY", "L-BRACKET-ASSEMBLY::1", "PLATE", "L-BRACKET-ASSEMBLY::2"]
        )

    def test_free_forms(self) -> None:
        """A part of splines alone, of which balls and cylinders are fitted and the rest is meshed."""
        path = self.path("component8.step")
        models.unzipped(os.path.join(models.GMSH, models.GZIPPED[1]), path)
        self.answered(path)


@unittest.skipUnless(os.path.isfile(models.CGAL), "libcgal-demo is not installed")
class Cgal(Judged):
    def test_closed_meshes(self) -> None:
        """All of them become pieces."""
        self.all_answered(models.cgal_models(), CLOSED, TRIED)

    def test_open_meshes(self) -> None:
        self.none_answered(models.cgal_models(), OPEN)


@unittest.skipUnless(shutil.which("openscad"), "openscad is not installed")
class OpenScad(Judged):
    def test_examples(self) -> None:
        """All of them become pieces."""
        self.all_answered(models.openscad_models(), EXAMPLES, EXAMPLES_TRIED)


@unittest.skipUnless(os.path.isdir(models.GEOMVIEW), "geomview is not installed")
class Geomview(Judged):
    def test_polyhedra(self) -> None:
        """Regular and half-regular solids, convex but for rounding; the rounder ones in more pieces than one."""
        folder = os.path.join(models.GEOMVIEW, "polyhedra")
        for name in sorted(os.listdir(folder)):
            with self.subTest(name):
                self.assertTrue(self.answered(os.path.join(folder, name)))
                self.tried(os.path.join(folder, name))

    def test_not_convex(self) -> None:
        for name in ("mushroom.off", "dodec2.off"):
            with self.subTest(name):
                self.answered(os.path.join(models.GEOMVIEW, name))


@unittest.skipUnless(shutil.which(BLENDER[0]), "blender is not installed")
class Blender(Judged):
    def test_obj(self) -> None:
        """Both of its exporters."""
        self.written_by(BLENDER, ["blender.obj", "blender-old.obj"])


@unittest.skipUnless(shutil.which(FREECAD[0]), "freecad is not installed")
class FreeCad(Judged):
    def test_obj(self) -> None:
        self.written_by(FREECAD, ["freecad.obj"])


if __name__ == "__main__":
    unittest.main()
