"""What the tests of models that nobody here made share: whether there is an answer, and whether its bounds hold."""
from __future__ import annotations

import os
import resource
import shutil
import subprocess
from fractions import Fraction
from typing import List, Sequence, Tuple

import numpy

from workbench.hulls import Point
from workbench.meshing import meshed
from workbench.product import Asked, read_product
from workbench.reading import step
from workbench.solid import Mesh, Options
from workbench.tests import models, shapes
from workbench.tests.kit import TOP, Case

AS1 = os.path.join(models.GMSH, models.GZIPPED[0])
FINE = 48  # sides of the meshes that stand for round solids
FILES = os.path.join(TOP, "workbench", "tests", "files")
BLENDER = ("blender", "--background", "--factory-startup", "--python", "blender_obj.py")
FREECAD = ("freecadcmd", "freecad_obj.py")


def processor_seconds() -> float:
    """What this process and those that it ran used."""
    used = [resource.getrusage(who) for who in (resource.RUSAGE_SELF, resource.RUSAGE_CHILDREN)]
    return sum(one.ru_utime + one.ru_stime for one in used)


class Judged(Case):
    def answered(self, path: str, *words: str) -> bool:
        """Whether there are pieces with their bounds; else there is a line that says what is wrong with the mesh."""
        status, out, err = self.run_tool(path, *words)
        self.assertIn(status, (0, 3), err)
        if status == 3:
            self.assertEqual(err.count("\n"), 1, err)
            return False
        self.assertIn("no two parts overlap", out)
        self.judge()
        return True

    def model_file(self, found: Sequence[models.Model], name: str) -> str:
        (model,) = [model for model in found if os.path.splitext(model.name)[0] == name][:1]
        path = model.file(self.folder.name)
        assert path is not None, name
        return path

    def tried(self, path: str) -> None:
        """No point of the pieces lies farther from the solid than is told, and none of the solid from the pieces."""
        product = read_product([path], Options(), Asked(), None)
        for part in product.parts:
            meshes = [solid.exact for solid in part.solids if solid.exact is not None]
            self.held(part.name, meshes)

    def all_answered(
        self, found: Sequence[models.Model], names: Sequence[str], drawn: Sequence[str]
    ) -> None:
        """Each of these models becomes pieces, and the bounds of those in `drawn` hold for random points."""
        for name in names:
            with self.subTest(name):
                path = self.model_file(found, name)
                self.assertTrue(self.answered(path), name)
                if name in drawn:
                    self.tried(path)

    def none_answered(self, found: Sequence[models.Model], names: Sequence[str]) -> None:
        """Of each of these models a line says why there are no pieces."""
        for name in names:
            with self.subTest(name):
                self.assertFalse(self.answered(self.model_file(found, name)))

    def held(
        self, name: str, meshes: Sequence[Mesh], wrong: Tuple[float, float] = (0.0, 0.0)
    ) -> None:
        """The bounds of a part hold for random points.

        meshes: the solids of the part. wrong: how far they may go beyond those of the model, and fall short of them
        """
        draw, grid = numpy.random.default_rng(2), float(Fraction(self.model()["grid"]))
        (pieces,) = [pieces for other, pieces in self.pieces() if other == name]
        over, under = self.bounds()[name]
        rows = shapes.random_points(pieces, grid, draw, 400 // len(pieces) + 1)
        far = numpy.min([shapes.mesh_distance(mesh)(rows) for mesh in meshes], axis=0)
        self.assertLessEqual(float(far.max()), over + wrong[1] + 1e-9, name)
        for mesh in meshes:
            rows = shapes.mesh_points(mesh, draw, 2000)
            self.assertLessEqual(shapes.short_of(rows, pieces, grid), under + wrong[0] + 1e-9, name)

    def round_ones_held(self, path: str, names: Sequence[str]) -> None:
        """The bounds of parts of a STEP file hold, against meshes that are much finer than the polygons."""
        bodies = {body.name: body for body in step.read_step(path).bodies}
        for name in names:
            with self.subTest(name):
                fine = meshed(step.start(), bodies[name], Options(sides=FINE))
                self.held(name, [fine.mesh], (fine.over, fine.under))

    def written_by(self, words: Sequence[str], names: Sequence[str]) -> None:
        """What a program writes here becomes the same pieces as the files that are kept."""
        shutil.copy(os.path.join(FILES, words[-1]), self.folder.name)
        subprocess.run(
            words,
            cwd=self.folder.name,
            env={**os.environ, "PWD": self.folder.name},  # Blender takes it for its folder
            check=True,
            capture_output=True,
            stdin=subprocess.DEVNULL,
        )
        for name in names:
            with self.subTest(name):
                self.assertEqual(
                    self.parts_of(self.path(name)), self.parts_of(os.path.join(FILES, name))
                )

    def parts_of(self, path: str) -> List[Tuple[str, List[List[Point]]]]:
        self.assertTrue(self.answered(path))
        return [(name, sorted(pieces)) for name, pieces in self.parts().items()]
