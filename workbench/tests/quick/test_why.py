"""Why parts are stuck, and what is in the way of a part, by the names of the model."""
from __future__ import annotations

import contextlib
import io
import os
import shutil
import unittest
import unittest.mock
from typing import List, Optional

from workbench import planner
from workbench.certificate import Vector
from workbench.cli import main
from workbench.planner import Place
from workbench.solid import Refusal
from workbench.tests.kit import SIDES, TOP, Case, corners, off
from workbench.why import taken_along, why

UP = (0, 0, 1)
CLOSED = ("cube", "ceiling", "floor", "north", "south", "east", "west")


class Taken(unittest.TestCase):
    def test_what_blocks_is_taken_along_with_what_blocks_it(self) -> None:
        arcs = {(0, 1), (1, 2), (3, 0)}
        self.assertEqual(taken_along(0, arcs), {0, 1, 2})
        self.assertEqual(taken_along(2, arcs), {2})


@unittest.skipUnless(planner.program(), "no built planner")
class Why(Case):
    def told(self, folder: str, part: Optional[str], along: Optional[Vector]) -> List[str]:
        return list(why(Place(folder), part, along))

    def stack(self) -> str:
        """Three plates, each on the one before."""
        files = [
            self.write(f"{name}.off", off(corners([0, 0, low], [9, 9, low + 1]), SIDES))
            for low, name in enumerate("abc")
        ]
        self.accepted(*files, "--grid=1")
        return self.path("out")

    def test_what_is_in_the_way(self) -> None:
        folder = self.stack()
        self.assertEqual(self.told(folder, "c", UP), ["nothing is in the way of c along (0, 0, 1)"])
        self.assertEqual(
            self.told(folder, "b", UP),
            ["in the way of b along (0, 0, 1): c", "it leaves together with c, away from a"],
        )
        self.assertEqual(
            self.told(folder, "0", UP)[1:],
            ["all others would have to go with it"],
        )
        self.assertEqual(self.told(folder, None, None), ["comes apart: no parts are stuck"])

    def closed(self) -> None:
        """A cube in a box of six slabs, as one part list."""
        for name in CLOSED:
            shutil.copy(os.path.join(TOP, "tests", "files", f"{name}.off"), self.folder.name)
        shutil.copy(os.path.join(TOP, "tests", "files", "closed.json"), self.path("parts.json"))

    def test_who_holds_whom_and_who_would_free_the_others(self) -> None:
        self.closed()
        lines = self.told(self.folder.name, None, None)
        names = self.names(lines[0])
        self.assertEqual(lines[1], "held together: " + ", ".join(names))
        pairs = [line for line in lines if " runs into " in line]
        for along in ("(1, 0, 0)", "(0, 1, 0)", "(0, 0, 1)"):
            self.assertTrue(any(along in line for line in pairs), pairs)
        self.assertRegex(pairs[0], r"piece \d+ meets piece \d+$")
        for one in names:
            self.assertIn(f"without {one} the others come apart", lines)

    def test_what_was_found_so_far_is_told(self) -> None:
        """The checker is killed when it is asked for the others alone."""
        self.closed()
        staat = self.write(
            "staat",
            f"#!/bin/sh\ncase $* in *--manifest=parts.json*) exec '{planner.program()}' \"$@\";; esac\nkill -9 $$\n",
        )
        os.chmod(staat, 0o755)
        out, err = io.StringIO(), io.StringIO()
        with unittest.mock.patch.dict(os.environ, {"STAAT": staat}):
            with contextlib.redirect_stdout(out), contextlib.redirect_stderr(err):
                self.assertEqual(main(["why", self.folder.name]), 3)
        self.assertIn("held together", out.getvalue())
        self.assertEqual(err.getvalue(), "staat-cad: staat decide was ended by signal 9\n")

    def names(self, line: str) -> List[str]:
        self.assertTrue(line.startswith("stuck: "))
        return line[len("stuck: ") :].split(" and ")

    def test_refusals(self) -> None:
        folder = self.stack()
        with self.assertRaisesRegex(Refusal, 'no part has the name "d"'):
            self.told(folder, "d", UP)
        with self.assertRaisesRegex(Refusal, "go together"):
            self.told(folder, "a", None)
        with self.assertRaises(Refusal):
            self.told(folder, "a", (0, 0, 0))
        with self.assertRaises(SystemExit):
            main(["why", folder, "--part=a", "--along=up"])


if __name__ == "__main__":
    unittest.main()
