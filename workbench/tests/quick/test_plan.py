"""Plans by the names of the model: steps, runs, orders, same parts, and what is refused."""
from __future__ import annotations

import contextlib
import io
import json
import os
import shutil
import unittest
import unittest.mock
from typing import Any, Dict, List, Sequence, Set, Tuple

import numpy

from workbench import planner, report
from workbench.answers import OfDecide, Overlapping, Told
from workbench.certificate import Step, Vector
from workbench.cli import main, plan
from workbench.named import Parts, counted, plural, short_names
from workbench.ordering import before, reduced, runs_of, units_of
from workbench.planner import Place
from workbench.sameness import plain_name, same_parts
from workbench.solid import Piece, Refusal
from workbench.tests.kit import SIDES, STL, TOP, Case, corners, off, turned

Box = Tuple[str, List[float], List[float]]
UP = (0, 0, 1)
NAMES = ["base", "bolt-1", "bolt-2"]


class Fixed:
    """A planner that answers what it was told."""

    def __init__(self, arcs: Set[Tuple[int, int]]) -> None:
        self.blocking = arcs

    def told(self) -> Told:
        raise Refusal("it was told no answer")

    def arcs(self, along: Vector) -> Set[Tuple[int, int]]:
        return self.blocking


def box(low: Sequence[float], high: Sequence[float]) -> Piece:
    return Piece(numpy.array(corners(low, high), dtype=numpy.int64), SIDES)


class Orders(unittest.TestCase):
    def test_units(self) -> None:
        steps = [Step((3,), UP, (0, 1, 2)), Step((2,), UP, (0, 1))]
        self.assertEqual(units_of(steps), ((0, 1), (2,), (3,)))

    def test_what_follows_is_left_out(self) -> None:
        self.assertEqual(reduced({(0, 1), (1, 2), (0, 2)}), {(0, 1), (1, 2)})
        steps = [Step((3,), UP, (0, 1, 2)), Step((2,), UP, (0, 1)), Step((1,), UP, (0,))]
        arcs = {(0, 1), (0, 2), (0, 3), (1, 3), (1, 2), (2, 3)}
        self.assertEqual(before(units_of(steps), arcs, steps), ((1, 0), (2, 1), (3, 2)))

    def test_runs(self) -> None:
        steps = (Step((2,), UP, (0, 1)), Step((1,), UP, (0,)), Step((3,), (1, 0, 0), (4,)))
        runs = runs_of(steps, Fixed({(0, 2)}))
        self.assertEqual([(run.first, run.along) for run in runs], [(0, UP), (2, (1, 0, 0))])
        self.assertEqual([run.before for run in runs], [((2, 0),), ()])
        self.assertEqual([run.is_known for run in runs_of(steps, None)], [False, True])

    def test_plain_names(self) -> None:
        for name, plain in (
            ("A::1/B::2/BOLT", "BOLT"),
            ("A/NUT::1", "NUT"),
            ("lid-2", "lid"),
            ("-2", "-2"),
        ):
            self.assertEqual(plain_name(name), plain)


class Words(unittest.TestCase):
    def test_counts(self) -> None:
        self.assertEqual(counted(4, "screw M4"), "four screws M4")
        self.assertEqual(counted(1, "screw M4"), "one screw M4")
        self.assertEqual(counted(13, "BOLT"), "13 BOLT")
        for one, many in (("box", "boxes"), ("assembly 2", "assemblies 2"), ("M4", "M4")):
            self.assertEqual(plural(one), many)

    def test_short_names(self) -> None:
        names = ["A::1/B::3/BOLT", "A::2/B::3/BOLT", "PLATE", "A::1/NUT::2"]
        self.assertEqual(short_names(names), ["BOLT::1::3", "BOLT::2::3", "PLATE", "NUT::1::2"])
        self.assertEqual(short_names(["A/BOLT", "B/BOLT"]), ["A/BOLT", "B/BOLT"])

    def test_called(self) -> None:
        parts = Parts(["lid", *(f"screw M4-{k}" for k in range(1, 5))], [("lid", [0])])
        parts.same.append(("screw M4", [1, 2, 3, 4]))
        self.assertEqual(parts.called([1, 2, 3, 4]), "four screws M4")
        self.assertEqual(parts.called([0, 1, 2, 3]), "three of four screws M4 and lid")
        self.assertEqual(parts.called([0, 1], "the "), "the lid and the screw M4-1")

    def test_same(self) -> None:
        one, other, long = (
            box((0, 0, 0), (9, 9, 1)),
            box((5, 5, 3), (14, 6, 12)),
            box((0,) * 3, (9, 9, 2)),
        )
        found = same_parts([("a-1", [one]), ("a-2", [other]), ("a-3", [long]), ("b", [one])])
        self.assertEqual(found, [("a", [0, 1]), ("a (kind 2)", [2]), ("b", [3])])
        near = box((0, 0, 0), (900, 900, 101)), box((0, 0, 0), (900, 900, 100))
        self.assertEqual(len(same_parts([("A::1", [near[0]]), ("A::2", [near[1]])])), 1)
        self.assertEqual(len(same_parts([("A-1", [near[0]]), ("A-2", [near[1]])])), 2)

    def test_clear_after(self) -> None:
        """Of all pairs of boxes the last to part; what is not in the way of each other does not matter."""
        pieces = [
            [box((0, 0, 0), (9, 9, 1))],
            [box((2, 2, 1), (4, 4, 6))],
            [box((20, 0, 0), (21, 9, 90))],
        ]
        parts = Parts(["a", "b", "c"], [], pieces)
        self.assertEqual(report.clear_after(Step((0,), UP, (1, 2)), parts), 6)
        self.assertEqual(report.clear_after(Step((1,), UP, (0, 2)), parts), 0)
        self.assertEqual(report.clear_after(Step((0,), (2, 0, 0), (2,)), parts), 21)


@unittest.skipUnless(planner.program(), "no built planner")
class Plans(Case):
    def boxes(self, *boxes: Box, degrees: float = 0) -> str:
        """A folder of boxes, the names as those of files."""
        files = [
            self.write(f"{name}.off", off(turned(corners(low, high), degrees), SIDES))
            for name, low, high in boxes
        ]
        self.accepted(*files, "--grid=0.001")
        return self.path("out")

    def told(self, folder: str, status: int = 0) -> List[str]:
        out = io.StringIO()
        place = Place(folder)
        with contextlib.redirect_stdout(out):
            self.assertEqual(plan(place, OfDecide(place))[0], status)
        return out.getvalue().splitlines()

    def plan_in(self, folder: str) -> Dict[str, Any]:
        with open(os.path.join(folder, report.PLAN), encoding="utf-8") as file:
            found: Dict[str, Any] = json.load(file)
        return found

    def stack(self) -> str:
        return self.boxes(
            ("base", [0, 0, 0], [9, 9, 1]),
            ("bolt-1", [1, 1, 1], [2, 2, 4]),
            ("bolt-2", [6, 6, 1], [7, 7, 4]),
        )

    def test_stack(self) -> None:
        folder = self.stack()
        lines = self.told(folder)
        self.assertEqual(
            lines[:2], ["comes apart: 2 steps, 0 changes of direction", "same: two bolts"]
        )
        self.assertRegex(lines[2], r"along \(.*\), in whole numbers -?\d+ -?\d+ -?\d+")
        self.assertIn("two bolts one by one", lines[3])
        self.assertIn("away from base", lines[3])
        self.assertIn("     in any order", lines)
        self.assertIn("put together, from the last step to the first", lines)
        self.assertTrue(any(line.endswith(": so it is of the solids") for line in lines))
        self.assertEqual(
            lines[-2:],
            [f"written {os.path.join(folder, name)}" for name in ("plan.cert", "plan.json")],
        )
        found = self.plan_in(folder)
        self.assertEqual((found["answer"], found["verdict"]), ("comes apart", "valid plan"))
        self.assertEqual(found["parts"], NAMES)
        self.assertEqual(found["same"][1], {"name": "bolt", "parts": [1, 2]})
        self.assertEqual(sum(step["unit vector"][2] ** 2 for step in found["steps"]), 2)
        self.assertEqual([back["step"] for back in found["assembly"]], [1, 0])
        self.assertEqual(found["assembly"][0]["along"], [-n for n in found["steps"][1]["along"]])

    def test_the_commands_that_are_told_repeat_the_answer(self) -> None:
        folder = self.stack()
        (again,) = [line for line in self.told(folder) if line.startswith("again: ")]
        os.remove(os.path.join(folder, "plan.cert"))
        staat = planner.program()
        done = self.shell(f"staat() {{ '{staat}' \"$@\"; }}; {again[len('again: '):]}")
        self.assertEqual(done, "valid plan\n")

    def shell(self, line: str) -> str:
        import subprocess

        done = subprocess.run(["sh", "-c", line], capture_output=True, text=True, check=False)
        return done.stdout

    def test_turned(self) -> None:
        folder = self.boxes(
            ("base", [0, 0, 0], [9, 9, 1]), ("lid", [0, 0, 1], [9, 9, 2]), degrees=17
        )
        self.assertEqual(self.told(folder)[0], "comes apart: 1 step, 0 changes of direction")

    def tower(self) -> str:
        """Plates in a tube that is open above, so that they leave one after the other."""
        walls = [
            self.write(f"tube/{k}.off", off(corners(low, high), SIDES))
            for k, (low, high) in enumerate(
                (
                    ([-1, -1, -1], [10, 0, 3]),
                    ([-1, 9, -1], [10, 10, 3]),
                    ([-1, 0, -1], [0, 9, 3]),
                    ([9, 0, -1], [10, 9, 3]),
                    ([0, 0, -1], [9, 9, 0]),
                )
            )
        ]
        plates = [
            self.write(f"{name}.off", off(corners([0, 0, k], [9, 9, k + 1]), SIDES))
            for k, name in enumerate("abc")
        ]
        self.accepted(os.path.dirname(walls[0]), *plates, "--grid=1")
        return self.path("out")

    def test_order_in_a_run(self) -> None:
        folder = self.tower()
        lines = self.told(folder)
        self.assertEqual(lines[0], "comes apart: 3 steps, 0 changes of direction")
        table = lines[lines.index("     leaves first | leaves later") :][:3]
        self.assertEqual(table[1:], ["     b            | a", "     c            | b"])
        self.assertIn("written " + os.path.join(folder, "order.dot"), lines)
        with open(os.path.join(folder, "order.dot"), encoding="utf-8") as file:
            graph = file.read()
        for line in ('  r0u2 [label="b"]', '  r0u3 [label="c"]', "  r0u3 -> r0u2"):
            self.assertIn(line, graph.splitlines())
        self.assertNotIn('"tube"', graph)
        self.assertEqual(self.plan_in(folder)["runs"][0]["before"], [[1, 0], [2, 1], [3, 2]])

    def test_what_is_not_known_of_the_orders_leaves_the_rest(self) -> None:
        folder = self.tower()
        err = io.StringIO()
        staat = self.staat('case "$1" in blocks) kill -9 $$;; esac; exec "$OLD" "$@"')
        with unittest.mock.patch.dict(os.environ, {"STAAT": staat}), contextlib.redirect_stderr(
            err
        ):
            lines = self.told(folder, 3)
        self.assertIn("staat blocks was ended by signal 9", err.getvalue())
        self.assertEqual(lines[0], "comes apart: 3 steps, 0 changes of direction")
        self.assertIsNone(self.plan_in(folder)["runs"][0]["before"])

    def staat(self, script: str) -> str:
        """A program in the place of the planner, which the script knows as $OLD."""
        staat = self.write("staat", f"#!/bin/sh\nOLD='{planner.program()}'\n{script}\n")
        os.chmod(staat, 0o755)
        return staat

    def closed(self) -> str:
        for name in ("cube", "ceiling", "floor", "north", "south", "east", "west"):
            shutil.copy(os.path.join(TOP, "tests", "files", f"{name}.off"), self.folder.name)
        shutil.copy(os.path.join(TOP, "tests", "files", "closed.json"), self.path("parts.json"))
        return self.folder.name

    def test_stuck(self) -> None:
        lines = self.told(self.closed(), 1)
        self.assertEqual(lines[0], "no step takes these parts apart")
        self.assertTrue(lines[1].startswith("stuck: "), lines)
        found = self.plan_in(self.folder.name)
        self.assertEqual(found["answer"], "comes apart but for these groups")
        self.assertEqual((found["verdict"], found["groups"][0]["parts"]), ("valid refusal", [0, 1]))
        self.assertTrue(found["groups"][0]["holds"][0]["pairs"])

    def test_a_certificate_that_was_changed_is_refused(self) -> None:
        """Whatever is changed on its way to the checker, nothing of it is told, and nothing is written."""
        changes = {
            self.stack(): (
                "s/^split .*/split 0 0 0/",
                "s/^leaf 0/leaf 1/",
                "s/^parts 3/parts 4/",
                "s/^plan/stuck/",
                "/^leaf 1/d",
                "/^end/d",
                "s/^split 0 0 1/split 0 0 -1/;s/^split 0 -1 0/split 0 0 -1/;s/^split 1 0 0/split 0 0 -1/",
            ),
            self.closed(): (
                "/^pair 0 0 1 1$/d;/^pair 0 0 1 2$/d",
                "s/^part 1/part 2/",
                "s/^hold/plan/",
            ),
        }
        for folder, some in changes.items():
            for change in some:
                with self.subTest(change):
                    staat = self.staat(f'"$OLD" "$@" | sed "{change}"')
                    with unittest.mock.patch.dict(os.environ, {"STAAT": staat}):
                        with self.assertRaises(Refusal):
                            OfDecide(Place(folder)).told()
                        self.refused_plan(folder)

    def refused_plan(self, folder: str) -> None:
        out, err = io.StringIO(), io.StringIO()
        with contextlib.redirect_stdout(out), contextlib.redirect_stderr(err):
            self.assertEqual(main(["plan", folder]), 3)
        self.assertEqual((out.getvalue(), err.getvalue().count("\n")), ("", 1), err.getvalue())
        self.assertFalse(os.path.exists(os.path.join(folder, report.PLAN)))

    def test_another_verdict_than_the_answer_has_is_refused(self) -> None:
        staat = self.staat('case "$1" in confirm) echo valid refusal;; *) exec "$OLD" "$@";; esac')
        folder = self.stack()
        with unittest.mock.patch.dict(os.environ, {"STAAT": staat}):
            with self.assertRaisesRegex(Refusal, "valid refusal"):
                OfDecide(Place(folder)).told()

    def test_programs_that_fail(self) -> None:
        """One line for each, and no file."""
        folder = self.stack()
        for script, want in (
            ("kill -9 $$", "staat decide was ended by signal 9"),
            (
                'case "$1" in confirm) kill -9 $$;; esac; exec "$OLD" "$@"',
                "staat confirm was ended by",
            ),
            ("echo staat: usage >&2; exit 2", "is older than this tool"),
            ("echo 'staat: out of memory' >&2; exit 7", "out of memory"),
            ("echo nonsense", "does not call the answer valid: nonsense"),
        ):
            with self.subTest(script):
                with unittest.mock.patch.dict(os.environ, {"STAAT": self.staat(script)}):
                    with self.assertRaisesRegex(Refusal, want):
                        OfDecide(Place(folder)).told()
                    self.refused_plan(folder)
        with unittest.mock.patch.dict(os.environ, {"STAAT": self.path("nowhere")}):
            with self.assertRaisesRegex(Refusal, "cannot run .*nowhere: No such file"):
                OfDecide(Place(folder)).told()

    def test_overlap(self) -> None:
        self.run_tool(os.path.join(STL, "pin"), os.path.join(STL, "pencil.stl"))
        with open(self.path("out/parts.json"), encoding="utf-8") as file:
            listed = json.load(file)
        listed["parts"].append({"name": "again", "pieces": listed["parts"][0]["pieces"]})
        self.write("out/parts.json", json.dumps(listed))
        with self.assertRaises(Overlapping):
            OfDecide(Place(self.path("out"))).told()
        lines = self.told(self.path("out"), 1)
        self.assertEqual(lines[0], "parts overlap: 1 pair")
        self.assertRegex(
            lines[1], r"pin and again, \S+ deep near \(.*\): pieces 1 and 1, and 1 more"
        )
        self.assertIn("--clearance=", lines[2])
        self.assertIn("--join=pin,again", lines[3])
        found = self.plan_in(self.path("out"))
        self.assertEqual((found["answer"], found["steps"]), ("parts overlap", []))
        self.assertEqual(found["overlaps"][0]["parts"], [0, 2])

    def test_joined_parts_overlap_no_more(self) -> None:
        files = [
            self.write(f"{name}.off", off(corners(low, high), SIDES))
            for name, low, high in (
                ("hub", [0, 0, 0], [4, 4, 4]),
                ("pin", [1, 1, 3], [3, 3, 9]),
                ("cap", [0, 0, 9], [4, 4, 10]),
            )
        ]
        status, _, _ = self.run_tool(*files, "--grid=0.01")
        self.assertEqual(status, 1)
        self.assertEqual(self.told(self.path("out"), 1)[0], "parts overlap: 1 pair")
        status, _, err = self.run_tool(*files, "--grid=0.01", "--join=hub,pin")
        self.assertEqual((status, err), (0, ""))
        self.assertEqual(sorted(self.parts()), ["cap", "hub+pin"])
        self.assertEqual(
            self.told(self.path("out"))[0], "comes apart: 1 step, 0 changes of direction"
        )
        self.refused('no part has the name "axle"', *files, "--join=hub,axle")

    def test_no_part_list(self) -> None:
        with self.assertRaisesRegex(Refusal, "holds no parts.json"):
            plan(Place(self.folder.name), OfDecide(Place(self.folder.name)))


if __name__ == "__main__":
    unittest.main()
