"""Short certificates: the steps and groups that they say; and along which directions pieces meet."""
from __future__ import annotations

import unittest
from typing import Sequence

import numpy

from workbench.certificate import Answer, Group, Hold, Pair, Step, read_certificate
from workbench.hulls import piece_of
from workbench.meeting import shadows_overlap, ways_to_meet
from workbench.overlaps import Body
from workbench.solid import Refusal
from workbench.tests.kit import corners

EXAMPLE = """STAAT SHORT 1
parts 5
rest
split 0 0 1
leaf 4
split 1 0 0
group
hold
part 0
part 3
pair 0 0 3 0
pair 0 2 3 0
hold
part 0
part 1
pair 0 1 1 0
pair 1 0 3 0
leaf 2
end
"""


def text(*lines: str) -> str:
    return "\n".join(("STAAT SHORT 1", *lines, "end")) + "\n"


class Certificates(unittest.TestCase):
    def test_rest(self) -> None:
        pairs = (Pair(0, 0, 3, 0), Pair(0, 2, 3, 0)), (Pair(0, 1, 1, 0), Pair(1, 0, 3, 0))
        holds = Hold(((0,), (3,)), pairs[0]), Hold(((0, 3), (1,)), pairs[1])
        steps = Step((4,), (0, 0, 1), (0, 1, 2, 3)), Step((0, 1, 3), (1, 0, 0), (2,))
        self.assertEqual(read_certificate(EXAMPLE), Answer(steps, (Group((0, 1, 3), holds),)))

    def test_plan(self) -> None:
        lines = ["parts 4", "plan", "split 0 0 1", "split 1 0 0", "leaf 1", "leaf 0"]
        found = read_certificate(text(*lines, "split 0 -1 0", "leaf 2", "leaf 3"))
        steps = (
            Step((0, 1), (0, 0, 1), (2, 3)),
            Step((1,), (1, 0, 0), (0,)),
            Step((2,), (0, -1, 0), (3,)),
        )
        self.assertEqual(found, Answer(steps))
        self.assertEqual(read_certificate(text("parts 1", "plan", "leaf 0")), Answer(()))

    def test_a_thousand_splits_within_each_other(self) -> None:
        lines = [line for part in range(1023) for line in ("split 0 0 1", f"leaf {part}")]
        found = read_certificate(text("parts 1024", "plan", *lines, "leaf 1023"))
        self.assertEqual(len(found.steps), 1023)
        self.assertEqual(found.steps[-1], Step((1022,), (0, 0, 1), (1023,)))
        back = [line for part in range(1023) for line in ("split 0 0 1",)]
        leaves = [f"leaf {part}" for part in range(1024)]
        found = read_certificate(text("parts 1024", "plan", *back, *leaves))
        self.assertEqual(found.steps[0].rest, (1023,))

    def test_stuck(self) -> None:
        found = read_certificate(
            text("parts 3", "stuck", "hold", "part 0", "part 2", "pair 0 0 2 0")
        )
        hold = Hold(((0,), (2,)), (Pair(0, 0, 2, 0),))
        self.assertEqual(found, Answer((), (Group((0, 2), (hold,)),)))

    def test_other_texts_are_none(self) -> None:
        for broken in (
            "",
            "move 0 along 0 0 1 away from 1\n",
            EXAMPLE[:-4],
            text("parts 2", "plan"),
        ):
            with self.assertRaises(Refusal):
                read_certificate(broken)


def body(points: Sequence[Sequence[float]]) -> Body:
    return Body(0, 0, piece_of([[int(number) for number in point] for point in points]))


class Meeting(unittest.TestCase):
    low, high = body(corners((0, 0, 0), (4, 4, 4))), body(corners((1, 1, 6), (2, 2, 9)))

    def test_axes(self) -> None:
        self.assertEqual(ways_to_meet(self.low, self.high), [(0, 0, 1)])
        self.assertEqual(ways_to_meet(self.high, self.low), [(0, 0, -1)])
        self.assertFalse(shadows_overlap(self.low, self.high, (1, 0, 0)))

    def test_beside_each_other(self) -> None:
        """Pieces that touch in an edge meet along no axis, but between two."""
        edge = body(corners((4, 4, 0), (8, 8, 4)))
        self.assertEqual(ways_to_meet(self.low, edge), [(1, 1, 0)])
        self.assertEqual(ways_to_meet(edge, self.low), [(-1, -1, 0)])

    def test_far_from_each_other(self) -> None:
        far = body(corners((100, 30, 0), (104, 34, 4)))
        self.assertEqual(ways_to_meet(self.low, far), [(10, 3, 0)])

    def test_random_points(self) -> None:
        """A piece that is told to meet another one does: a point of it, moved, comes into the other."""
        draw = numpy.random.default_rng(3)
        tried = 0
        while tried < 40:
            one, other = (
                body(draw.integers(0, 20, (6, 3)) + numpy.array([at, 0, 0])) for at in (0, 25)
            )
            for way in ways_to_meet(one, other):
                self.assertTrue(self.comes_into(one, other, way))
            tried += 1

    def comes_into(self, one: Body, other: Body, way: Sequence[int]) -> bool:
        """By a linear program: some difference of points of the two is a multiple of the direction."""
        from scipy.optimize import linprog

        rows = numpy.hstack([other.points.T, -one.points.T, -numpy.array(way)[:, None]])
        ones = numpy.zeros((2, rows.shape[1]))
        ones[0, : len(other.points)] = ones[1, len(other.points) : -1] = 1
        found = linprog(
            numpy.zeros(rows.shape[1]),
            A_eq=numpy.vstack([rows, ones]),
            b_eq=[0, 0, 0, 1, 1],
            bounds=[(0, None)] * rows.shape[1],
        )
        return bool(found.success)


if __name__ == "__main__":
    unittest.main()
