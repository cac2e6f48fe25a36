"""Tests of check.py and of compare_checkers.py: python3 -m unittest discover tools"""

import contextlib
import io
import os
import pathlib
import random
import tempfile
import unittest

import check
import compare_checkers
import pieces

TOP = pathlib.Path(__file__).resolve().parent.parent
CUBES = ["examples/touching-cubes/a.off", "examples/touching-cubes/b.off"]

CUBES_PLAN = """STAAT 2
parts 2
plan
split 0 0 1
sep 0 0 1 0 1 0 0
leaf 0
leaf 1
end
"""

CLOSED_BOX_REFUSAL = """STAAT 2
parts 2
stuck 0 1
witness 0
out 0 0 1 4
in 1 5 0 0
witness 1
out 0 0 1 2
in 1 3 0 0
witness 2
out 0 0 1 0
in 1 1 0 0
dir 0 0 1 0
dir 0 1 0 1
dir 1 0 0 2
end
"""


def judged(product, text):
    return check.verdict(product, "c", text.encode("latin-1"))


class InFolder(unittest.TestCase):
    """Tests that read files with the top folder as the working folder, or files that they write."""

    def setUp(self):
        before = os.getcwd()
        self.addCleanup(os.chdir, before)
        os.chdir(TOP)

    def written(self, text):
        folder = tempfile.TemporaryDirectory()
        self.addCleanup(folder.cleanup)
        name = os.path.join(folder.name, "file")
        pathlib.Path(name).write_bytes(text.encode("utf-8"))
        return name


class Inputs(InFolder):
    def test_coordinates(self):
        for word, whole, thousandths in [
            ("1.000000", 1, 1000),
            ("2e0", 2, 2000),
            ("-0.0", 0, 0),
            ("+3", 3, 3000),
            ("4.", 4, 4000),
            ("0.5", None, 500),
            ("-1200E-2", -12, -12000),
            ("0e999", 0, 0),
            ("1e999", None, None),
            ("1e-999", None, None),
            (".25e1", None, 2500),
            ("007", 7, 7000),
            ("0.00100e3", 1, 1000),
            ("262144.0000000000000000000000000000000000000000", 262144, 262144000),
        ]:
            for digits, value in (0, whole), (3, thousandths):
                if value is None:
                    with self.assertRaises(ValueError):
                        check.read_coordinate(word.encode(), digits)
                else:
                    self.assertEqual(check.read_coordinate(word.encode(), digits), value, word)

    def test_words_of_an_off_file(self):
        text = (
            "# a tetrahedron\nOFF#x\n5 4\n6 0 0 0 0 0 0.1\t0 0.1 0 .1 0 0\n7 7 7 # unused\n"
            "3 0\n1 2 255 0 0 3 3 3\n3 0 1 3\r\n3 0 2 3# 9\n\n3 1 2 3"
        )
        points = [(5, 0, 0), (5, 0, 1), (5, 1, 0), (6, 0, 0)]
        self.assertEqual(check.read_piece(self.written(text), 1, (5, 0, 0)), points)

    def test_part_lists(self):
        product = check.read_product([], "examples/row-of-cubes/parts.json", 0)
        self.assertEqual([len(part) for part in product.parts], [1, 1, 1, 1])
        self.assertEqual(product.parts[3][0][0], (6, 0, 0))
        product = check.read_product([], "examples/dovetail/parts.json", 2)
        self.assertEqual([len(part) for part in product.parts], [1, 3])

    def test_what_cannot_be_read(self):
        for name in (
            "nowhere.off",
            self.written("OFF 1 1 0 0 0"),
            self.written("COFF"),
            self.written("OFF 0 1 0 1 5"),
            self.written("OFF 4 1 0 0 0 0 1 0 0 0 1 0 1 1 0 4 0 1 2 3"),
        ):
            with self.assertRaises(check.Refused):
                check.read_product([name], None, 0)
        for text in "", "[]", '{"parts":[1]}', '{"parts":[{}]}':
            with self.assertRaises(check.Refused):
                check.read_product([], self.written(text), 0)


class Geometry(InFolder):
    def test_facets(self):
        product = check.read_product(CUBES, None, 0)
        self.assertEqual(product.facets(0, 0, 1, 0), {(1, 0, 0)})
        self.assertEqual(product.facets(1, 0, 0, 0), {(-1, 0, 0)})
        apart = check.Product(
            [[[(x, y, z) for x in (a, a + 2) for y in (0, 2) for z in (0, 2)]] for a in (0, 4)]
        )
        self.assertEqual(apart.facets(0, 0, 1, 0), {(1, 0, 1), (1, 0, -1), (1, 1, 0), (1, -1, 0)})

    def test_overlapping_pieces_have_no_facet(self):
        cube = check.read_piece(CUBES[0], 0, pieces.ORIGIN)
        self.assertEqual(check.Product([[cube], [cube]]).facets(0, 0, 1, 0), set())

    def test_planes(self):
        product = check.read_product(CUBES, None, 0)
        self.assertEqual(product.planes((0, 1)), pieces.AXES)
        product = check.read_product([], "examples/dovetail/parts.json", 0)
        self.assertEqual(product.planes((0, 1)), pieces.AXES + [(2, 0, -1), (2, 0, 1)])
        self.assertEqual(product.planes((0,)), pieces.AXES)

    def test_primitive(self):
        self.assertEqual(pieces.primitive((4, -6, 0)), (2, -3, 0))
        self.assertEqual(pieces.primitive((-2, -1, -1)), (-2, -1, -1))


class Texts(InFolder):
    """What is read of a certificate."""

    def setUp(self):
        super().setUp()
        self.cubes = check.read_product(CUBES, None, 0)

    def assert_bad(self, line, text):
        self.assertEqual(judged(self.cubes, text), (3, f"staat: c: bad line {line}"), text)

    def assert_short(self, text):
        self.assertEqual(judged(self.cubes, text), (3, "staat: c: certificate too short"), text)

    def test_each_beginning_is_too_short(self):
        for text in CUBES_PLAN, CLOSED_BOX_REFUSAL:
            for end in range(len(text)):
                self.assert_short(text[:end])

    def test_the_tail_is_judged_from_128_bytes_on(self):
        self.assert_short("0" * 127)
        self.assert_bad(1, "0" * 128)
        self.assert_short("STAAT 2\n" + "0" * 127)
        self.assert_bad(2, "STAAT 2\n" + "0" * 128)
        self.assert_bad(9, CUBES_PLAN + "0")
        self.assert_bad(9, CUBES_PLAN + "\n")

    def test_first_lines(self):
        self.assert_bad(1, "\n")
        self.assert_bad(1, "STAAT 3\n")
        self.assert_bad(1, "STAAT 02\n")
        self.assert_bad(1, " STAAT 2\n")
        self.assert_bad(1, "STAAT 2\r\n")
        self.assert_bad(1, "STAAT  2\n")
        self.assert_bad(2, "STAAT 2\nparts 0\n")
        self.assert_bad(2, "STAAT 2\nparts 33\n")
        self.assert_bad(3, "STAAT 2\nparts 2\nleaf 0\n")
        self.assert_bad(3, "STAAT 2\nparts 2\nplan 0\n")
        self.assert_bad(3, "STAAT 2\nparts 2\nstuck\n")
        self.assert_bad(3, "STAAT 2\nparts 2\nstuck 1 0\n")
        self.assert_bad(3, "STAAT 2\nparts 2\nstuck 1 1\n")
        self.assert_bad(3, "STAAT 2\nparts 2\nstuck 0 32\n")

    def test_plans(self):
        begin = "STAAT 2\nparts 2\nplan\n"
        self.assert_bad(5, "STAAT 2\nparts 2\nplan\nsplit 1 0 0\nsplit 1 0 0\n")
        self.assert_bad(4, "STAAT 2\nparts 1\nplan\nsplit 1 0 0\n")
        self.assert_bad(5, "STAAT 2\nparts 1\nplan\nleaf 0\nleaf 0\n")
        self.assert_bad(4, begin + "leaf 32\n")
        self.assert_bad(4, begin + "split 0 0 -0\n")
        self.assert_bad(4, begin + f"split {2**81 + 1} 0 0\n")
        self.assert_short(begin + f"split {2**81} 0 {-(2**81)}\n")
        self.assert_bad(5, begin + f"split 0 0 1\nsep 0 0 1 0 0 0 {-(2**39) - 1}\n")
        self.assert_short(begin + f"split 0 0 1\nsep 31 63 31 63 0 0 {-(2**39)}\n")
        self.assert_bad(5, begin + "split 0 0 1\nsep 0 64 1 0 0 0 1\n")
        self.assert_bad(6, begin + "split 0 0 1\nsep 0 1 1 0 0 0 1\nsep 0 1 1 0 0 0 2\n")

    def test_refusals(self):
        begin = "STAAT 2\nparts 2\nstuck 0 1\n"
        self.assert_bad(4, begin + "dir 0 0 1 0\n")
        self.assert_bad(4, begin + "witness 1\n")
        self.assert_bad(5, begin + "witness 0\nwitness 0\n")
        self.assert_bad(6, begin + "witness 0\nin 0 0 1 0\nout 0 0 1 0\n")
        self.assert_bad(36, begin + "witness 0\n" + "out 0 0 1 0\n" * 40)
        self.assert_bad(36, begin + "witness 0\n" + "in 0 0 1 0\n" * 40)
        self.assert_bad(5, begin + "witness 0\ndir 0 0 -1 0\n")
        self.assert_bad(5, begin + "witness 0\ndir 0 0 0 0\n")
        self.assert_bad(5, begin + "witness 0\ndir 0 0 1 1\n")
        self.assert_bad(6, begin + "witness 0\ndir 0 0 1 0\ndir 0 0 1 0\n")
        self.assert_bad(6, begin + "witness 0\ndir 0 0 1 0\nwitness 1\n")
        self.assert_short(
            begin.replace("STAAT 2", "STAAT 1") + "witness 0\ndir 0 0 -1 0\ndir 0 0 0 0\n"
        )

    def test_too_long(self):
        text = b"\n" * (check.LONGEST_TEXT + 1)
        self.assertEqual(check.verdict(self.cubes, "c", text), (4, "staat: c is too long"))


# what is said of the plan of the cubes, with the first text of each pair changed into the second
OF_PLANS = {
    "valid plan": [
        (),
        ("STAAT 2", "STAAT 1"),
        ("1 0 0\nleaf", "7 0 0\nleaf"),
        ("split 0 0 1", f"split {-(2**81)} 5 5"),
    ],
    "not valid: wrong parts 3": [("parts 2", "parts 3", "leaf 1", "leaf 0")],
    "not valid: bad leaves at node 2": [("leaf 1", "leaf 0")],
    "not valid: bad leaves at node 1": [
        ("leaf 0", "leaf 2", "leaf 1", "leaf 2"),
        ("split 0 0 1\nsep 0 0 1 0 1 0 0\nleaf 0\nleaf 1", "leaf 1"),
    ],
    "not valid: zero direction at node 0": [("split 0 0 1", "split 0 0 0", "sep 0", "sep 1")],
    "not valid: bad separator on line 5": [
        ("split 0 0 1", "split 1 0 0"),
        ("1 0 0\nleaf", "-1 0 0\nleaf"),
        ("1 0 0\nleaf", "0 0 0\nleaf"),
        ("1 0 0\nleaf", "1 1 0\nleaf"),
        ("sep 0 0 1 0", "sep 0 1 1 0"),
        ("leaf 0\nleaf 1", "leaf 1\nleaf 0"),
    ],
    "not valid: missing separator 0 0 1 0": [("sep 0 0 1 0 1 0 0\n", "")],
}

# the same of the refusal of the closed box
OF_REFUSALS = {
    "valid refusal": [
        (),
        ("dir 1 0 0 2", "dir 1 0 0 2\ndir 5 0 0 2"),
        (
            "witness 2\n",
            "witness 2\nout 0 0 1 1\nin 1 0 0 0\nwitness 3\n",
            "dir 1 0 0 2",
            "dir 1 0 0 3",
        ),
    ],
    "not valid: wrong parts 1": [("parts 2", "parts 1", "stuck 0 1", "stuck 0")],
    "not valid: bad stuck set": [("stuck 0 1", "stuck 0"), ("stuck 0 1", "stuck 0 1 2")],
    "not valid: bad tree in witness 1": [
        ("out 0 0 1 2", "out 1 2 0 0"),
        ("in 1 3 0 0", "in 1 6 0 0"),
        ("out 0 0 1 2\n", ""),
        ("in 1 3 0 0\n", "in 1 3 0 0\nin 1 3 0 0\n"),
    ],
    "not valid: bad tree in witness 2": [("in 1 1 0 0\n", "in 1 1 1 0\n")],
    "not valid: bad arc on line 14": [("dir 0 1 0 1", "dir 0 1 0 0")],
    "not valid: bad arc on line 13": [("STAAT 2", "STAAT 1", "dir 0 0 1 0", "dir 0 0 0 0")],
    "not valid: missing direction 0 0 1": [("dir 0 0 1 0\n", "")],
    "not valid: missing direction 0 -1 0": [("dir 0 1 0 1\n", "")],
    "not valid: missing direction 1 0 0": [("dir 1 0 0 2\n", "")],
    "not valid: missing direction 0 0 -1": [("STAAT 2", "STAAT 1")],
}


class Verdicts(InFolder):
    """What is said of a certificate that is read."""

    def setUp(self):
        super().setUp()
        self.cubes = check.read_product(CUBES, None, 0)
        self.closed = check.read_product([], "examples/closed-box/parts.json", 0)

    def assert_all(self, table, product, text):
        for said, rows in table.items():
            for changes in rows:
                with self.subTest(said, changes=changes):
                    self.assert_said(said, product, text, changes)

    def assert_said(self, said, product, text, changes):
        for old, new in zip(changes[::2], changes[1::2]):
            self.assertIn(old, text)
            text = text.replace(old, new)
        self.assertEqual(judged(product, text), (int(not said.startswith("valid")), said))

    def test_plans(self):
        self.assert_all(OF_PLANS, self.cubes, CUBES_PLAN)

    def test_the_first_split_in_preorder_is_told(self):
        row = check.read_product([], "examples/row-of-cubes/parts.json", 0)
        text = "STAAT 2\nparts 4\nplan\nsplit 0 0 1\nsplit 0 0 0\nleaf 0\nleaf 1\nsplit 0 0 0\nleaf 2\nleaf 3\nend\n"
        self.assertEqual(judged(row, text), (1, "not valid: missing separator 0 0 2 0"))
        walls = "".join(f"sep {a} 0 {b} 0 1 0 0\n" for a in (0, 1) for b in (2, 3))
        text = text.replace("split 0 0 1\n", "split 0 0 1\n" + walls)
        self.assertEqual(judged(row, text), (1, "not valid: zero direction at node 1"))
        text = text.replace("split 0 0 0\n", "split 0 0 1\nsep 0 0 1 0 1 0 0\n", 1)
        self.assertEqual(judged(row, text), (1, "not valid: zero direction at node 4"))
        text = text.replace("split 0 0 0\n", "split 0 0 1\nsep 2 0 3 0 1 0 0\n", 1)
        self.assertEqual(judged(row, text), (0, "valid plan"))

    def test_refusals(self):
        self.assert_all(OF_REFUSALS, self.closed, CLOSED_BOX_REFUSAL)


class Command(InFolder):
    def run_with(self, *words):
        out, err = io.StringIO(), io.StringIO()
        with contextlib.redirect_stdout(out), contextlib.redirect_stderr(err):
            try:
                status = check.main(words)
            except SystemExit as ended:
                status = ended.code
        return status, out.getvalue(), err.getvalue()

    def test_answers(self):
        plan, refusal = self.written(CUBES_PLAN), self.written(CLOSED_BOX_REFUSAL)
        self.assertEqual(self.run_with(plan, *CUBES), (0, "valid plan\n", ""))
        self.assertEqual(self.run_with("--digits", "2", plan, *CUBES), (0, "valid plan\n", ""))
        closed = "--manifest=examples/closed-box/parts.json"
        self.assertEqual(self.run_with(closed, refusal), (0, "valid refusal\n", ""))
        self.assertEqual(
            self.run_with(plan, closed, "--digits=1"),
            (1, "not valid: missing separator 0 0 1 1\n", ""),
        )
        self.assertEqual(self.run_with("nowhere", *CUBES), (5, "", "staat: cannot read nowhere\n"))
        cut = self.written(CUBES_PLAN[:-1])
        self.assertEqual(
            self.run_with(cut, *CUBES), (3, "", f"staat: {cut}: certificate too short\n")
        )

    def test_words_that_make_no_request(self):
        for words in (
            [],
            ["c"],
            ["c", "a", "--manifest=m"],
            ["c", "a", "--digits=7"],
            ["c", "a", "--digits=01"],
            ["c", *["a"] * 33],
            ["c", "a", "--other"],
            ["c", "--manifest"],
        ):
            status, out, _ = self.run_with(*words)
            self.assertEqual((status, out), (2, ""), words)


class BrokenCertificates(unittest.TestCase):
    def test_a_case_is_always_the_same_and_never_the_whole_one(self):
        for text in (
            CUBES_PLAN.encode(),
            CLOSED_BOX_REFUSAL.encode(),
            b"STAAT 1\nparts 1\nplan\nleaf 0\nend\n",
        ):
            for case in range(500):
                once, again = (
                    compare_checkers.broken(random.Random(f"case {case}"), text) for _ in range(2)
                )
                self.assertEqual(once, again)
                self.assertNotEqual(once[1], text)

    def test_each_way_changes_something(self):
        for way in compare_checkers.WAYS:
            changed = 0
            for case in range(50):
                for text in CUBES_PLAN, CLOSED_BOX_REFUSAL:
                    lines = text.split("\n")[:-1]
                    way(random.Random(case), lines)
                    changed += lines != text.split("\n")[:-1]
            self.assertGreater(changed, 0, way.__name__)


if __name__ == "__main__":
    unittest.main()
