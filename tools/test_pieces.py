"""Tests of pieces.py against what the words mean, tried on all triples of points."""

from __future__ import annotations

import random
import unittest
from collections.abc import Callable, Iterator
from itertools import combinations, product as tuples

import check
import check_short
from pieces import (
    AXES,
    ORIGIN,
    Piece,
    Vector,
    cross,
    dot,
    facets_of,
    is_solid,
    minus,
    negative,
    primitive,
)

Points = list[Vector]
GRID: Points = list(tuples(range(3), range(3), range(3)))


def normals_of(x: Vector, y: Vector, z: Vector) -> list[Vector]:
    """Both primitive normals of the plane through the points; none where they are on a line."""
    normal = cross(minus(y, x), minus(z, x))
    return [] if normal == ORIGIN else [primitive(normal), primitive(negative(normal))]


def plain_faces(points: Points) -> set[Vector]:
    """The outer normals of all planes through three points of which none is beyond."""
    triples = ((x, n) for x, y, z in combinations(points, 3) for n in normals_of(x, y, z))
    return {n for x, n in triples if all(dot(n, p) <= dot(n, x) for p in points)}


def plain_facets(first: Points, second: Points) -> set[Vector]:
    """The normals of all planes through two points of the one and one of the other that keep the two apart."""
    found = set()
    for two_of, one_of in (first, second), (second, first):
        for (x, y), z in tuples(combinations(two_of, 2), one_of):
            for n in normals_of(x, y, z):
                level = dot(n, x)
                if all(dot(n, p) <= level for p in first):
                    if all(dot(n, q) >= level for q in second):
                        found.add(n)
    return found


# ---- pieces, each by chance


def in_grid(chance: random.Random) -> Points:
    """Points of a small grid, of which many are in one plane or on one line."""
    return chance.sample(GRID, chance.randint(4, 12))


def in_space(chance: random.Random) -> Points:
    """Points anywhere."""
    return [at_random(chance, 20) for _ in range(chance.randint(4, 9))]


def box(chance: random.Random) -> Points:
    """The corners of a box."""
    low, size = at_random(chance, 2), at_random(chance, 2)
    x, y, z = ((a, a + 1 + b) for a, b in zip(low, size))
    return list(tuples(x, y, z))


def prism(chance: random.Random) -> Points:
    """A prism over a circle of whole points, along an axis or slanted; or a pyramid over it."""
    circle = [(x, y) for x in range(-5, 6) for y in range(-5, 6) if x * x + y * y == 25]
    corners = chance.sample(circle, chance.randint(3, len(circle)))
    lean, tall = at_random(chance, 2)[:2], chance.randint(1, 3)
    top = [(x + lean[0], y + lean[1], tall) for x, y in corners]
    turned = chance.randrange(3)
    points = [(x, y, 0) for x, y in corners] + (top if chance.random() < 0.7 else top[:1])
    return [(p[turned], p[turned - 2], p[turned - 1]) for p in points]


KINDS: list[Callable[[random.Random], Points]] = [in_grid, in_grid, in_space, box, box, prism]


def at_random(chance: random.Random, most: int) -> Vector:
    """A vector of numbers from 0 to the most."""
    return chance.randint(0, most), chance.randint(0, most), chance.randint(0, most)


def solid(chance: random.Random) -> Points:
    """A piece of some kind, its points ascending and each once."""
    points: Points = []
    while not is_solid(points):
        points = sorted(set(chance.choice(KINDS)(chance)))
    return points


def moved(points: Points, n: Vector, level: int) -> Points:
    """The points moved by a multiple of n, so that the least is about as far along n as the level."""
    steps = -((min(dot(n, p) for p in points) - level) // dot(n, n))
    return [(x + steps * n[0], y + steps * n[1], z + steps * n[2]) for x, y, z in points]


def sheared(rows: list[Vector], points: Points) -> Points:
    """The points after a map of space."""
    return sorted((dot(rows[0], p), dot(rows[1], p), dot(rows[2], p)) for p in points)


def pairs(count: int) -> Iterator[tuple[int, Points, Points]]:
    """So many pairs of pieces, each with its number: many touch, some overlap, and some are mirrored or sheared."""
    for number in range(count):
        chance = random.Random(f"pair {number}")
        first, second = solid(chance), solid(chance)
        if chance.random() < 0.3:
            second = [negative(p) for p in first]
        for axis in chance.sample(AXES, chance.choice((0, 1, 1, 1, 2))):
            far = max(dot(axis, p) for p in first)
            second = moved(second, axis, far + chance.choice((-1, 0, 0, 0, 0, 2)))
        rows = [at_random(chance, 3) for _ in range(3)]
        if chance.random() < 0.3 and dot(rows[0], cross(rows[1], rows[2])) != 0:
            first, second = sheared(rows, first), sheared(rows, second)
        yield number, first, sorted(second)


class Pieces(unittest.TestCase):
    def test_a_cube(self) -> None:
        cube = Piece(list(tuples((0, 2), (0, 2), (0, 2))))
        self.assertEqual(cube.faces, sorted(AXES + list(map(negative, AXES))))
        self.assertEqual(len(cube.edges), 12)
        self.assertEqual(cube.span((1, -1, 0)), (-2, 2))

    def test_solid(self) -> None:
        for case in range(300):
            points = random.Random(case).sample(GRID, random.Random(case).randint(1, 6))
            edges = [minus(p, points[0]) for p in points]
            volumes = [dot(a, cross(b, c)) for a, b, c in combinations(edges, 3)]
            self.assertEqual(is_solid(points), any(volumes), points)

    def test_faces_and_edges(self) -> None:
        for case in range(200):
            with self.subTest(case):
                piece = Piece(solid(random.Random(case)))
                self.assertEqual(set(piece.faces), plain_faces(list(piece.points)))
                tops = [
                    {p for p in piece.points if dot(n, p) == piece.span(n)[1]} for n in piece.faces
                ]
                corners = {p for p in piece.points if sum(p in top for top in tops) > 2}
                self.assertEqual(len(corners) - len(piece.edges) + len(piece.faces), 2)


class Facets(unittest.TestCase):
    def test_facets_are_those_of_all_triples(self) -> None:
        kinds = {"none": 0, "one": 0, "more": 0}
        for number, first, second in pairs(400):
            with self.subTest(number):
                found = facets_of(Piece(first), Piece(second))
                self.assertEqual(found, plain_facets(first, second))
                kinds["more" if len(found) > 1 else "one" if found else "none"] += 1
        self.assertGreater(min(kinds.values()), 20, kinds)

    def test_contacts(self) -> None:
        cube = list(tuples((0, 2), (0, 2), (0, 2)))
        for away, facets in {
            (2, 0, 0): {(1, 0, 0)},
            (2, 1, -1): {(1, 0, 0)},
            (2, 2, 0): {(1, 0, 0), (0, 1, 0)},
            (2, 2, 1): {(1, 0, 0), (0, 1, 0)},
            (2, 2, 2): set(AXES),
            (3, 0, 0): {(2, 1, 0), (2, -1, 0), (2, 0, 1), (2, 0, -1)},
            (1, 1, 1): set(),
            (0, 0, 0): set(),
        }.items():
            beside = [(x + away[0], y + away[1], z + away[2]) for x, y, z in cube]
            self.assertEqual(facets_of(Piece(cube), Piece(beside)), facets, away)

    def test_edges_on_one_line(self) -> None:
        first = [(0, 0, 0), (1, 0, 0), (0, -1, 0), (0, 0, -1)]
        for start in 1, 2, 5:
            second = [(start, 0, 0), (start + 2, 0, 0), (start, 1, 0), (start, 0, 1)]
            found = facets_of(Piece(first), Piece(second))
            self.assertEqual(found, plain_facets(first, second), start)


class Meeting(unittest.TestCase):
    def test_meets_where_all_facets_are_ahead(self) -> None:
        said = {True: 0, False: 0}
        for number, first, second in pairs(200):
            facets = plain_facets(first, second)
            judge = check_short.Judge(check.Product([[first], [second]]))
            chance = random.Random(number)
            ahead = minus(chance.choice(second), chance.choice(first))
            for d in (*AXES, *map(negative, AXES), minus(at_random(chance, 4), (2, 2, 2)), ahead):
                if facets and d != ORIGIN:
                    meets = all(dot(n, d) > 0 for n in facets)
                    said[meets] += 1
                    self.assertEqual(judge.meets((0, 0, 1, 0), d), meets, (number, d))
                    self.assertEqual(judge.meets((1, 0, 0, 0), negative(d)), meets, (number, d))
                    self.assertEqual(check_short.way_along(d, facets) == 1, meets)
                    self.assertEqual(check_short.way_along(negative(d), facets) == -1, meets)
        self.assertGreater(min(said.values()), 100, said)


if __name__ == "__main__":
    unittest.main()
