"""Solids for measurements: balls of whole points, exactly convex, and their files."""

from __future__ import annotations

import itertools
import json
import math
import os
import random
from collections.abc import Callable

Point = tuple[int, int, int]
Face = tuple[int, ...]  # numbers of points, counterclockwise as seen from outside
Piece = tuple[list[Point], list[Face]]

GREATEST = 65536  # of a coordinate, in absolute value
RADIUS = 200  # of a ball, before it is flattened or moved
STEP = 500  # from one flat ball to the next in each coordinate: more than twice RADIUS
GAP = 1000  # from one ball of the grid to the next: more than twice RADIUS along an axis

# A flat ball is the image of a ball under this map: long across (1,1,1), and as thick along it as the ball was. So
# flat balls in a row along (1,1,1) are apart, but their bounding boxes overlap.
FLAT = ((120, 70, 1), (-120, 70, 1), (0, -140, 1))

# Tubes are the images of upright ones under this map, which leans them out of every axis: long along (17,9001,31).
LEAN = ((313, 307, 17), (5, 8, 9001), (293, -311, 31))

# The faces of a box whose corner number x + 2y + 4z stands at its lower (0) or upper (1) end in each coordinate.
BOX_FACES = ((0, 4, 6, 2), (1, 3, 7, 5), (0, 1, 5, 4), (2, 6, 7, 3), (0, 2, 3, 1), (4, 5, 7, 6))


# ---- exact geometry of whole points


def minus(p: Point, q: Point) -> Point:
    """The difference of two points."""
    return (p[0] - q[0], p[1] - q[1], p[2] - q[2])


def plus(p: Point, q: Point) -> Point:
    """The sum of two points."""
    return (p[0] + q[0], p[1] + q[1], p[2] + q[2])


def dot(p: Point, q: Point) -> int:
    """The scalar product."""
    return p[0] * q[0] + p[1] * q[1] + p[2] * q[2]


def cross(p: Point, q: Point) -> Point:
    """The vector product."""
    return (
        p[1] * q[2] - p[2] * q[1],
        p[2] * q[0] - p[0] * q[2],
        p[0] * q[1] - p[1] * q[0],
    )


def image(matrix: tuple[Point, Point, Point], p: Point) -> Point:
    """The image of a point under a linear map, which is given by its rows."""
    x, y, z = (dot(row, p) for row in matrix)
    return (x, y, z)


def side_of_all(points: list[Point], a: int, b: int, c: int) -> int:
    """1 or -1 where all other points lie strictly on that side of the plane of three of them, else 0."""
    normal = cross(minus(points[b], points[a]), minus(points[c], points[a]))
    level = dot(normal, points[a])
    side = 0
    for k, p in enumerate(points):
        if k in (a, b, c):
            continue
        height = dot(normal, p) - level
        if height == 0 or side * height < 0:
            return 0
        side = 1 if height > 0 else -1
    return side


def hull(points: list[Point]) -> list[Face] | None:
    """The triangles of the convex hull, or None unless each point is a corner and each face a triangle."""
    faces: list[Face] = []
    for a, b, c in itertools.combinations(range(len(points)), 3):
        side = side_of_all(points, a, b, c)
        if side != 0:
            faces.append((a, b, c) if side < 0 else (a, c, b))
    return faces if is_closed(len(points), faces) else None


def is_closed(count: int, faces: list[Face]) -> bool:
    """Whether all points are used, and each edge stands in two faces, once in each direction."""
    edges = [(f[k], f[(k + 1) % 3]) for f in faces for k in range(3)]
    return (
        {corner for f in faces for corner in f} == set(range(count))
        and len(set(edges)) == len(edges)
        and all((b, a) in set(edges) for a, b in edges)
        and len(faces) == 2 * count - 4
    )


def ball(count: int, seed: int) -> Piece:
    """Whole points near a sphere about zero, with the triangles of their hull. Each seed has another ball."""
    chance = random.Random(seed)
    while True:
        turn = chance.random() * math.tau
        points: list[Point] = []
        for k in range(count):
            z = 1 - (2 * k + 1) / count + (chance.random() - 0.5) / count
            angle = turn + k * math.pi * (3 - math.sqrt(5)) + (chance.random() - 0.5) / count
            r = math.sqrt(1 - z * z)
            x, y = r * math.cos(angle), r * math.sin(angle)
            points.append((round(RADIUS * x), round(RADIUS * y), round(RADIUS * z)))
        faces = hull(points)
        if faces is not None:
            return points, faces


BALLS: dict[tuple[int, int], Piece] = {}


def shape(count: int, number: int) -> Piece:
    """One of four balls of so many points, made once."""
    key = (count, number % 4)
    if key not in BALLS:
        BALLS[key] = ball(*key)
    return BALLS[key]


# ---- pieces: lists of points with their faces


def flat_pieces(counts: list[int]) -> list[Piece]:
    """Flat balls in a row along (1,1,1). No two overlap, but the bounding boxes of all do."""
    pieces = []
    for k, count in enumerate(counts):
        points, faces = shape(count, k)
        shift = STEP * (2 * k + 1 - len(counts)) // 2
        moved = [plus(image(FLAT, p), (shift, shift, shift)) for p in points]
        pieces.append((moved, faces))
    for p, q in itertools.combinations([points for points, _ in pieces], 2):
        assert max(sum(x) for x in p) < min(sum(x) for x in q), "the pieces overlap"
        for axis in range(3):
            low, high = (f(x[axis] for x in points) for f, points in ((max, p), (min, q)))
            assert high < low, "an axis keeps the pieces apart"
    return checked(pieces)


def far_pieces(counts: list[int]) -> list[Piece]:
    """Balls on a grid. Of any two, the bounding boxes are apart."""
    pieces = []
    for k, count in enumerate(counts):
        points, faces = shape(count, k)
        shift = (GAP * (k % 4), GAP * (k // 4 % 4), GAP * (k // 16))
        pieces.append(([plus(p, shift) for p in points], faces))
    return checked(pieces)


def leaning_box(low: tuple[int, int], high: tuple[int, int]) -> Piece:
    """The image under `LEAN` of the box over a rectangle, from -1 to 1 along the last axis."""
    corners = itertools.product((-1, 1), (low[1], high[1]), (low[0], high[0]))
    return [image(LEAN, (x, y, z)) for z, y, x in corners], list(BOX_FACES)


def nested_tubes(count: int) -> list[Piece]:
    """A rod, and around it one tube in another, of four pieces each: each leaves along one line alone."""
    pieces = [leaning_box((-1, -1), (1, 1))]
    for inner in range(1, count):
        outer = inner + 1
        pieces.append(leaning_box((-outer, -outer), (-inner, outer)))
        pieces.append(leaning_box((inner, -outer), (outer, outer)))
        pieces.append(leaning_box((-inner, -outer), (inner, -inner)))
        pieces.append(leaning_box((-inner, inner), (inner, outer)))
    return pieces


def checked(pieces: list[Piece]) -> list[Piece]:
    """The pieces, which are convex and within the limits."""
    for points, faces in pieces:
        assert all(abs(x) <= GREATEST for p in points for x in p), "a point is too far out"
        assert all(side_of_all(points, *face[:3]) != 0 for face in faces), "a piece is not convex"
    return pieces


def off_text(points: list[Point], faces: list[Face]) -> str:
    """The file of a piece."""
    lines = ["OFF", f"{len(points)} {len(faces)} 0"]
    lines += [f"{x} {y} {z}" for x, y, z in points]
    lines += [" ".join(map(str, (len(face), *face))) for face in faces]
    return "\n".join(lines) + "\n"


def write(folder: str, pieces: list[Piece], part_of: Callable[[int], int]) -> int:
    """Writes the files of the pieces, a part list by `part_of`, and one with all pieces in one part.

    Answers how many two pieces of different parts there are.
    """
    parts: dict[int, list[str]] = {}
    for k, (points, faces) in enumerate(pieces):
        name = f"{k}.off"
        with open(os.path.join(folder, name), "w", encoding="ascii") as file:
            file.write(off_text(points, faces))
        parts.setdefault(part_of(k), []).append(name)
    listings = {
        "parts.json": [
            {"name": str(part), "pieces": files} for part, files in sorted(parts.items())
        ],
        "one.json": [{"name": "all", "pieces": [f"{k}.off" for k in range(len(pieces))]}],
    }
    for name, listing in listings.items():
        with open(os.path.join(folder, name), "w", encoding="ascii") as file:
            json.dump({"parts": listing}, file)
    sizes = [len(files) for files in parts.values()]
    return (sum(sizes) ** 2 - sum(size**2 for size in sizes)) // 2
