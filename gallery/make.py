#!/usr/bin/env python3
"""Makes the OFF files and the part lists of the gallery: gallery/make.py

Run it from anywhere. It writes gallery/NAME/*.off and gallery/NAME/parts.json for each product, always the same bytes.
Each piece is the convex hull of some points with whole coordinates; hull_off finds its faces.
"""
import itertools
import json
import math
import os

HERE = os.path.dirname(os.path.abspath(__file__))


# ---------------------------------------------------------------- convex pieces


def minus(p, q):
    return (p[0] - q[0], p[1] - q[1], p[2] - q[2])


def cross(u, v):
    return (u[1] * v[2] - u[2] * v[1], u[2] * v[0] - u[0] * v[2], u[0] * v[1] - u[1] * v[0])


def dot(u, v):
    return u[0] * v[0] + u[1] * v[1] + u[2] * v[2]


def primitive(v):
    g = math.gcd(math.gcd(v[0], v[1]), v[2])
    return (v[0] // g, v[1] // g, v[2] // g)


def faces_of(points):
    """The faces of the hull, each a list of corners, counterclockwise seen from outside."""
    planes = {}
    for p, q, r in itertools.combinations(points, 3):
        n = cross(minus(q, p), minus(r, p))
        if n == (0, 0, 0):
            continue
        n = primitive(n)
        sides = [dot(n, minus(s, p)) for s in points]
        if all(s <= 0 for s in sides):
            planes[n] = dot(n, p)
        elif all(s >= 0 for s in sides):
            n = (-n[0], -n[1], -n[2])
            planes[n] = dot(n, p)
    faces = []
    for n in sorted(planes):
        on = [p for p in points if dot(n, p) == planes[n]]
        # walk around: from each corner to the one with all others on its left
        start = min(on)
        walk = [start]
        while True:
            p = walk[-1]
            ahead = None
            for q in on:
                if q == p:
                    continue
                if ahead is None:
                    ahead = q
                    continue
                side = dot(n, cross(minus(ahead, p), minus(q, p)))
                if (
                    side < 0
                    or side == 0
                    and dot(minus(q, p), minus(q, p)) > dot(minus(ahead, p), minus(ahead, p))
                ):
                    ahead = q
            if ahead == start:
                break
            walk.append(ahead)
        faces.append(walk)
    return faces


def hull_off(points):
    points = sorted(set(points))
    faces = faces_of(points)
    used = sorted({p for f in faces for p in f})
    assert used == points, "a point is no corner of the hull"
    number = {p: k for k, p in enumerate(points)}
    lines = ["OFF", "%d %d 0" % (len(points), len(faces))]
    lines += ["%d %d %d" % p for p in points]
    lines += [" ".join(str(k) for k in [len(f)] + [number[p] for p in f]) for f in faces]
    return "\n".join(lines) + "\n"


def box(x0, x1, y0, y1, z0, z1):
    return list(itertools.product((x0, x1), (y0, y1), (z0, z1)))


def prism(axis, outline, low, high):
    """The prism over a convex outline in the two other coordinates, in their order, from low to high on the axis."""
    at = "xyz".index(axis)
    return [tuple(p[:at]) + (h,) + tuple(p[at:]) for p in outline for h in (low, high)]


def octagon(far, near):
    """Eight corners around zero; with far = 12 and near = 5 they lie on the circle of radius 13."""
    return [
        (far, near),
        (near, far),
        (-near, far),
        (-far, near),
        (-far, -near),
        (-near, -far),
        (near, -far),
        (far, -near),
    ]


def moved(points, by):
    return [(p[0] + by[0], p[1] + by[1], p[2] + by[2]) for p in points]


PRODUCTS = {}


def product(make):
    PRODUCTS[make.__name__.replace("_", "-")] = make
    return make


# Each function answers a list of parts: (name, [(file, points), ..]), and behind that the vector `at` where there is
# one. A file without points is one of another product.

# ---------------------------------------------------------------- joints


@product
def dovetail():
    tail = [(-5, 0), (5, 0), (3, 4), (-3, 4)]
    right = [(5, 0), (10, 0), (10, 4), (3, 4)]
    left = [(-x, z) for x, z in right]
    return [
        ("tail", [("tail", prism("y", tail, 0, 12))]),
        (
            "socket",
            [
                ("base", box(-10, 10, 0, 12, -2, 0)),
                ("right-cheek", prism("y", right, 0, 12)),
                ("left-cheek", prism("y", left, 0, 12)),
            ],
        ),
    ]


@product
def slanted_slot():
    """A dovetail drawn out along (10007, 3, 1): every edge along it is that vector."""
    along = (10007, 3, 1)

    def drawn(outline):
        start = [(0, y, z) for y, z in outline]
        return start + moved(start, along)

    tail = [(-1500, 0), (1500, 0), (900, 1200), (-900, 1200)]
    right = [(1500, 0), (3000, 0), (3000, 1200), (900, 1200)]
    left = [(-y, z) for y, z in right]
    base = [(-3000, -800), (3000, -800), (3000, 0), (-3000, 0)]
    return [
        ("tail", [("tail", drawn(tail))]),
        (
            "socket",
            [("base", drawn(base)), ("right-cheek", drawn(right)), ("left-cheek", drawn(left))],
        ),
    ]


# ---------------------------------------------------------------- boxes and furniture


@product
def pinned_lid():
    """A box, inside x 0 to 20, y 0 to 12, z 0 to 8; the lid fills the opening, z 8 to 14; the pins lie along x."""
    pin = [(y + 6, z + 11) for y, z in octagon(2, 1)]
    knob = [(y + 6, z + 11) for y, z in octagon(3, 2)]

    def wall(name, x0, x1):
        return [
            (name + "-south", box(x0, x1, -2, 4, -2, 14)),
            (name + "-north", box(x0, x1, 8, 14, -2, 14)),
            (name + "-under-the-pin", box(x0, x1, 4, 8, -2, 9)),
            (name + "-over-the-pin", box(x0, x1, 4, 8, 13, 14)),
        ]

    return [
        (
            "box",
            [
                ("floor", box(0, 20, 0, 12, -2, 0)),
                ("wall-south", box(0, 20, -2, 0, -2, 14)),
                ("wall-north", box(0, 20, 12, 14, -2, 14)),
            ]
            + wall("wall-west", -2, 0)
            + wall("wall-east", 20, 22),
        ),
        (
            "lid",
            [
                ("lid-south", box(0, 20, 0, 4, 8, 14)),
                ("lid-north", box(0, 20, 8, 12, 8, 14)),
                ("lid-middle", box(4, 16, 4, 8, 8, 14)),
                ("lid-west-under", box(0, 4, 4, 8, 8, 9)),
                ("lid-west-over", box(0, 4, 4, 8, 13, 14)),
                ("lid-east-under", box(16, 20, 4, 8, 8, 9)),
                ("lid-east-over", box(16, 20, 4, 8, 13, 14)),
            ],
        ),
        (
            "west pin",
            [("pin-west", prism("x", pin, -2, 4)), ("knob-west", prism("x", knob, -4, -2))],
        ),
        (
            "east pin",
            [("pin-east", prism("x", pin, 16, 22)), ("knob-east", prism("x", knob, 22, 24))],
        ),
        (
            "gem",
            [("gem", [(10, 6, 0), (6, 6, 4), (14, 6, 4), (10, 2, 4), (10, 10, 4), (10, 6, 7)])],
        ),
    ]


def around_octagon(half):
    """A square of side 2 * half without octagon(5, 2), as eight convex outlines, counterclockwise from the east."""
    a, b, h = 5, 2, half
    return [
        ("east", [(a, -b), (h, -b), (h, b), (a, b)]),
        ("north-east", [(a, b), (h, b), (h, h), (b, h), (b, a)]),
        ("north", [(b, a), (b, h), (-b, h), (-b, a)]),
        ("north-west", [(-a, b), (-h, b), (-h, h), (-b, h), (-b, a)]),
        ("west", [(-a, -b), (-h, -b), (-h, b), (-a, b)]),
        ("south-west", [(-a, -b), (-h, -b), (-h, -h), (-b, -h), (-b, -a)]),
        ("south", [(b, -a), (b, -h), (-b, -h), (-b, -a)]),
        ("south-east", [(a, -b), (h, -b), (h, -h), (b, -h), (b, -a)]),
    ]


@product
def bolt_and_nut():
    hexagon = [(12, 0), (6, 10), (-6, 10), (-12, 0), (-6, -10), (6, -10)]
    nut = [
        ("east", [(5, -2), (12, 0), (5, 2)]),
        ("north-east", [(5, 2), (12, 0), (6, 10), (2, 5)]),
        ("north", [(2, 5), (6, 10), (-6, 10), (-2, 5)]),
        ("north-west", [(-2, 5), (-6, 10), (-12, 0), (-5, 2)]),
        ("west", [(-5, 2), (-12, 0), (-5, -2)]),
        ("south-west", [(-5, -2), (-12, 0), (-6, -10), (-2, -5)]),
        ("south", [(-2, -5), (-6, -10), (6, -10), (2, -5)]),
        ("south-east", [(2, -5), (6, -10), (12, 0), (5, -2)]),
    ]

    def ring(name, outlines, low, high):
        return [(name + "-" + where, prism("z", outline, low, high)) for where, outline in outlines]

    return [
        (
            "bolt",
            [("head", prism("z", hexagon, -6, 0)), ("shank", prism("z", octagon(5, 2), 0, 18))],
        ),
        ("lower plate", ring("lower-plate", around_octagon(20), 0, 4)),
        ("upper plate", ring("upper-plate", around_octagon(16), 4, 8)),
        ("nut", ring("nut", nut, 8, 14)),
    ]


@product
def drawers():
    """Three drawers, each 14 wide, 12 deep and 5 high, open above; two things lie in the two lower ones."""
    cabinet = [
        ("side-west", box(-2, 0, 0, 14, -2, 20)),
        ("side-east", box(14, 16, 0, 14, -2, 20)),
        ("back", box(0, 14, 12, 14, -2, 20)),
    ]
    for name, low, high in [
        ("bottom", -2, 0),
        ("lower-shelf", 5, 6),
        ("upper-shelf", 11, 12),
        ("top", 17, 20),
    ]:
        cabinet.append((name, box(0, 14, 0, 12, low, high)))
    parts = [("cabinet", cabinet)]
    for k, name in enumerate(["lower", "middle", "upper"]):
        z = 6 * k
        parts.append(
            (
                name + " drawer",
                [
                    (name + "-front", box(0, 14, 0, 1, z, z + 5)),
                    (name + "-rear", box(0, 14, 11, 12, z, z + 5)),
                    (name + "-left", box(0, 1, 1, 11, z, z + 5)),
                    (name + "-right", box(13, 14, 1, 11, z, z + 5)),
                    (name + "-bottom", box(1, 13, 1, 11, z, z + 1)),
                    (name + "-knob", box(5, 9, -2, 0, z + 2, z + 4)),
                ],
            )
        )
    parts.append(("block", [("block", box(3, 7, 4, 8, 1, 4))]))
    parts.append(
        ("pyramid", [("pyramid", [(6, 3, 7), (12, 3, 7), (12, 9, 7), (6, 9, 7), (9, 6, 11)])])
    )
    return parts


@product
def nested_boxes():
    """Four boxes in each other, each of five walls 2 thick and open on one side, and a gem in the innermost."""
    opening = [("z", 1), ("x", 1), ("y", -1), ("z", 1)]
    names = ["smallest box", "small box", "large box", "largest box"]
    parts = [
        ("gem", [("gem", [(4, 0, 0), (-4, 0, 0), (0, 4, 0), (0, -4, 0), (0, 0, 4), (0, 0, -4)])])
    ]
    inner = 4
    for (axis, side), name in zip(opening, names):
        outer = inner + 2
        at = "xyz".index(axis)
        # the room inside reaches to the open side, so the walls do as well
        low, high = [-outer] * 3, [outer] * 3
        if side > 0:
            high[at] = inner
        else:
            low[at] = -inner
        pieces = []
        for k, label in enumerate("xyz"):
            for sign in (1, -1):
                if (k, sign) == (at, side):
                    continue
                lo, hi = low[:], high[:]
                if sign > 0:
                    lo[k], hi[k] = inner, outer
                else:
                    lo[k], hi[k] = -outer, -inner
                # walls of the later axes end between those of the earlier ones
                for j in range(k):
                    lo[j], hi[j] = max(lo[j], -inner), min(hi[j], inner)
                pieces.append(
                    (
                        "%s-%s-%s" % (name.split()[0], label, "above" if sign > 0 else "below"),
                        box(lo[0], hi[0], lo[1], hi[1], lo[2], hi[2]),
                    )
                )
        parts.append((name, pieces))
        inner = outer
    return parts


@product
def jar_of_solids():
    """A jar with eight walls, wider below than at the neck, and solids in it."""
    inner, outer = octagon(12, 5), octagon(14, 6)
    neck = octagon(8, 3)
    jar = []
    for k in range(8):
        m = (k + 1) % 8
        jar.append(("wall-%d" % k, prism("z", [inner[k], inner[m], outer[m], outer[k]], 0, 24)))
        jar.append(("shoulder-%d" % k, prism("z", [neck[k], neck[m], outer[m], outer[k]], 24, 26)))
    jar.append(("floor", prism("z", outer, -2, 0)))
    octahedron = [(5, 0, 0), (-5, 0, 0), (0, 5, 0), (0, -5, 0), (0, 0, 5), (0, 0, -5)]
    return [
        ("jar", jar),
        (
            "stopper",
            [("stopper", prism("z", neck, 21, 28)), ("grip", prism("z", octagon(10, 4), 28, 31))],
        ),
        ("tetrahedron", [("tetrahedron", [(-6, -4, 0), (6, -4, 0), (0, 6, 0), (0, -1, 7)])]),
        ("octahedron", [("octahedron", moved(octahedron, (1, 0, 10)))]),
        ("cube", [("cube", box(-3, 3, -3, 3, 15, 21))]),
    ]


# ---------------------------------------------------------------- things that hold each other


@product
def crossed_rods():
    """Two rods, each in a tube with arms; each rod is the bar across the other's tube."""
    return [
        ("rod along x", [("rod-x", box(-3, 3, -1, 1, 3, 5))]),
        (
            "tube along x",
            [
                ("tube-x-south", box(-3, 3, -2, -1, 2, 6)),
                ("tube-x-north", box(-3, 3, 1, 2, 2, 6)),
                ("tube-x-under", box(-3, 3, -1, 1, 2, 3)),
                ("tube-x-over", box(-3, 3, -1, 1, 5, 6)),
                ("arm-x-north", box(-1, 1, 2, 4, 2, 6)),
                ("arm-x-south", box(-1, 1, -4, -2, 2, 6)),
                ("stop-x-north", box(-1, 1, 3, 4, -2, 2)),
                ("stop-x-south", box(-1, 1, -4, -3, -2, 2)),
            ],
        ),
        ("rod along y", [("rod-y", box(-1, 1, -3, 3, -1, 1))]),
        (
            "tube along y",
            [
                ("tube-y-west", box(-2, -1, -3, 3, -2, 2)),
                ("tube-y-east", box(1, 2, -3, 3, -2, 2)),
                ("tube-y-under", box(-1, 1, -3, 3, -2, -1)),
                ("tube-y-over", box(-1, 1, -3, 3, 1, 2)),
                ("arm-y-east", box(2, 4, -1, 1, -2, 2)),
                ("arm-y-west", box(-4, -2, -1, 1, -2, 2)),
                ("stop-y-east", box(3, 4, -1, 1, 2, 6)),
                ("stop-y-west", box(-4, -3, -1, 1, 2, 6)),
            ],
        ),
    ]


@product
def linked_rings():
    """A chain of three rings; each ring is six prisms around a hexagon."""
    inner = [(24, 0), (12, 20), (-12, 20), (-24, 0), (-12, -20), (12, -20)]
    outer = [(3 * a // 2, 3 * b // 2) for a, b in inner]

    def ring(name, axis, centre):
        pieces = []
        for k in range(6):
            m = (k + 1) % 6
            points = prism(axis, [inner[k], inner[m], outer[m], outer[k]], -6, 6)
            pieces.append(("%s-%d" % (name, k), moved(points, centre)))
        return pieces

    return [
        ("left ring", ring("left", "z", (-40, 0, 0))),
        ("middle ring", ring("middle", "y", (0, 0, 0))),
        ("right ring", ring("right", "z", (40, 0, 0))),
    ]


@product
def split_star():
    """The first stellation of the rhombic dodecahedron |x|+|y|, |y|+|z|, |z|+|x| <= 2, split into six parts.

    The part upwards is the octahedron with the corners (0,0,0), (0,0,2) and (+-1,+-1,1), which is the part of the
    dodecahedron where z is at least |x| and |y|, and the two points of the star over its rhombs towards (1,0,1) and
    (-1,0,1). The others come from it by turning x, y and z round and by turning it over. All is twice as large here.
    """

    def up(sign):
        s = sign
        middle = [(0, 0, 0), (0, 0, 2 * s), (1, 1, s), (1, -1, s), (-1, 1, s), (-1, -1, s)]
        points = []
        for x in (1, -1):
            points.append([(2 * x, 0, 2 * s), (2 * x, 0, 0), (0, 0, 2 * s), (x, 1, s), (x, -1, s)])
        return [("middle", middle), ("point-1", points[0]), ("point-2", points[1])]

    names = [("up", "down"), ("east", "west"), ("north", "south")]
    parts = []
    for turn, pair in enumerate(names):
        for name, sign in zip(pair, (1, -1)):
            pieces = []
            for label, points in up(sign):
                for _ in range(turn):
                    points = [(z, x, y) for x, y, z in points]
                pieces.append((name + "-" + label, [(2 * x, 2 * y, 2 * z) for x, y, z in points]))
            parts.append((name, pieces))
    return parts


# ---------------------------------------------------------------- burrs

STICKS = {
    "A": "upper stick along x",
    "B": "lower stick along x",
    "C": "east stick along y",
    "D": "west stick along y",
    "E": "north stick along z",
    "F": "south stick along z",
}


def sticks(layers):
    """A burr from its layers: each letter is a unit cube and names the stick that has it, a dot is none.

    The layers go up along z; within one the lines go down along y and the letters along x. The cubes of a stick are
    put together to boxes, the greatest first.
    """
    owner = {}
    for k, layer in enumerate(layers):
        lines = layer.split()
        for j, line in enumerate(lines):
            for i, letter in enumerate(line):
                if letter != ".":
                    owner[(i, len(lines) - 1 - j, k)] = letter
    half = len(layers) // 2
    parts = []
    for letter in sorted(STICKS):
        cubes = {c for c in owner if owner[c] == letter}
        pieces = []
        while cubes:
            best = None
            for c in sorted(cubes):
                for order in itertools.permutations(range(3)):
                    low, high = list(c), [v + 1 for v in c]
                    for at in order:
                        while True:
                            reach = [range(low[n], high[n]) for n in range(3)]
                            reach[at] = [high[at]]
                            if not all(t in cubes for t in itertools.product(*reach)):
                                break
                            high[at] += 1
                    size = (high[0] - low[0]) * (high[1] - low[1]) * (high[2] - low[2])
                    if best is None or size > best[0]:
                        best = (size, low, high)
            _, low, high = best
            cubes -= set(itertools.product(*[range(low[n], high[n]) for n in range(3)]))
            spans = [(v - half) for n in range(3) for v in (low[n], high[n])]
            pieces.append(("%s-%d" % (letter.lower(), len(pieces)), box(*spans)))
        parts.append((STICKS[letter], pieces))
    return parts


@product
def six_piece_burr():
    return sticks(
        [
            "...... ..EE.. ..EE.. ..FF.. ..FF.. ......",
            "...... ..EE.. BBBBBB BBFFBB ..FF.. ......",
            ".DDCC. .DDEC. BBDBCB BBDBCB .DDFC. .DDCC.",
            ".DDCC. .DDEC. AAAAAA AAAAAA .DDFC. .DDCC.",
            "...... ..EE.. AAAAAA AAAAAA ..FF.. ......",
            "...... ..EE.. ..EE.. ..FF.. ..FF.. ......",
        ]
    )


@product
def locked_burr():
    """Four cubes in the middle are left out: the south stick can go up by one cube, and then the upper slides out."""
    return sticks(
        [
            "...... ..EE.. ..EE.. ..FF.. ..FF.. ......",
            "...... ..EE.. BBBBBB BBF.BB ..FF.. ......",
            ".DDCC. .DEEC. BDEBCB BD..CB .DFFC. .DDCC.",
            ".DDCC. .DDEC. AAAAAA AAAA.A .DFFC. .DDCC.",
            "...... ..EE.. AAAAAA AAFAAA ..FF.. ......",
            "...... ..EE.. ..EE.. ..FF.. ..FF.. ......",
        ]
    )


@product
def lifted_burr():
    """The files of the locked burr, with the south stick one cube higher."""
    up = (0, 0, 1)
    return [
        (
            name,
            [("../locked-burr/" + file, None) for file, _ in pieces],
            up if name == STICKS["F"] else None,
        )
        for name, pieces in locked_burr()
    ]


# ---------------------------------------------------------------- files


def main():
    for name, make in PRODUCTS.items():
        folder = os.path.join(HERE, name)
        os.makedirs(folder, exist_ok=True)
        for old in os.listdir(folder):
            if old.endswith(".off"):
                os.remove(os.path.join(folder, old))
        lines = []
        for part, pieces, *at in make():
            files = []
            for label, points in pieces:
                path = os.path.join(folder, label + ".off")
                if points is not None:
                    assert not os.path.exists(path), path
                    with open(path, "w") as f:
                        f.write(hull_off(points))
                files.append(os.path.normpath("gallery/%s/%s.off" % (name, label)))
            place = ',"at":[%d,%d,%d]' % at[0] if at and at[0] else ""
            listed = ", ".join(json.dumps(f) for f in files)
            lines.append('  {"name":%s,"pieces":[%s]%s}' % (json.dumps(part), listed, place))
        with open(os.path.join(folder, "parts.json"), "w") as f:
            f.write('{"parts":[\n' + ",\n".join(lines) + "\n]}\n")


if __name__ == "__main__":
    main()
