"""Published puzzles of cubes: their pieces, and how they fill a shape, found by trying; as OFF files of unit squares.

Cells are cubes of side 1, by their least corner. Everything is tried in a fixed order, so that the files are the same
each time.
"""
from __future__ import annotations

import itertools
import os
from typing import Dict, FrozenSet, Iterator, List, Optional, Sequence, Tuple

Cell = Tuple[int, ...]  # three numbers
Cells = FrozenSet[Cell]

# Piet Hein's Soma cube, 1936: all shapes of three or four cubes that are not convex.
SOMA: Dict[str, List[Cell]] = {
    "V": [(0, 0, 0), (1, 0, 0), (0, 1, 0)],
    "L": [(0, 0, 0), (1, 0, 0), (2, 0, 0), (0, 1, 0)],
    "T": [(0, 0, 0), (1, 0, 0), (2, 0, 0), (1, 1, 0)],
    "Z": [(0, 0, 0), (1, 0, 0), (1, 1, 0), (2, 1, 0)],
    "A": [(0, 0, 0), (1, 0, 0), (0, 1, 0), (0, 1, 1)],
    "B": [(0, 0, 0), (1, 0, 0), (0, 1, 0), (1, 0, 1)],
    "P": [(0, 0, 0), (1, 0, 0), (0, 1, 0), (0, 0, 1)],
}

# The numbers of six notched sticks that fill a burr without a hole, as Cutler (1978) counts notches: a stick is two
# cubes thick and six long, and its number is 1 and the weights of the cubes that are gone.
BURR = (1, 256, 824, 928, 975, 1024)
WEIGHTS: Dict[Cell, int] = {
    **{(x, 0, 1): 1 << (x + 2) for x in range(-2, 2)},
    **{(x, -1, 1): 16 << (x + 2) for x in range(-2, 2)},
    **{(x, 0, 0): 256 << (x + 1) for x in range(-1, 1)},
    **{(x, -1, 0): 1024 << (x + 1) for x in range(-1, 1)},
}


def rotations() -> List[Tuple[Cell, Cell]]:
    """The 24 turns by right angles: for each new axis which old one it is, and its sign."""
    found = []
    for axes in itertools.permutations(range(3)):
        for signs in itertools.product((1, -1), repeat=3):
            swaps = sum(1 for i, j in itertools.combinations(axes, 2) if i > j)
            if (-1) ** swaps * signs[0] * signs[1] * signs[2] == 1:
                found.append((axes, signs))
    return found


def turned(cells: Sequence[Cell], axes: Sequence[int], signs: Sequence[int]) -> List[Cell]:
    """Cells after a turn about the origin, which is a corner of cells."""
    found: List[Cell] = []
    for cell in cells:
        low = [cell[axis] if sign > 0 else -cell[axis] - 1 for axis, sign in zip(axes, signs)]
        found.append((low[0], low[1], low[2]))
    return found


def placings(cells: Sequence[Cell], shape: Cells) -> List[Cells]:
    """All ways in which a piece lies in a shape, turned and moved."""
    found = set()
    lows = [min(cell[k] for cell in shape) for k in range(3)]
    highs = [max(cell[k] for cell in shape) for k in range(3)]
    for axes, signs in rotations():
        some = turned(cells, axes, signs)
        least = [min(cell[k] for cell in some) for k in range(3)]
        for at in itertools.product(*(range(a, b + 1) for a, b in zip(lows, highs))):
            way = [a - b for a, b in zip(at, least)]
            moved = frozenset((x + way[0], y + way[1], z + way[2]) for x, y, z in some)
            if moved <= shape:
                found.add(moved)
    return sorted(found, key=sorted)


def filled(pieces: Dict[str, List[Cells]], shape: Cells) -> Optional[Dict[str, Cells]]:
    """The first way to fill a shape with a placing of each piece; nothing where there is none."""
    if not shape:
        return {}
    first = min(shape)
    for name in sorted(pieces):
        rest = {other: pieces[other] for other in pieces if other != name}
        for placing in pieces[name]:
            if first in placing and placing <= shape:
                found = filled(rest, shape - placing)
                if found is not None:
                    return {name: placing, **found}
    return None


def soma() -> Dict[str, Cells]:
    """The seven pieces as they fill the cube."""
    shape = frozenset(itertools.product(range(3), repeat=3))
    found = filled({name: placings(cells, shape) for name, cells in SOMA.items()}, shape)
    assert found is not None
    return found


def stick(number: int) -> List[Cell]:
    """A stick of the burr along x, its notches above."""
    gone = {cell for cell, weight in WEIGHTS.items() if (number - 1) & weight}
    return [cell for cell in itertools.product(range(-3, 3), (-1, 0), (0, 1)) if cell not in gone]


def places() -> Iterator[Tuple[Cells, Cells]]:
    """For each of the six sticks of a burr the cells of a whole one, and those that it alone has."""
    whole: List[Cells] = []
    for axis, side in itertools.product(range(3), (-2, 0)):
        long, thick, high = range(-3, 3), (-1, 0), (side, side + 1)
        cells: Iterator[Cell] = itertools.product(long, thick, high)
        whole.append(
            frozenset(
                (cell[-axis % 3], cell[(1 - axis) % 3], cell[(2 - axis) % 3]) for cell in cells
            )
        )
    for mine in whole:
        others: Cells = frozenset().union(*(one for one in whole if one != mine))
        yield mine, mine - others


def burr() -> Dict[str, Cells]:
    """The six sticks as they fill the burr."""
    spots = list(places())
    shape: Cells = frozenset().union(*(mine for mine, _ in spots))
    pieces: Dict[str, List[Cells]] = {}
    for number in BURR:
        ways = {frozenset(turned(stick(number), *turn)) for turn in rotations()}
        moved = {
            frozenset((x + a, y + b, z + c) for x, y, z in way)
            for way in ways
            for a, b, c in itertools.product((-2, -1, 0, 1, 2), repeat=3)
        }
        pieces[f"stick {number}"] = [
            way
            for way in sorted(moved, key=sorted)
            if any(own <= way <= mine for mine, own in spots)
        ]
    found = filled(pieces, shape)
    assert found is not None
    return found


def slothouber_graatsma() -> Dict[str, Cells]:
    """Six boxes of 1 by 2 by 2 and three cubes that fill a cube of side 3, of the book Cubics of 1970."""
    shape = frozenset(itertools.product(range(3), repeat=3))
    flat = placings([(0, 0, 0), (1, 0, 0), (0, 1, 0), (1, 1, 0)], shape)
    pieces = {f"box-{number}": flat for number in range(1, 7)}
    pieces.update({f"cube-{number}": placings([(0, 0, 0)], shape) for number in range(1, 4)})
    found = filled(pieces, shape)
    assert found is not None
    return found


def surface(cells: Cells) -> str:
    """The text of an OFF file of the squares that bound cells, wound outwards."""
    points: Dict[Cell, int] = {}
    faces = []
    for cell in sorted(cells):
        for axis, side in itertools.product(range(3), (0, 1)):
            beyond = [n + (2 * side - 1) * (k == axis) for k, n in enumerate(cell)]
            if (beyond[0], beyond[1], beyond[2]) in cells:
                continue
            ring = ((0, 0), (1, 0), (1, 1), (0, 1)) if side else ((0, 0), (0, 1), (1, 1), (1, 0))
            face = []
            for u, v in ring:
                corner = list(cell)
                corner[axis] += side
                corner[(axis + 1) % 3] += u
                corner[(axis + 2) % 3] += v
                face.append(points.setdefault((corner[0], corner[1], corner[2]), len(points)))
            faces.append(" ".join(map(str, [4, *face])))
    rows = [" ".join(map(str, point)) for point in points]
    return "\n".join(["OFF", f"{len(rows)} {len(faces)} 0", *rows, *faces]) + "\n"


def written(found: Dict[str, Cells], folder: str) -> List[str]:
    """Writes a mesh for each piece; the paths."""
    paths = []
    for name in sorted(found):
        paths.append(os.path.join(folder, f"{name}.off"))
        with open(paths[-1], "w", encoding="ascii") as file:
            file.write(surface(found[name]))
    return paths
