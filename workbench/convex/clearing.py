"""What only the neighbours of a solid can tell: which pieces may be joined, and which faces have to give way."""
from __future__ import annotations

import itertools
import math
import time
from fractions import Fraction
from typing import Dict, Iterable, List, Optional, Sequence, Set, Tuple

import numpy
from scipy.spatial import ConvexHull, QhullError

from ..hulls import Point, dot, less, piece_of, primitive
from ..overlaps import Body, apart_by_boxes, depth_between, overlaps
from ..solid import Options, Piece, Pieces, Solid
from .bounds import Union, farthest, reach
from .cells import CLEARLY, Cell, Corner, extreme, height_of
from .decomposing import Cut
from .snapping import small_pieces, snapped

ROUNDED = 2.0  # in steps: overlaps that rounding makes are no deeper
ROUNDS = 4  # in which pieces give way, since a cut piece may be cut again


class Part:
    """The pieces of one solid while they change, and how far they go beyond the solid and fall short of it in steps."""

    def __init__(self, number: int, solid: Solid, found: Pieces) -> None:
        self.number, self.solid, self.found = number, solid, found
        self.scale = float(solid.scale)
        self.pieces = list(found.pieces)
        self.over, self.under = found.over, found.under
        self.notes: List[str] = [found.note] if found.note else []
        self.exact, self.beyond = True, (found.over, found.under)
        if isinstance(found, Cut):
            self.exact, self.beyond = found.exact, found.beyond
            x, y, z = found.pieces[0].points[0].tolist()
            step = less((x, y, z), found.anchor)
            self.cells = [cell.moved(step) for cell in found.cells] if any(step) else found.cells
        else:
            self.cells = [Cell.of_piece(piece) for piece in found.pieces]

    def result(self) -> Pieces:
        notes = ", ".join(self.notes)
        return Pieces(self.pieces, self.over, self.under, notes, dent=self.found.dent)


class Neighbours:
    """The pieces of all parts, asked for those of other parts that a piece overlaps."""

    def __init__(self, parts: Sequence[Part]) -> None:
        self.parts: Dict[str, List[Part]] = {}
        self.bodies: Dict[str, List[Body]] = {}
        self.boxes: Dict[str, Tuple[numpy.ndarray, numpy.ndarray]] = {}
        for part in parts:
            self.parts.setdefault(part.solid.name, []).append(part)
        for name in self.parts:
            self.take(name)

    def take(self, name: str) -> None:
        """Takes the pieces of the part of that name as they are now."""
        some = [
            Body(part.number, at, piece)
            for part in self.parts[name]
            for at, piece in enumerate(part.pieces)
        ]
        self.bodies[name] = some
        self.boxes[name] = (
            numpy.array([body.least for body in some]),
            numpy.array([body.most for body in some]),
        )

    def met(self, name: str, piece: Piece) -> bool:
        """Whether a piece of the part of that name overlaps a piece of another part."""
        body = Body(-1, 0, piece)
        for other, (least, most) in self.boxes.items():
            if other == name:
                continue
            near = ((least < body.most) & (most > body.least)).all(axis=1)
            for number in numpy.nonzero(near)[0]:
                if depth_between(body, self.bodies[other][number]) is not None:
                    return True
        return False


def clear(solids: Sequence[Solid], found: Sequence[Pieces], options: Options) -> List[Pieces]:
    """The pieces of all solids, after pieces are joined and faces give way where parts overlap.

    Pieces of a solid are joined while their hull goes beyond the solid by at most `options.join`, or by as much as
    rounding did, and comes to overlap no other part. Where pieces of different parts overlap by at most the clearance
    of one of the parts, or of both together, its piece is cut back to the wall between the two; nothing else moves.
    What rounding alone makes overlap is cut back without a clearance, if the side is "near".
    """
    parts = [Part(number, solid, some) for number, (solid, some) in enumerate(zip(solids, found))]
    until = time.process_time() + options.seconds
    wide = [part for part in parts if len(part.pieces) > 1 and loose(part, options) > 0.0]
    neighbours = Neighbours(parts if wide else [])
    for part in wide:
        join_loosely(part, loose(part, options), options.corners, neighbours, until)
        neighbours.take(part.solid.name)
    for _ in range(ROUNDS):
        if not give_way(parts, options):
            break
    return [part.result() for part in parts]


def loose(part: Part, options: Options) -> float:
    """By how many steps hulls of joined pieces may go beyond the solid.

    Where nothing is asked for (`options.join` below 0), it is a ten-thousandth of the extent for pieces that are not
    just the solid on the grid, and else nothing.
    """
    if options.side == "under":
        return 0.0
    if options.join >= 0:
        return max(options.join * part.scale, 0.0 if part.exact else 1.0)
    if part.exact:
        return 0.0
    least = numpy.min([cell.least for cell in part.cells], axis=0)
    most = numpy.max([cell.most for cell in part.cells], axis=0)
    return max(1.0, float((most - least).max()) / 10000)


def volume_and_area(points: numpy.ndarray) -> Tuple[float, float]:
    try:
        hull = ConvexHull(points)
    except QhullError:
        return 0.0, math.inf
    return float(hull.volume), float(hull.area)


def clearly_beyond(points: numpy.ndarray, union: Union, tolerance: float, corners: int) -> bool:
    """Whether the middle of some triangle of the hull lies too far from a union; or the hull has too many corners."""
    hull = ConvexHull(points)
    middles = points[hull.simplices].mean(axis=1)
    return len(hull.vertices) > corners or bool(
        union.ahead(middles).min(axis=0).max() > tolerance + CLEARLY
    )


def near_pairs(pieces: Sequence[Piece]) -> Iterable[Tuple[int, int]]:
    """The numbers of pieces whose boxes lie within a step of each other."""
    least = numpy.array([piece.points.min(axis=0) for piece in pieces]) - 1
    most = numpy.array([piece.points.max(axis=0) for piece in pieces])
    for number in range(len(pieces)):
        near = ((least <= most[number]) & (most >= least[number])).all(axis=1)
        near[numpy.arange(len(near)) <= number] = False
        for other in numpy.nonzero(near)[0]:
            yield number, int(other)


def join_loosely(
    part: Part, tolerance: float, corners: int, others: Neighbours, until: float
) -> None:
    """Joins pieces while their hulls go beyond the solid by at most so many steps and reach no other part."""
    if part.found.dent * part.scale <= tolerance and join_all_in_one(part, corners, others):
        return
    pieces: Dict[int, Piece] = dict(enumerate(part.pieces))
    sizes = {
        number: volume_and_area(piece.points.astype(float))[0] for number, piece in pieces.items()
    }
    union = Union(part.cells)
    waiting: List[Tuple[float, int, int]] = []
    farthest_so_far = 0.0

    def consider(one: int, other: int) -> None:
        first, second = pieces[one].points, pieces[other].points
        volume, area = volume_and_area(numpy.vstack([first, second]).astype(float))
        added = volume - sizes[one] - sizes[other]
        if added <= tolerance * area:
            waiting.append((max(added, 0.0) / (area or 1.0), one, other))

    for one, other in near_pairs(part.pieces):
        if time.process_time() > until:
            break
        consider(one, other)
    following = len(pieces)
    while waiting and time.process_time() < until:
        waiting.sort(reverse=True)
        _, one, other = waiting.pop()
        if one not in pieces or other not in pieces:
            continue
        points = [*pieces[one].points.tolist(), *pieces[other].points.tolist()]
        if clearly_beyond(numpy.array(points, float), union, tolerance, corners):
            continue
        made = piece_of(points)
        far = reach(Cell.of_piece(made), union, tolerance, tolerance)
        if far > tolerance or len(made.points) > corners or others.met(part.solid.name, made):
            continue
        farthest_so_far = max(farthest_so_far, far)
        del pieces[one], pieces[other]
        pieces[following] = made
        sizes[following] = volume_and_area(made.points.astype(float))[0]
        least, most = made.points.min(axis=0) - 1, made.points.max(axis=0) + 1
        for number, piece in list(pieces.items()):
            if number != following and (piece.points.min(axis=0) <= most).all():
                if (piece.points.max(axis=0) >= least).all():
                    consider(number, following)
        following += 1
    if len(pieces) < len(part.pieces):
        part.notes.append(f"{len(part.pieces)} pieces joined to {len(pieces)}")
        part.pieces = list(pieces.values())
        if farthest_so_far > 0.0:
            part.over = max(part.over, part.beyond[0] + (farthest_so_far + CLEARLY) / part.scale)


def join_all_in_one(part: Part, corners: int, others: Neighbours) -> bool:
    """Makes one piece of a solid that is nearly convex, if it reaches no other part; whether it did."""
    made = piece_of([point for piece in part.pieces for point in piece.points.tolist()])
    if len(made.points) > corners or others.met(part.solid.name, made):
        return False
    part.notes.append(f"{len(part.pieces)} pieces joined to 1")
    part.pieces = [made]
    part.over += part.found.dent
    return True


def give_way(parts: Sequence[Part], options: Options) -> bool:
    """Cuts back pieces that overlap pieces of other parts; whether any was."""
    names = sorted({part.solid.name for part in parts})
    owners: List[List[Tuple[Part, int]]] = [[] for _ in names]
    listed: List[List[Piece]] = [[] for _ in names]
    for part in parts:
        at = names.index(part.solid.name)
        owners[at] += [(part, number) for number in range(len(part.pieces))]
        listed[at] += part.pieces
    cuts: Dict[Tuple[int, int], List[Tuple[Point, int]]] = {}
    for overlap in overlaps(listed):
        one, other = owners[overlap.a][overlap.i], owners[overlap.b][overlap.j]
        wall = wall_between(one[0].pieces[one[1]], other[0].pieces[other[1]])
        if wall is None:
            continue
        for (part, number), cut in walls_of(one, other, wall, options):
            cuts.setdefault((part.number, number), []).append(cut)
    changed: Set[int] = set()
    for (at, number), walls in cuts.items():
        part = parts[at]
        part.pieces[number] = cut_back(part.pieces[number], walls) or part.pieces[number]
        changed.add(at)
    flat = {key for key, walls in cuts.items() if not fits(parts[key[0]].pieces[key[1]], walls)}
    for at in changed:
        gone = {number for part, number in flat if part == at}
        measure_again(parts[at], gone if len(gone) < len(parts[at].pieces) else set(), options)
    return bool(changed)


def clearance_of(part: Part, options: Options) -> float:
    """By how many steps faces of a part may move inwards."""
    given = options.clearance.get(part.solid.name, options.clearance.get("", 0.0)) * part.scale
    return max(given, ROUNDED if options.side == "near" else 0.0)


def walls_of(
    one: Tuple[Part, int],
    other: Tuple[Part, int],
    wall: Tuple[Point, int, int, float],
    options: Options,
) -> Iterable[Tuple[Tuple[Part, int], Tuple[Point, int]]]:
    """Which of two pieces that overlap is cut back, and by which wall; nothing where no clearance is enough.

    The part with the greater clearance gives way; where neither clearance is enough, both do.
    """
    normal, least, most, depth = wall
    back = (-normal[0], -normal[1], -normal[2])
    first, second = clearance_of(one[0], options), clearance_of(other[0], options)
    if max(first, second) >= depth:
        if first >= second:
            yield one, (normal, least)
        else:
            yield other, (back, -most)
    elif first + second >= depth:
        middle = most - math.floor((most - least) * first / (first + second))
        yield one, (normal, middle)
        yield other, (back, -middle)


def wall_between(one: Piece, other: Piece) -> Optional[Tuple[Point, int, int, float]]:
    """The wall by which two pieces overlap least: its normal, where the other begins along it, where the one ends, and
    how deep that is in steps."""
    first, second = Body(0, 0, one), Body(1, 0, other)
    if apart_by_boxes(first, second):
        return None
    faces = numpy.array(first.normals + [(-x, -y, -z) for x, y, z in second.normals], numpy.int64)
    crossed = numpy.cross(
        numpy.array(first.edges)[:, None, :], numpy.array(second.edges)[None, :, :]
    )
    crossed = crossed.reshape(-1, 3)
    crossed = crossed[crossed.any(axis=1)]
    best: Optional[Tuple[Point, int, int, float]] = None
    for walls, favour in ((faces, 1.0), (numpy.vstack([crossed, -crossed]), 0.5)):
        if not len(walls):
            continue
        ends, begins = (walls @ one.points.T).max(axis=1), (walls @ other.points.T).min(axis=1)
        depths = (ends - begins) / numpy.linalg.norm(walls.astype(float), axis=1)
        at = int(depths.argmin())
        if depths[at] <= 0:
            return None
        if best is None or depths[at] < favour * best[3]:
            x, y, z = walls[at].tolist()
            best = ((x, y, z), int(begins[at]), int(ends[at]), float(depths[at]))
    return best


def cut_back(piece: Piece, walls: Sequence[Tuple[Point, int]]) -> Optional[Piece]:
    """The hull of points of the grid within what the walls leave of a piece; nothing where they are flat."""
    cell: Optional[Cell] = Cell.of_piece(piece)
    for normal, height in walls:
        shortest = primitive(normal)
        limit = math.floor(Fraction(height * dot(shortest, shortest), dot(shortest, normal)))
        cell = cell and below(cell, shortest, limit)
    if cell is None:
        return None
    made = small_pieces(snapped(cell, "under", set()), 10**6)
    return made[0] if made else None


def below(cell: Cell, normal: Point, height: int) -> Optional[Cell]:
    """The part of a cell below a plane; nothing where none is left."""
    sides = [(corner, height_of(normal, corner) - height) for corner in cell.corners]
    kept: List[Corner] = [corner for corner, side in sides if side <= 0]
    if all(side >= 0 for _, side in sides):
        return None
    for (one, low), (other, high) in itertools.product(sides, sides):
        if low < 0 < high:
            share = Fraction(low) / (low - high)
            x, y, z = (a + (b - a) * share for a, b in zip(one, other))
            kept.append((x, y, z))
    walls = [*cell.walls, (normal, height)]
    corners = extreme(set(kept), walls)
    left = [
        wall
        for wall in walls
        if sum(height_of(wall[0], corner) == wall[1] for corner in corners) >= 3
    ]
    return Cell(corners, left) if len(corners) >= 4 else None


def fits(piece: Piece, walls: Sequence[Tuple[Point, int]]) -> bool:
    return all(
        int((piece.points @ numpy.array(normal, numpy.int64)).max()) <= height
        for normal, height in walls
    )


def measure_again(part: Part, gone: Set[int], options: Options) -> None:
    """Takes out pieces that were cut away, and tells how far the rest falls short of the solid."""
    part.pieces = [piece for number, piece in enumerate(part.pieces) if number not in gone]
    made = [Cell.of_piece(piece) for piece in part.pieces]
    own: List[List[Cell]] = [[] for _ in part.cells]
    far = farthest(part.cells, own, Union(made), time.process_time() + options.seconds / 4)
    part.under = max(part.under, part.beyond[1] + far / part.scale)
    if "gave way" not in part.notes:
        part.notes.append("gave way")
