"""From a solid to its convex pieces, by that of three ways which fits, with its bounds."""
from __future__ import annotations

import time
from dataclasses import dataclass, field
from typing import List, Optional, Sequence, Set, Tuple

import numpy

from ..alike import Turn, mesh_of
from ..hulls import Point
from ..snapping import moved
from ..solid import GREATEST, Mesh, Options, Piece, Pieces, Refusal, Solid
from .bodies import Body, Tangled
from .bounds import Union, farthest
from .cells import Cell, Wall, join_all
from .cgal import OutOfTime, decomposed
from .cutting import convex_pieces
from .frames import Turned, drawn_mesh, frames_of
from .meshes import Surface, open_edges, rounded, shells, solids
from .nearly import beyond_hull, corners_of
from .snapping import grown, piece_or_none, shrunk, small_pieces, snapped
from .touching import apart

HULL, GRID, DRAWN, CGAL, LIKE = (
    "convex",
    "cut on the grid",
    "cut as it was drawn before it was turned",
    "cut by CGAL",
    "cut like one that is turned",
)
MUCH_FINER = 64  # times as fine is the grid on which a solid is cut that crosses or touches itself on the grid
APART = 8.0  # steps of that grid, by which what touches is moved apart
ROUNDED = 1.0  # in steps: a solid beyond which its hull goes by no more is convex
NEARLY = 0.02  # of its extent: a solid beyond which its hull goes by no more is nearly convex


@dataclass
class Cut(Pieces):
    """Pieces of a solid with the cells of which they were made.

    cells: make up the solid on the grid; steps
    beyond: how far the solid on the grid may go beyond, and fall short of, the solid of the model; in model units
    anchor: where the first corner of the first piece lay when the cells were made; pieces that are moved as a whole
        have their cells moved as far
    exact: whether the pieces are the cells
    """

    cells: List[Cell] = field(default_factory=list)
    beyond: Tuple[float, float] = (0.0, 0.0)
    anchor: Point = (0, 0, 0)
    exact: bool = False


@dataclass
class Rough:
    """Cells that stand for a solid, before their corners are put on the grid.

    skin: planes of faces of the solid
    moved: by how many steps the surface of the solid was moved, at most; axes: along which axes
    over: by how many steps the cells go beyond that surface, at most
    """

    cells: List[Cell]
    way: str
    skin: Set[Wall]
    moved: float
    axes: Tuple[int, ...]
    over: float = 0.0


def decompose(solid: Solid, options: Options) -> Cut:
    """The convex pieces of a solid. Refusal: one line that says what is wrong with it, and what to try.

    Bounds: those of the solid on the grid against the model, and those of the pieces against the solid on the grid, add
    up. The latter are 0 where all cells have their corners on the grid; else see `bounds`.
    """
    until = time.process_time() + options.seconds
    if solid.whole is not None:
        rough, (over, under) = of_whole(solid, solid.whole, options, until)
    elif solid.exact is not None:
        rough = of_exact(solid, solid.exact, options, until)
        scale = float(solid.scale)
        over = solid.over + (rough.moved + rough.over) / scale
        under = solid.under + rough.moved / scale
    else:
        raise Refusal("it has no surface")
    if not rough.cells:
        raise Refusal("nothing is left of it on this grid: give a finer one")
    found = measured(solid, rough, options, (over, under))
    found.dent = dent_of(solid) if len(found.pieces) > 1 else numpy.inf
    return found


def dent_of(solid: Solid) -> float:
    """How far the hull of a solid that is nearly convex goes beyond it, at most; else infinite. In model units."""
    mesh = mesh_of(solid)
    points = mesh.points / (float(solid.scale) if solid.whole else 1.0)
    extent = float(numpy.ptp(points, axis=0).max())
    return beyond_hull(points, mesh.faces, NEARLY * extent)


def placed(solid: Solid, options: Options, like: Solid, cut: Cut, turn: Turn) -> Optional[Cut]:
    """The pieces of a solid, made of the cells of one that is like it; nothing where it is better cut by itself.

    like, cut: the other one, and how it was cut; turn: how this one is turned against it
    """
    if cut.note == HULL:
        return None
    of_grid = cut.beyond == (like.whole_over, like.whole_under)
    if turn.whole and of_grid and options.side == "near":
        return turned_whole(solid, cut, turn)
    if solid.whole is not None and CGAL not in cut.note:
        return None
    off = turn.off / float(solid.scale)
    over, under = (far + off for far in beyond_drawn(like, cut))
    cells = [cell.turned(turn.frame, turn.way, 1.0) for cell in cut.cells]
    steps = (under if options.side == "over" else over) * float(solid.scale)
    rough = Rough(cells, LIKE, set(), steps, (0, 1, 2))
    found = measured(solid, rough, options, (solid.over + over, solid.under + under))
    found.dent = cut.dent + 2 * off
    return found


def beyond_drawn(solid: Solid, cut: Cut) -> Tuple[float, float]:
    """How far the cells of a solid go beyond its surface as drawn, and how far they fall short of it; model units."""
    over, under = cut.beyond
    if solid.whole is None or solid.exact is None or cut.note == DRAWN:
        return over - solid.over, under - solid.under
    way = float(moved(solid.exact, solid.whole, solid.scale).max())
    return way + over - solid.whole_over, way + under - solid.whole_under


def turned_whole(solid: Solid, cut: Cut, turn: Turn) -> Cut:
    """The pieces of a solid whose surface on the grid is that of another one, turned by right angles: exactly so."""
    frame, way = turn.frame.astype(numpy.int64), turn.way.astype(numpy.int64)
    pieces = [in_order(piece.points @ frame + way, piece.faces) for piece in cut.pieces]
    cells = [cell.turned_whole(frame.tolist(), way.tolist()) for cell in cut.cells]
    over = solid.whole_over + cut.over - cut.beyond[0]
    under = solid.whole_under + cut.under - cut.beyond[1]
    x, y, z = pieces[0].points[0].tolist()
    beyond = (solid.whole_over, solid.whole_under)
    note = cut.note if (frame == numpy.eye(3)).all() else LIKE
    return Cut(pieces, over, under, note, cells, beyond, (x, y, z), cut.exact, dent=cut.dent)


def in_order(points: numpy.ndarray, faces: List[List[int]]) -> Piece:
    """The piece, its points in order of their coordinates."""
    order = numpy.lexsort(points.T[::-1])
    place = order.argsort().tolist()
    return Piece(points[order], [[place[corner] for corner in face] for face in faces])


def surface_of_whole(solid: Solid, whole: Mesh, side: str) -> Surface:
    """The surface on the grid. Corners count as moved only where they were moved to the side that is not asked for."""
    surface = Surface(
        [(int(x), int(y), int(z)) for x, y, z in whole.points], [list(face) for face in whole.faces]
    )
    wrong = {"over": solid.whole_under - solid.under, "under": solid.whole_over - solid.over}.get(
        side, 0.0
    )
    surface.moved = wrong * float(solid.scale)
    if surface.moved < 1e-6:
        surface.moved = 0.0
    elif solid.exact is not None and len(solid.exact.points) == len(whole.points):
        off = numpy.abs(
            whole.points - numpy.asarray(solid.exact.points, float) * float(solid.scale)
        )
        surface.axes = tuple(axis for axis in range(3) if off[:, axis].max(initial=0.0) > 1e-6)
    else:
        surface.axes = (0, 1, 2)
    return surface


def of_whole(
    solid: Solid, whole: Mesh, options: Options, until: float
) -> Tuple[Rough, Tuple[float, float]]:
    """The cells of a solid that is on the grid, and how far they go beyond, and fall short of, that of the model."""
    surface, scale = surface_of_whole(solid, whole, options.side), float(solid.scale)
    try:
        rough = of_surface(surface, options, until, solid)
    except OutOfTime:
        raise
    except Refusal as fault:
        rough = on_finer_grid(Mesh(whole.points.astype(float), whole.faces), 1.0, fault, until)
        further = rough.moved / scale
        rough.moved += surface.moved
        return rough, (solid.whole_over + further, solid.whole_under + further)
    if rough.way == DRAWN:
        further = rough.moved / scale
        return rough, (solid.over + further, solid.under + further)
    return rough, (solid.whole_over, solid.whole_under)


def of_exact(solid: Solid, mesh: Mesh, options: Options, until: float) -> Rough:
    """The cells of a solid that is not on the grid yet."""
    scale = float(solid.scale)
    surface = rounded(mesh, scale)
    gaps = open_edges(surface.faces)
    if gaps:
        raise Refusal(f"it is not closed at {gaps} edges: repair the mesh")
    if options.side != "under" and len(shells(surface.faces)) == 1:
        beyond = 0.0
        if not is_convex(surface):
            beyond = beyond_hull(numpy.asarray(mesh.points, float) * scale, mesh.faces, ROUNDED)
        if beyond <= ROUNDED:
            cells = convex_cells(corners_of(surface.points, surface.faces), options.corners)
            return Rough(cells, HULL, skin_of(surface), surface.moved, surface.axes, beyond)
    if surface.moved:
        cells = cells_on_grid(surface, options, until)
        if cells:
            return Rough(cells, GRID, skin_of(surface), surface.moved, surface.axes)
        drawn = as_drawn(mesh, scale, options, until)
        if drawn is not None:
            return drawn
    try:
        return of_surface(surface, options, until)
    except OutOfTime:
        raise
    except Refusal as fault:
        return on_finer_grid(mesh, scale, fault, until)


def on_finer_grid(mesh: Mesh, scale: float, fault: Refusal, until: float) -> Rough:
    """The cells of a solid on a finer grid, for one that crosses or touches itself on the grid.

    What touches is moved apart there. The fault: nor is it fit so.
    """
    turned = Turned(mesh, scale, numpy.eye(3), MUCH_FINER, 0.0)
    try:
        surface = rounded(turned.mesh, 1.0, GREATEST * MUCH_FINER)
        if open_edges(surface.faces):
            raise fault
        steps = turned.moved + surface.moved / MUCH_FINER
        parted = apart(surface.points, surface.faces, APART)
        if parted is not None:
            surface.points, surface.faces = parted
            steps += (APART + 1) / MUCH_FINER
        elif not surface.moved:
            raise fault
        cells = [
            turned.back(cell)
            for faces in solids(surface.points, surface.faces)
            for cell in decomposed(surface.points, faces, until - time.process_time())
        ]
    except OutOfTime:
        raise
    except Refusal:
        raise fault from None
    return Rough(cells, CGAL, set(), steps, (0, 1, 2))


def is_convex(surface: Surface) -> bool:
    try:
        return Body.of_mesh(surface.points, surface.faces).is_convex()
    except Tangled:
        return False


def as_drawn(mesh: Mesh, scale: float, options: Options, until: float) -> Optional[Rough]:
    """The cells of a solid that was turned, cut as it was drawn; nothing where it does not fall into pieces so."""
    for frame in frames_of(mesh, options.frame):
        turned = drawn_mesh(mesh, scale, frame)
        surface = rounded(turned.mesh, 1.0) if turned else None
        if turned and surface and not open_edges(surface.faces):
            cells = cells_on_grid(surface, options, until)
            if cells:
                steps = turned.moved + surface.moved / turned.finer
                return Rough([turned.back(cell) for cell in cells], DRAWN, set(), steps, (0, 1, 2))
    return None


def of_surface(
    surface: Surface, options: Options, until: float, solid: Optional[Solid] = None
) -> Rough:
    """The cells of a surface on the grid.

    solid: one that is cut as it was drawn before it is left to CGAL
    """
    gaps = open_edges(surface.faces)
    if gaps:
        raise Refusal(f"it is not closed at {gaps} edges: repair the mesh")
    cells: List[Cell] = []
    ways: List[str] = []
    for faces in solids(surface.points, surface.faces):
        one = Surface(surface.points, faces)
        found = cells_on_grid(one, options, until)
        way = GRID if found and len(found) > 1 else HULL
        if not found and solid and solid.exact:
            drawn = as_drawn(solid.exact, float(solid.scale), options, until)
            if drawn is not None:
                return drawn
        if not found:
            whole = decomposed(surface.points, faces, until - time.process_time())
            found, way = join_all(whole, options.corners, until), CGAL
        cells += found
        ways += [way] if way not in ways else []
    return Rough(cells, ", ".join(ways), skin_of(surface), surface.moved, surface.axes)


def cells_on_grid(surface: Surface, options: Options, until: float) -> List[Cell]:
    """Cells with whole corners that make up a solid; none where no cuts on the grid were found."""
    found: List[Cell] = []
    enough = time.process_time() + options.seconds / 4
    for faces in solids(surface.points, surface.faces):
        try:
            some = convex_pieces(Body.of_mesh(surface.points, faces), options.corners, enough)
        except Tangled:
            some = None
        if some is None:
            return []
        pieces = [piece for points in some for piece in small_pieces(points, options.corners)]
        cells = [Cell.of_piece(piece) for piece in pieces]
        found += join_all(cells, options.corners, until) if len(cells) > 1 else cells
    return found


def convex_cells(points: Sequence[Point], corners: int) -> List[Cell]:
    """The hull of points in cells of at most so many corners."""
    piece = piece_or_none(list(points))
    if piece is None:
        return []
    rows = [(int(x), int(y), int(z)) for x, y, z in piece.points]
    some = convex_pieces(Body.of_mesh(rows, piece.faces), corners, numpy.inf) or [rows]
    return [Cell.of_piece(small) for points in some for small in small_pieces(points, corners)]


def skin_of(surface: Surface) -> Set[Wall]:
    try:
        return set(Body.of_mesh(surface.points, surface.faces).faces)
    except Tangled:
        return set()


def measured(solid: Solid, rough: Rough, options: Options, beyond: Tuple[float, float]) -> Cut:
    """The pieces that stand for cells, on the side that is asked for, with their bounds."""
    own: List[Optional[Piece]] = []
    pieces: List[Piece] = []
    exact = True
    for cell in rough.cells:
        points, is_exact = points_for(cell, rough, options.side)
        exact = exact and is_exact
        own.append(piece_or_none(points))
        pieces += small_pieces(points, options.corners)
    if not pieces:
        raise Refusal("its pieces are too thin for this grid: give a finer one")
    over, under = beyond
    if not exact:
        far, short = between(rough.cells, own, options)
        over, under = over + far / float(solid.scale), under + short / float(solid.scale)
    if options.side == "over":
        under = solid.under
    if options.side == "under":
        over = solid.over
    x, y, z = pieces[0].points[0].tolist()
    return Cut(pieces, over, under, rough.way, rough.cells, beyond, (x, y, z), exact)


def between(cells: List[Cell], own: List[Optional[Piece]], options: Options) -> Tuple[float, float]:
    """How far pieces go beyond the cells that they stand for, and fall short of them; in steps.

    own: the hull of the pieces that stand for a cell, which is their union
    """
    until = time.process_time() + options.seconds / 4
    made = [[] if piece is None else [Cell.of_piece(piece)] for piece in own]
    union = Union([cell for some in made for cell in some])
    over = under = 0.0
    if options.side != "under":
        sources = [[cell] for cell, some in zip(cells, made) if some]
        over = farthest(union.cells, sources, Union(cells), until)
    if options.side != "over":
        under = farthest(cells, made, union, until)
    return over, under


def points_for(cell: Cell, rough: Rough, side: str) -> Tuple[List[Point], bool]:
    """The points whose hull stands for a cell, and whether it is just the cell.

    Where corners of the solid were rounded, pieces that hold it are grown along each axis of rounding by whole steps,
    more than corners moved; and pieces that lie within it are made of what lies deeper in the cell than they moved.
    """
    if not cell.walls and side != "under":
        points = sorted({(int(x), int(y), int(z)) for x, y, z in numpy.rint(cell.table)})
        return (grown(points, (0, 1, 2), rough.moved + 0.5) if side == "over" else points), False
    if (rough.moved or not cell.walls) and side == "under":
        return shrunk(cell, rough.moved), False
    points = snapped(cell, side, rough.skin)
    if rough.moved and side == "over":
        return grown(points, rough.axes, rough.moved), False
    return points, cell.is_whole()
