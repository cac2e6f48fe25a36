"""What is told of a product that was cut: its parts with their bounds, and what follows for the answers of `staat`."""
from __future__ import annotations

import math
import os
from dataclasses import dataclass
from typing import Any, Dict, List, Sequence, Tuple

from .grids import short, written
from .lattices import SIDES
from .overlaps import Overlap
from .product import Part, Product
from .solid import Options, Piece, Pieces

PLANNER = (32, 64)  # parts and pieces that `plan` and its kin take
LIMITS = (1024, 16384)  # parts and pieces of a product at all
SIX_DIGITS = (
    1e-5  # exports often have six digits, so numbers may be wrong by so much of the greatest
)
COSTLY = 3  # parts that are named where pieces are many


@dataclass
class Cut:
    """A part with the pieces of its solids, each with a tag, and the bounds of all of them.

    dent: how far the hull of a part that is nearly convex goes beyond it, at most; model units
    """

    part: Part
    pieces: List[Tuple[str, Piece]]
    over: float
    under: float
    notes: List[str]
    dent: float = math.inf

    @property
    def plain(self) -> List[Piece]:
        return [piece for _, piece in self.pieces]

    def has_holes(self) -> bool:
        """Whether a solid of it has holes, each side of whose polygon makes a piece."""
        return any(surface.hole for solid in self.part.solids for surface in solid.surfaces)


def cut_part(part: Part, found: Sequence[Pieces]) -> Cut:
    pieces: List[Tuple[str, Piece]] = []
    for tag, some in zip(part.tags, found):
        for number, piece in enumerate(some.pieces):
            alone = len(some.pieces) == 1
            pieces.append(
                (tag if alone else f"{tag}-{number}" if len(found) > 1 else str(number), piece)
            )
    notes = sorted({some.note for some in found if some.note})
    over, under = max(some.over for some in found), max(some.under for some in found)
    dent = found[0].dent if len(found) == 1 and len(pieces) > 1 else math.inf
    return Cut(part, pieces, over, under, notes, dent)


def part_lines(product: Product, cuts: Sequence[Cut]) -> List[str]:
    lines = [f"unit {product.unit}"] if product.unit else []
    lines.append(f"grid {written(product.grid)}")
    if product.frame is not None:
        rounded = product.frame.round(6) + 0.0
        rows = ", ".join("({:g}, {:g}, {:g})".format(*row) for row in rounded)
        lines.append(f"turned upright: the axes are {rows} of the model")
    for number, cut in enumerate(cuts):
        lines.append(
            f"part {number} pieces {len(cut.pieces)} over {short(cut.over)} under {short(cut.under)} "
            f"name {cut.part.name}"
        )
    return lines


def way_lines(cuts: Sequence[Cut]) -> List[str]:
    """How parts were cut: the ways, each with how many parts, and their names where they are few."""
    ways: Dict[str, List[str]] = {}
    for cut in cuts:
        for note in {word for note in cut.notes for word in note.split(", ")}:
            ways.setdefault(note, []).append(cut.part.name)
    lines = []
    for note in sorted(ways, key=lambda note: (-len(ways[note]), note)):
        names = ways[note]
        lines.append(
            f"{note}: " + (", ".join(names) if len(names) <= COSTLY else f"{len(names)} parts")
        )
    return lines


def dent_lines(cuts: Sequence[Cut]) -> List[str]:
    """Which parts are convex but for so little that they may be meant so."""
    return [
        f"{cut.part.name} is convex but for {short(cut.dent)}: --tolerance={short(cut.dent)} makes it one piece where "
        "no other part is in the way"
        for cut in cuts
        if cut.dent < math.inf
    ][:COSTLY]


def round_lines(product: Product, options: Options) -> List[str]:
    """What was done with round faces."""
    lines = []
    if any(
        surface.kind in ("cylinder", "cone")
        for part in product.parts
        for s in part.solids
        for surface in s.surfaces
    ):
        if options.chord is not None and options.sides is None:
            how = f"as many sides as a chord of {short(options.chord)} wants"
        else:
            how = f"{options.sides or SIDES} sides to a circle"
        lines.append(f"round faces: {how}, cut at the same angles around one axis")
        if product.shared:
            kind = "get one polygon" if options.side == "near" else "get polygons that are parallel"
            lines.append(
                f"round faces of different parts around one axis {kind}: {product.shared} such axes"
            )
    for name in product.meshed:
        lines.append(f"meshed by gmsh, its polygons shared with no neighbour: {name}")
    return lines


def bound_lines(cuts: Sequence[Cut]) -> List[str]:
    """What the bounds mean for the answers."""
    over, under = max(cut.over for cut in cuts), max(cut.under for cut in cuts)
    if over == 0 and under == 0:
        return ["the pieces are the parts: what staat answers holds of the parts as drawn"]
    if under == 0:
        return [
            f"the pieces contain their parts (beyond by up to {short(over)}): a plan for them is one for the parts"
        ]
    if over == 0:
        return [
            f"the pieces lie within their parts (short by up to {short(under)}): what is stuck as pieces is stuck"
        ]
    return [
        f"the pieces go up to {short(over)} beyond their parts and fall up to {short(under)} short of them",
        "where a fit is tighter, the answer may differ: --side=over makes plans certain, --side=under refusals",
    ]


def limit_lines(cuts: Sequence[Cut], options: Options) -> List[str]:
    """Which limits are exceeded, and what would help."""
    parts, pieces = len(cuts), sum(len(cut.pieces) for cut in cuts)
    lines = []
    if parts > LIMITS[0] or pieces > LIMITS[1]:
        lines.append(
            f"{parts} parts and {pieces} pieces: more than {LIMITS[0]} and {LIMITS[1]}, leave some out"
        )
    elif parts > PLANNER[0] or pieces > PLANNER[1]:
        lines.append(
            f"{parts} parts, {pieces} pieces: staat decide takes them, staat plan no more than"
            f" {PLANNER[0]} and {PLANNER[1]}"
        )
    if lines:
        lines += costly_lines(cuts, options)
    return lines


def costly_lines(cuts: Sequence[Cut], options: Options) -> List[str]:
    """The parts that cost most, and what coarser sides would give."""
    lines = []
    sides = options.sides or SIDES
    coarser = max(6, sides // 2)
    for cut in sorted(cuts, key=lambda cut: -len(cut.pieces))[:COSTLY]:
        many = len(cut.pieces)
        line = f"most pieces: {many} of {cut.part.name}"
        if cut.has_holes() and options.chord is None and coarser < sides:
            line += f", about {math.ceil(many * coarser / sides)} with --sides={coarser}"
        lines.append(line)
    return lines


def overlap_lines(
    found: Sequence[Overlap], cuts: Sequence[Cut], grid: float, greatest: float
) -> List[str]:
    """A line for each two parts that overlap, with the first two pieces that do, and what it may come from."""
    pairs: Dict[Tuple[int, int], List[Overlap]] = {}
    for overlap in found:
        pairs.setdefault((overlap.a, overlap.b), []).append(overlap)
    lines = []
    for (a, b), some in pairs.items():
        one, other = cuts[a], cuts[b]
        depth = max(overlap.depth for overlap in some) * grid
        added = one.over + other.over + max(2 * grid, SIX_DIGITS * greatest)
        line = f"parts {a} and {b} overlap in pieces {some[0].i} and {some[0].j}: "
        line += f"{one.part.name} and {other.part.name}"
        line += f", {short(depth)} deep" + (
            f" in {len(some)} pairs of pieces" if len(some) > 1 else ""
        )
        if depth <= added:
            line += f", which cutting and rounding may have made; try --clearance={short(added)}"
        else:
            line += "; correct the model, or give more sides where round faces became polygons that differ"
        lines.append(line)
    return lines


def upwards(length: float) -> float:
    """The length to twelve digits behind the point, and no less than it is."""
    return math.ceil(length * 1e12) / 1e12


def model_of(product: Product, cuts: Sequence[Cut], options: Options) -> Dict[str, Any]:
    """What other programs want to know of the part list."""
    return {
        "models": [os.path.basename(path) for path in product.inputs],
        "unit": product.unit,
        "grid": str(product.grid),
        "side": options.side,
        **({"axes": product.frame.tolist()} if product.frame is not None else {}),
        "parts": [
            {
                "name": cut.part.name,
                "pieces": len(cut.pieces),
                "over": upwards(cut.over),
                "under": upwards(cut.under),
            }
            for cut in cuts
        ],
        "left out": [{"name": name, "why": why} for name, why in product.lost],
    }
