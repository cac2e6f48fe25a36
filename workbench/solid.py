"""What is read of a model, what it is cut into, and what was asked for.

Lengths come in two units. A *model unit* is that of the file, as a millimetre; a *step* is one of the grid on which all
written points lie, and `Solid.scale` says how many steps a model unit has.

How far two solids are apart is told one way at a time. `over` of A against B: each point of A lies within `over` of B.
`under` of A against B: each point of B lies within `under` of A. So `under == 0` says that A contains B, and such
bounds add up along a chain of solids. They are upper bounds, never guesses.
"""
from __future__ import annotations

import math
from dataclasses import dataclass, field
from fractions import Fraction
from typing import Dict, List, Optional, Tuple

import numpy

GREATEST = 262144  # the greatest coordinate that staat reads, in steps
MOST_CORNERS = 64  # of a piece


class Refusal(Exception):
    """A line that says why something cannot be done, and what to try. The other solids go on."""


@dataclass
class Mesh:
    """A closed surface.

    points: (n, 3), int64 in steps or float64 in model units
    faces: corners by number, wound so that the normal leads outwards; each face is plane, simple and without holes
    """

    points: numpy.ndarray
    faces: List[List[int]]
    name: str = ""


@dataclass
class Surface:
    """A surface of the model that faces of `Solid.exact` stand for.

    kind: "plane", "cylinder", "cone" or "sphere"
    point: a point of the plane, a point on the axis, the tip of a cone, the centre of a sphere; model units
    axis: unit vector: the outward normal of a plane, the axis of a cylinder or cone (nothing of a sphere)
    radius: of a cylinder or sphere, model units; of a cone the tangent of half its opening angle
    hole: the solid lies outside of the cylinder, cone or sphere
    faces: numbers of the faces of `Solid.exact` that stand for it
    """

    kind: str
    point: numpy.ndarray
    axis: Optional[numpy.ndarray]
    radius: float = 0.0
    hole: bool = False
    faces: List[int] = field(default_factory=list)


@dataclass
class Solid:
    """A solid of the model, bounded by plane faces.

    name: that of the part it belongs to
    scale: steps in a model unit
    exact: its surface before it is put on the grid, in model units
    whole: the same surface on the grid, where each face could be kept exactly plane there; then nothing needs to be
        rounded any more, and neighbours share what they share in the model
    surfaces: where OpenCASCADE knew them
    over, under: of `exact` against the solid of the model (curved faces were cut into plane ones)
    whole_over, whole_under: of `whole` against the solid of the model, where there is a `whole`
    """

    name: str
    scale: Fraction
    exact: Optional[Mesh]
    whole: Optional[Mesh] = None
    surfaces: List[Surface] = field(default_factory=list)
    over: float = 0.0
    under: float = 0.0
    whole_over: float = 0.0
    whole_under: float = 0.0


@dataclass
class Piece:
    """A convex piece: points (n, 3) int64 in steps with n from 4 to 64, and its faces, wound outwards."""

    points: numpy.ndarray
    faces: List[List[int]]


@dataclass
class Pieces:
    """The pieces of a solid; over and under are of their union against the solid of the model, in model units.

    The bounds of `exact` (or `whole`) against the model are in them already. `note` says what was done, in a few words.
    dent: how far the hull of a solid that is nearly convex goes beyond it, at most; model units
    """

    pieces: List[Piece]
    over: float
    under: float
    note: str = ""
    dent: float = field(default=math.inf, kw_only=True)


@dataclass
class Options:
    """What was asked for.

    scale: steps in a model unit; nothing until all files were looked at
    chord: how far a plane face may lie from the curved one that it stands for, at most; model units
    sides: of a whole circle, in the place of `chord`
    side: "near", "over" (pieces contain their solids) or "under" (they lie within them)
    join: pieces are joined while their hull goes beyond the solid by at most this; model units
    clearance: faces of parts move inwards by this where they meet other parts; by name, and "" is for all others
    seconds: how long one solid may take
    frame: rows are the directions along which most of a product that was turned lies; nothing where they are the axes
    """

    scale: Optional[Fraction] = None
    chord: Optional[float] = None
    sides: Optional[int] = None
    side: str = "near"
    join: float = 0.0
    clearance: Dict[str, float] = field(default_factory=dict)
    seconds: float = 60.0
    corners: int = MOST_CORNERS
    frame: Optional[numpy.ndarray] = None


# Asked of workbench.convex:
#   decompose(solid: Solid, options: Options) -> Pieces             raises Refusal
#   clear(solids: List[Solid], found: List[Pieces], options: Options) -> List[Pieces]
#       moves faces inwards by `options.clearance`, and joins what only neighbours forbade or allow
# Asked of workbench.reading:
#   read(path: str, options: Options) -> List[Solid]                raises Refusal
Found = Tuple[Solid, Pieces]
