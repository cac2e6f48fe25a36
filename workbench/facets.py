"""From a solid of planes, cylinders and cones to one of plane faces.

Circles become polygons with their corners at the angles of their axis. A cylinder or cone becomes strips between two
neighbouring angles, which are plane. So all corners of a face stay in its plane, and nothing moves but along a radius.
"""
from __future__ import annotations

from dataclasses import dataclass, field
from typing import Dict, Iterator, List, Optional, Set, Tuple

import numpy

from .brep import Body, Edge, Region, regions_of
from .closing import shell_of
from .fitting import Arc
from .lattices import Axes, Axis
from .solid import Mesh, Options, Surface
from .triangles import newell, triangulated

ROUND = ("cylinder", "cone")
BALL = "sphere"
SPARE = 0.75  # steps; rounding moves a point by at most half the diagonal of a square of the grid


class Unfit(Exception):
    """The solid has faces of other kinds, or edges that the strips do not reach: it is meshed in another way."""


@dataclass
class Faceted:
    """A closed mesh in model units, its bounds against the solid, and the surfaces that its faces stand for.

    spare: the points that may be put on the grid with no change to which side of the solid the mesh is on
    """

    mesh: Mesh
    over: float
    under: float
    surfaces: List[Surface]
    spare: Set[int] = field(default_factory=set)


class Points:
    """Points by number; those that lie together are one."""

    def __init__(self, near: float) -> None:
        self.near, self.rows = near, []  # type: float, List[numpy.ndarray]
        self.cells: Dict[Tuple[int, int, int], List[int]] = {}

    def of(self, point: numpy.ndarray) -> int:
        cell = numpy.floor(point / (8 * self.near)).astype(int)
        for x in (-1, 0, 1):
            for y in (-1, 0, 1):
                for z in (-1, 0, 1):
                    for number in self.cells.get((cell[0] + x, cell[1] + y, cell[2] + z), ()):
                        if numpy.abs(self.rows[number] - point).max() <= self.near:
                            return number
        self.rows.append(point)
        self.cells.setdefault((cell[0], cell[1], cell[2]), []).append(len(self.rows) - 1)
        return len(self.rows) - 1


def noted(body: Body, axes: Axes) -> List[Region]:
    """The regions of a body, after its circles and the corners on them are noted. Unfit: a face of another kind."""
    try:
        regions = regions_of(body, axes.near)
    except ValueError as fault:
        raise Unfit(str(fault)) from fault
    hard = hard_corners(body, regions)
    for region in regions:
        if region.fit.kind not in ("plane", BALL, *ROUND):
            raise Unfit(f"a face is {region.fit.kind}")
        if region.fit.kind == BALL:
            note_ball(body, region, axes, hard)
        if region.fit.kind == "cylinder":
            axes.note(Arc(region.fit.point, region.fit.axis, region.fit.radius), [])
        for loop in region.loops:
            for number, _ in loop:
                edge = body.edges[number]
                corners = [body.vertices[end] for end in edge.ends if end in hard]
                if edge.arc is not None:
                    axes.note(edge.arc, corners)
                elif region.fit.kind in ROUND:
                    note_on_round(region, axes, corners)
    return regions


def note_ball(body: Body, region: Region, axes: Axes, hard: Set[int]) -> None:
    """A part of a ball between whole circles around one axis. Unfit: it is bounded in another way."""
    arcs = circles_of(body, region)
    if len(arcs) < len(region.edges()) or any(
        end in hard for number in region.edges() for end in body.edges[number].ends
    ):
        raise Unfit("a part of a ball that is not bounded by circles")
    if len(region.loops) > 2 or not axes.ball(region.fit.point).note(region.fit.radius, arcs):
        raise Unfit("a part of a ball between circles of several axes")


def circles_of(body: Body, region: Region) -> List[Arc]:
    """The circles of the edges around a region."""
    arcs = (body.edges[number].arc for number in sorted(region.edges()))
    return [arc for arc in arcs if arc is not None]


def note_on_round(region: Region, axes: Axes, corners: List[numpy.ndarray]) -> None:
    """Corners on a cylinder or cone that no circle leads to."""
    fit = region.fit
    for corner in corners:
        across = corner - fit.point - fit.axis * float((corner - fit.point) @ fit.axis)
        if float(numpy.linalg.norm(across)) > axes.near:
            axes.note(Arc(fit.point, fit.axis, float(numpy.linalg.norm(across))), [corner])


def hard_corners(body: Body, regions: List[Region]) -> Set[int]:
    """The vertices at which the edges that are left make a corner: all but those on the way of one circle."""
    around: Dict[int, Set[int]] = {}
    for region in regions:
        for loop in region.loops:
            for number, _ in loop:
                for end in body.edges[number].ends:
                    around.setdefault(end, set()).add(number)
    return {
        end
        for end, numbers in around.items()
        if not on_one_circle([body.edges[n] for n in numbers])
    }


def on_one_circle(edges: List[Edge]) -> bool:
    arcs = [edge.arc for edge in edges]
    first = arcs[0]
    if first is None or len(edges) > 2:
        return False
    near = 1e-6 * first.radius
    return all(
        arc is not None
        and abs(arc.radius - first.radius) < near
        and numpy.abs(arc.centre - first.centre).max() < near
        and numpy.abs(arc.axis - first.axis).max() < 1e-6
        for arc in arcs
    )


@dataclass
class Drawing:
    """The work on one body. `drawn` are the radii of polygons that differ from their circle's, by centre and radius."""

    body: Body
    regions: List[Region]
    axes: Axes
    drawn: Dict[Tuple[int, ...], float] = field(default_factory=dict)

    def __post_init__(self) -> None:
        self.points = Points(self.axes.near)
        self.hard = hard_corners(self.body, self.regions)
        self.faces: List[List[int]] = []
        self.surfaces: List[Surface] = []

    def key(self, arc: Arc) -> Tuple[int, ...]:
        return tuple(
            numpy.rint(numpy.r_[arc.centre, arc.radius] / (4 * self.axes.near)).astype(int).tolist()
        )

    def edge_points(self, number: int) -> List[numpy.ndarray]:
        """The points along an edge, from its first end to its last; where circles join smoothly there is no point."""
        edge = self.body.edges[number]
        start, end = (self.body.vertices[vertex] for vertex in edge.ends)
        if edge.kind == "line":
            return [start, end]
        if edge.arc is None:
            return [start, *self.crossings(edge, number), end]
        axis = self.axes.of(edge.arc)
        centre = axis.point + axis.way * axis.height_of(edge.arc.centre)
        radius = self.drawn.get(self.key(edge.arc), edge.arc.radius)
        found = [
            centre + radius * axis.out(axis.angles[place]) for place in self.passed(edge, axis)
        ]
        for vertex, corner in zip(edge.ends, (start, end)):
            if vertex in self.hard:
                found = [row for row in found if numpy.abs(row - corner).max() > self.axes.near]
        first = [start] if edge.ends[0] in self.hard else []
        return first + found + ([end] if edge.ends[1] in self.hard else [])

    def passed(self, edge: Edge, axis: Axis) -> List[int]:
        """The angles that an arc passes, from its first end to its last, by their places."""
        turns = numpy.unwrap([axis.angle_of(point) for point in edge.at(numpy.linspace(0, 1, 33))])
        low, high = sorted((float(turns[0]), float(turns[-1])))
        found = []
        for place, angle in enumerate(axis.angles):
            for whole in range(-2, 3):
                value = angle + whole * 2 * numpy.pi
                if low - 1e-7 <= value <= high + 1e-7:
                    found.append((value, place))
        found.sort(reverse=bool(turns[0] > turns[-1]))
        return [place for _, place in found]

    def crossings(self, edge: Edge, number: int) -> List[numpy.ndarray]:
        """The points between its ends at which a curve that bounds one round face and planes crosses the angles."""
        rounds = [
            region
            for region in self.regions
            if region.fit.kind in ROUND
            and any(number == other for loop in region.loops for other, _ in loop)
        ]
        if len(rounds) != 1:
            raise Unfit("two round faces meet along a curve that is no circle")
        axis = self.axes.of(Arc(rounds[0].fit.point, rounds[0].fit.axis, 1.0))
        if not axis.angles:
            raise Unfit("a round face without a circle")
        places = numpy.linspace(0, 1, 721)
        turns = numpy.unwrap([axis.angle_of(point) for point in edge.at(places)])
        if not (numpy.diff(turns) > 0).all() and not (numpy.diff(turns) < 0).all():
            raise Unfit("a curve on a round face turns back")
        low, high = sorted((float(turns[0]), float(turns[-1])))
        wanted = sorted(
            angle + whole * 2 * numpy.pi
            for angle in axis.angles
            for whole in range(-2, 3)
            if low + 1e-7 < angle + whole * 2 * numpy.pi < high - 1e-7
        )
        if turns[0] > turns[-1]:
            turns, places, wanted = turns[::-1], places[::-1], wanted
        found = [crossing(edge, axis, turns, places, value) for value in wanted]
        if places[0] > places[-1]:
            found.reverse()
        return found

    def loop_numbers(self, loop: List[Tuple[int, bool]]) -> List[int]:
        """The numbers of the points around a loop, none twice in a row."""
        numbers: List[int] = []
        for number, forward in loop:
            rows = [self.points.of(row) for row in self.edge_points(number)]
            numbers += rows if forward else rows[::-1]
        return [number for place, number in enumerate(numbers) if number != numbers[place - 1]]

    def draw(self) -> None:
        for region in self.regions:
            loops = [self.loop_numbers(loop) for loop in region.loops]
            fit = region.fit
            before = len(self.faces)
            if fit.kind == "plane":
                self.draw_plane(region, loops)
            elif fit.kind == BALL:
                self.draw_ball(region)
            else:
                self.draw_round(region, loops)
            self.surfaces.append(
                Surface(
                    fit.kind,
                    fit.point,
                    fit.axis,
                    fit.radius,
                    False,
                    list(range(before, len(self.faces))),
                )
            )

    def draw_plane(self, region: Region, loops: List[List[int]]) -> None:
        loops = [loop for loop in loops if len(loop) >= 3]
        used = sorted({number for loop in loops for number in loop})
        place = {number: at for at, number in enumerate(used)}
        rows = numpy.array([self.points.rows[number] for number in used])
        sizes = [float(numpy.linalg.norm(newell(rows[[place[n] for n in loop]]))) for loop in loops]
        order = sorted(range(len(loops)), key=lambda at: -sizes[at])
        if len(loops) == 1:
            self.faces.append(loops[0])
        elif loops:
            local = [[place[number] for number in loops[at]] for at in order]
            found = triangulated(rows, local, region.fit.axis)
            self.faces += [[used[corner] for corner in face] for face in found]

    def draw_ball(self, region: Region) -> None:
        """The faces of a part of a ball: between each two angles and latitudes."""
        fit = region.fit
        ball = self.axes.ball(fit.point)
        axis = self.axes.axis_of(ball)
        radius = self.drawn.get(self.ball_key(region), fit.radius)
        low, high = ball.zone(region.inner, circles_of(self.body, region))
        rings: List[List[int]] = []
        for level in ball.between(low, high):
            pole = abs(abs(level) - numpy.pi / 2) < 1e-6
            outs = [numpy.zeros(3)] if pole else [axis.out(angle) for angle in axis.angles]
            up = ball.axis * numpy.sin(level)
            rings.append(
                [
                    self.points.of(ball.centre + radius * (up + numpy.cos(level) * out))
                    for out in outs
                ]
            )
        many = len(axis.angles)
        for one, other in zip(rings, rings[1:]):
            for k in range(many):
                face = [one[k % len(one)], one[(k + 1) % len(one)]]
                face += [other[(k + 1) % len(other)], other[k % len(other)]]
                self.faces.append([n for at, n in enumerate(face) if n != face[at - 1]])

    def ball_key(self, region: Region) -> Tuple[int, ...]:
        """The key of a whole ball."""
        return (-1, *self.key(Arc(region.fit.point, region.fit.axis, region.fit.radius)))

    def share(self, region: Region) -> float:
        """How far from its centre a face of a ball's polyhedron is at least, as a share of its corners' distance.

        The corners between two angles and two latitudes: across the axis they come nearer by the cosine of half the
        angle, and along a meridian by that of half the latitude.
        """
        ball = self.axes.ball(region.fit.point)
        return float(numpy.cos(ball.tallest() / 2)) / self.axes.axis_of(ball).factor()

    def draw_round(self, region: Region, loops: List[List[int]]) -> None:
        fit = region.fit
        axis = self.axes.of(Arc(fit.point, fit.axis, 1.0))
        many = len(axis.angles)
        steps: Dict[int, List[Tuple[float, int, int]]] = {}
        upright: Dict[int, Set[int]] = {}
        tips: List[int] = []
        for loop in loops:
            marks = [
                self.place(number, fit.point if fit.kind == "cone" else None, axis)
                for number in loop
            ]
            for k, (one, two) in enumerate(zip(loop, loop[1:] + loop[:1])):
                low, high = marks[k], marks[(k + 1) % len(loop)]
                if low is None or high is None:
                    tips += [number for number, mark in ((one, low), (two, high)) if mark is None]
                    continue
                upright.setdefault(low, set()).add(one)
                if low == high:
                    continue
                if (low + 1) % many == high:
                    pair = (low, one, two)
                elif (high + 1) % many == low:
                    pair = (high, two, one)
                else:
                    raise Unfit("an edge passes an angle without a corner")
                middle = (self.points.rows[pair[1]] + self.points.rows[pair[2]]) / 2
                steps.setdefault(pair[0], []).append((axis.height_of(middle), pair[1], pair[2]))
        if fit.kind == "cone" and any(len(some) % 2 for some in steps.values()):
            tips = tips or [self.points.of(fit.point)]
        for place, some in sorted(steps.items()):
            self.draw_strip(axis, place, sorted(some), upright, tips)

    def place(self, number: int, tip: Optional[numpy.ndarray], axis: Axis) -> Optional[int]:
        """At which angle a point lies; nothing where it is the tip of a cone."""
        row = self.points.rows[number]
        if tip is not None and numpy.abs(row - tip).max() <= 8 * self.axes.near:
            return None
        found = axis.place_of(row)
        if found is None:
            raise Unfit("a corner on a round face lies between the angles")
        return found

    def draw_strip(
        self,
        axis: Axis,
        place: int,
        steps: List[Tuple[float, int, int]],
        upright: Dict[int, Set[int]],
        tips: List[int],
    ) -> None:
        """The faces between two neighbouring angles: between each two edges that cross there."""
        if len(steps) % 2:
            if not tips:
                raise Unfit("a round face is open")
            if len(steps) == 1:
                self.faces.append([steps[0][1], steps[0][2], tips[0]])
                return
            raise Unfit("a cone with its tip and more")
        after = (place + 1) % len(axis.angles)
        for low, high in zip(steps[::2], steps[1::2]):
            left = self.between(axis, upright.get(place, set()), low[1], high[1])
            right = self.between(axis, upright.get(after, set()), low[2], high[2])
            face = [low[1], low[2]] + right + [high[2], high[1]] + left[::-1]
            face = [number for at, number in enumerate(face) if number != face[at - 1]]
            if len(face) >= 3:
                self.faces.append(face)

    def between(self, axis: Axis, numbers: Set[int], low: int, high: int) -> List[int]:
        """The corners on an upright line that lie between two of them, upwards."""
        heights = {
            number: axis.height_of(self.points.rows[number]) for number in numbers | {low, high}
        }
        inner = [
            n
            for n in numbers
            if heights[low] + self.axes.near < heights[n] < heights[high] - self.axes.near
        ]
        return sorted(inner, key=lambda number: heights[number])


def crossing(
    edge: Edge, axis: Axis, turns: numpy.ndarray, places: numpy.ndarray, value: float
) -> numpy.ndarray:
    """The point of a curve at an angle, by halving; `turns` ascend."""
    at = int(numpy.searchsorted(turns, value))
    low, high = float(places[at - 1]), float(places[at])
    for _ in range(60):
        middle = (low + high) / 2
        angle = axis.angle_of(edge.at(numpy.array([middle]))[0])
        way = (angle - value + numpy.pi) % (2 * numpy.pi) - numpy.pi
        low, high = (middle, high) if way < 0 else (low, middle)
    return edge.at(numpy.array([(low + high) / 2]))[0]


def closed_mesh(drawing: Drawing) -> Mesh:
    """The drawing as a mesh that is wound outwards. Unfit: it is not closed."""
    if not drawing.faces:
        raise Unfit("no faces")
    shell = shell_of(numpy.array(drawing.points.rows), drawing.faces, numpy.inf)
    if shell.gaps:
        raise Unfit(f"the faces leave {shell.gaps} edges open")
    return shell.mesh


def mark_holes(drawing: Drawing, mesh: Mesh) -> None:
    """Says of each round surface whether the solid lies outside of it."""
    for surface in drawing.surfaces:
        if surface.kind in (BALL, *ROUND) and surface.faces and surface.axis is not None:
            rows = mesh.points[mesh.faces[surface.faces[0]]]
            out = rows.mean(axis=0) - surface.point
            if surface.kind != BALL:
                out = out - surface.axis * float(out @ surface.axis)
            surface.hole = float(newell(rows) @ out) < 0


def drawn_radii(drawing: Drawing, options: Options) -> Dict[Tuple[int, ...], float]:
    """The radii of polygons that are to lie around their circle, or surely within it.

    For `over` the polygons of pins lie around and those of holes within, for `under` the other way, by so much that
    rounding to the grid changes nothing in it. Only a whole circle can be drawn so: else faces hold corners in place.
    """
    wanted: Dict[Tuple[int, ...], float] = {}
    if options.side == "near":
        return wanted
    spare = SPARE / float(options.scale or 1)
    for region, surface in zip(drawing.regions, drawing.surfaces):
        for arc, axis in whole_circles(drawing, region):
            key, grow = drawing.key(arc), surface.hole == (options.side == "under")
            radius = (
                (arc.radius + spare) * axis.factor() if grow else arc.radius - spare * axis.factor()
            )
            wanted[key] = radius if wanted.get(key, radius) == radius else arc.radius
        if region.fit.kind == BALL and not region.loops:
            fit, grow = region.fit, surface.hole == (options.side == "under")
            share = drawing.share(region)
            radius = (fit.radius + 2 * spare) / share if grow else fit.radius - 2 * spare
            wanted[drawing.ball_key(region)] = radius
    return {key: radius for key, radius in wanted.items() if radius > 0}


def whole_circles(drawing: Drawing, region: Region) -> Iterator[Tuple[Arc, Axis]]:
    """The circles around a round region of which no other face holds a corner in place, with their axes."""
    for number in (
        {number for loop in region.loops for number, _ in loop}
        if region.fit.kind in ROUND
        else set()
    ):
        edge = drawing.body.edges[number]
        if edge.arc is not None and not any(end in drawing.hard for end in edge.ends):
            axis = drawing.axes.of(edge.arc)
            if not axis.forced:
                yield edge.arc, axis


def bounds_of(drawing: Drawing) -> Tuple[float, float]:
    """How far the faces go beyond the solid, and how far they fall short of it."""
    over = under = 0.0
    for region, surface in zip(drawing.regions, drawing.surfaces):
        if region.fit.kind == BALL:
            radius = region.fit.radius
            drawn = drawing.drawn.get(drawing.ball_key(region), radius)
            beyond, short = max(drawn - radius, 0.0), max(
                radius - drawn * drawing.share(region), 0.0
            )
            over = max(over, short if surface.hole else beyond)
            under = max(under, beyond if surface.hole else short)
        for number in (
            {number for loop in region.loops for number, _ in loop}
            if surface.kind in ROUND
            else set()
        ):
            edge = drawing.body.edges[number]
            axis = drawing.axes.of(Arc(surface.point, region.fit.axis, 1.0))
            rows = edge.at(numpy.linspace(0, 1, 17)) - axis.point
            radius = float(numpy.linalg.norm(numpy.cross(rows, axis.way), axis=1).max())
            drawn = (
                drawing.drawn.get(drawing.key(edge.arc), radius) if edge.arc is not None else radius
            )
            beyond = max(drawn - radius, 0.0)
            short = max(radius - drawn / axis.factor(), 0.0)
            over = max(over, short if surface.hole else beyond)
            under = max(under, beyond if surface.hole else short)
    return over, under


def spare_points(drawing: Drawing, mesh: Mesh) -> Set[int]:
    """The points of the mesh on polygons that are drawn with room for rounding."""
    found: Set[int] = set()
    for region in drawing.regions:
        for arc, axis in whole_circles(drawing, region):
            radius = drawing.drawn.get(drawing.key(arc))
            if radius is not None and radius != arc.radius:
                centre = axis.point + axis.way * axis.height_of(arc.centre)
                far = numpy.abs(numpy.linalg.norm(mesh.points - centre, axis=1) - radius)
                flat = numpy.abs((mesh.points - centre) @ axis.way)
                found |= set(
                    numpy.nonzero((far < 1e-9 * radius) & (flat < 1e-9 * radius))[0].tolist()
                )
    return found


def faceted(body: Body, regions: List[Region], axes: Axes, options: Options) -> Faceted:
    """The body with plane faces. Unfit: it cannot be made so."""
    drawing = Drawing(body, regions, axes)
    drawing.draw()
    mesh = closed_mesh(drawing)
    mark_holes(drawing, mesh)
    drawn = drawn_radii(drawing, options)
    if drawn:
        surfaces = drawing.surfaces
        drawing = Drawing(body, regions, axes, drawn)
        drawing.draw()
        for surface, known in zip(drawing.surfaces, surfaces):
            surface.hole = known.hole
        mesh = closed_mesh(drawing)
    over, under = bounds_of(drawing)
    mesh.name = body.name
    return Faceted(mesh, over, under, drawing.surfaces, spare_points(drawing, mesh))
