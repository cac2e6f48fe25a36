"""From the files that are named to the parts of a product, each with its solids on one grid."""
from __future__ import annotations

import itertools
import os
from dataclasses import dataclass, field
from fractions import Fraction
from typing import Dict, List, Optional, Sequence, Tuple

import numpy

from .brep import Body, Region
from .closing import Shell, holds, shells_of
from .convex.frames import frame_of
from .facets import Faceted, Unfit, faceted, noted
from .grids import finest, short, written
from .lattices import Axes
from .meshing import meshed
from .reading import lists, meshes, step
from .snapping import moved, on_grid
from .solid import GREATEST, Mesh, Options, Refusal, Solid

MESHES = (".stl", ".obj", ".ply", ".off", ".3mf")
SUFFIXES = MESHES + step.SUFFIXES


@dataclass
class Part:
    """A part with its solids; `tags` tell the solids of a part apart, in the names of files."""

    name: str
    solids: List[Solid] = field(default_factory=list)
    tags: List[str] = field(default_factory=list)


@dataclass
class Product:
    """The parts that could be read, in the unit of the model (nothing where no file tells one).

    lost: for each part that is left out its name and the line that says why
    shared: how many axes have round faces of different parts on them; meshed: the solids that gmsh meshed
    frame: rows are the directions of the model that are the axes here, where it was turned upright
    """

    parts: List[Part]
    unit: str
    grid: Fraction
    lost: List[Tuple[str, str]] = field(default_factory=list)
    shared: int = 0
    meshed: List[str] = field(default_factory=list)
    inputs: List[str] = field(default_factory=list)
    frame: Optional[numpy.ndarray] = None


@dataclass
class Item:
    """A solid as it was read: from which file, of which part, and a body or a mesh."""

    label: str
    part: str
    tag: str
    body: Optional[Body] = None
    mesh: Optional[Mesh] = None
    trouble: str = ""


@dataclass
class Asked:
    """What reading is told besides `Options`.

    each: "solid", "file", "name", or the number of levels of a STEP file's assembly that make a part
    merge: points so near each other are one where a surface is open; model units
    is_upright: a product of meshes is turned such that most of its faces lie along the axes
    """

    each: str = "name"
    merge: Optional[float] = None
    is_upright: bool = False


# Files


def sources_of(words: Sequence[str]) -> List[Tuple[str, List[str], bool]]:
    """The names, files, and whether they are one part, as they are named: a file, or a folder of files."""
    found = []
    for word in words:
        name = os.path.basename(os.path.realpath(word))
        if any(ord(letter) < 32 for letter in name):
            raise Refusal(f"{name!r}: such a name cannot be that of a part")
        if os.path.isdir(word):
            files = sorted(file for file in os.listdir(word) if file.lower().endswith(SUFFIXES))
            if not files:
                raise Refusal(f"{word}: no file in this folder ends in {', '.join(SUFFIXES)}")
            found.append((name, [os.path.join(word, file) for file in files], True))
        else:
            found.append((os.path.splitext(name)[0] or name, [word], False))
    return found


def stem_of(path: str) -> str:
    return os.path.splitext(os.path.basename(path))[0]


class Reading:
    """The items of all files, and the one unit that they tell."""

    def __init__(self, asked: Asked) -> None:
        self.asked = asked
        self.items: List[Item] = []
        self.units: Dict[str, str] = {}
        self.inputs: List[str] = []

    def source(self, name: str, files: List[str], folder: bool) -> None:
        for path in files:
            suffix = os.path.splitext(path)[1].lower()
            self.inputs.append(path)
            stem = stem_of(path)
            if suffix in step.SUFFIXES:
                self.step_file(path, name, folder, stem)
            elif suffix == ".json":
                self.part_list(path)
            else:
                self.mesh_file(path, name, folder, stem)

    def unit(self, path: str, unit: str) -> None:
        for other, known in self.units.items():
            if unit and known != unit:
                raise Refusal(f"{path} is in {unit}, {other} in {known}: export both in one unit")
        if unit:
            self.units[path] = unit

    def step_file(self, path: str, name: str, folder: bool, stem: str) -> None:
        drawn = step.read_step(path)
        self.unit(path, drawn.unit)
        taken: set[str] = set()
        for number, body in enumerate(drawn.bodies):
            if folder or self.asked.each == "file":
                part = name
            elif self.asked.each.isdigit():
                part = "/".join(body.name.split("/")[: int(self.asked.each)])
            else:
                is_named = body.name != step.NAMELESS and not body.name.isdigit()
                part = free_name(body.name if is_named else name, taken)
            tag = (
                stem
                if folder and len(drawn.bodies) == 1
                else f"{stem}-{number}"
                if folder
                else str(number)
            )
            self.items.append(Item(f"{path}: {body.name}", part, tag, body=body))

    def part_list(self, path: str) -> None:
        for part in lists.read_list(path):
            for number, file in enumerate(part.files):
                self.inputs.append(file)
                for mesh in meshes.read_meshes(file)[0]:
                    moved = Mesh(mesh.points + numpy.array(part.at, float), mesh.faces)
                    self.shells(file, part.name, str(number), shells_of(moved, self.asked.merge))

    def mesh_file(self, path: str, name: str, folder: bool, stem: str) -> None:
        found, unit = meshes.read_meshes(path)
        self.unit(path, unit)
        named = [(mesh.name, shells_of(mesh, self.asked.merge)) for mesh in found]
        if len(found) > 1 and any(shell.gaps for _, shells in named for shell in shells):
            named = [
                ("", shells_of(together(found), self.asked.merge))
            ]  # the names part one surface
        apart = len({word for word, _ in named}) > 1 and not folder and self.asked.each != "file"
        many, number = sum(len(shells) for _, shells in named), 0
        if not many:
            raise Refusal(f"{path}: no face has three different corners")
        for word, shells in named:
            for shell in shells:
                tag = str(number) if not folder else stem if many == 1 else f"{stem}-{number}"
                label = path if many == 1 else f"{path}: solid {number}"
                self.shells(label, (word or name) if apart else name, tag, [shell])
                number += 1
        self.nested(path, len(self.items) - many, apart)

    def shells(self, label: str, part: str, tag: str, found: List[Shell]) -> None:
        for number, shell in enumerate(found):
            item = Item(label, part, tag if len(found) == 1 else f"{tag}-{number}", mesh=shell.mesh)
            if shell.gaps:
                item.trouble = f"{label} is not closed at {shell.gaps} edges: repair the mesh"
            shell.mesh.name = "inwards" if shell.drawn is not None and shell.drawn < 0 else ""
            self.items.append(item)

    def nested(self, path: str, start: int, apart: bool) -> None:
        """Joins a hollow space, which is wound inwards, to the solid around it."""
        items = self.items[start:]
        for inner in items:
            for outer in items:
                if inner is outer or inner.trouble or outer.trouble or not within(inner, outer):
                    continue
                if (
                    inner.mesh is not None
                    and outer.mesh is not None
                    and inner.mesh.name
                    and not outer.mesh.name
                ):
                    outer.mesh = together(
                        [outer.mesh, Mesh(inner.mesh.points, [f[::-1] for f in inner.mesh.faces])]
                    )
                    self.items.remove(inner)
                    break
                if not apart:
                    one, other = items.index(inner), items.index(outer)
                    outer.trouble = (
                        f"{path}: solid {one} lies inside solid {other}: if it is a hollow space, wind its faces "
                        "inwards, or cut the solid open; if not, give it a file of its own"
                    )


def within(inner: Item, outer: Item) -> bool:
    if inner.mesh is None or outer.mesh is None:
        return False
    one, other = inner.mesh.points, outer.mesh.points
    if (one.min(axis=0) <= other.min(axis=0)).any() or (one.max(axis=0) >= other.max(axis=0)).any():
        return False
    return holds(Shell(outer.mesh, 0), one[0])


def together(found: Sequence[Mesh]) -> Mesh:
    """Several meshes as one."""
    rows: List[numpy.ndarray] = []
    faces: List[List[int]] = []
    many = 0
    for mesh in found:
        rows.append(mesh.points)
        faces += [[corner + many for corner in face] for face in mesh.faces]
        many += len(mesh.points)
    return Mesh(numpy.vstack(rows), faces)


# Solids


def extent_of(items: Sequence[Item]) -> float:
    """The greatest coordinate by its absolute value, in model units."""
    greatest = 0.0
    for item in items:
        if item.mesh is not None:
            greatest = max(greatest, float(numpy.abs(item.mesh.points).max()))
        if item.body is not None:
            rows = [edge.at(numpy.linspace(0, 1, 17)) for edge in item.body.edges.values()]
            rows += [
                numpy.abs(face.fit.point[None]) + face.fit.radius
                for face in item.body.faces
                if face.fit.kind == "sphere"
            ]
            greatest = max([greatest] + [float(numpy.abs(some).max()) for some in rows])
    return greatest


def grid_for(greatest: float, wanted: Optional[Fraction]) -> Fraction:
    """The grid that is asked for, else the finest. Refusal: it is too fine."""
    best = finest(greatest)
    if wanted is None:
        return best
    if numpy.rint(greatest / float(wanted)) > GREATEST:
        raise Refusal(
            f"a grid of {written(wanted)} is too fine: a coordinate of {short(greatest)} is more than "
            f"{GREATEST} steps; the finest is {written(best)}"
        )
    return wanted


class Solids:
    """Makes solids of plane faces from the items, once the grid is chosen."""

    def __init__(self, items: List[Item], options: Options) -> None:
        self.options = options
        self.axes = Axes(max(extent_of(items), 1e-9))
        self.regions: Dict[int, List[Region]] = {}
        self.meshed: List[str] = []
        users: Dict[int, set[str]] = {}
        for number, item in enumerate(items):
            if item.body is None or item.trouble:
                continue
            before = [len(axis.radii) for axis in self.axes.known]
            try:
                self.regions[number] = noted(item.body, self.axes)
            except Unfit:
                pass
            for place, axis in enumerate(self.axes.known):
                if len(axis.radii) > (before[place] if place < len(before) else 0):
                    users.setdefault(place, set()).add(item.part)
        self.axes.cut(options)
        self.shared = sum(1 for parts in users.values() if len(parts) > 1)

    def solid(self, number: int, item: Item, scale: Fraction) -> Solid:
        """Refusal: no closed mesh can be made."""
        if item.trouble:
            raise Refusal(item.trouble)
        if item.body is not None:
            return self.from_body(number, item, item.body, scale)
        assert item.mesh is not None
        item.mesh.name = item.label
        solid = Solid(item.part, scale, item.mesh)
        solid.whole = on_grid(item.mesh, scale)
        if solid.whole is not None:
            solid.whole_over = solid.whole_under = float(moved(item.mesh, solid.whole, scale).max())
        return solid

    def from_body(self, number: int, item: Item, body: Body, scale: Fraction) -> Solid:
        found: Optional[Faceted] = None
        if number in self.regions:
            try:
                found = faceted(body, self.regions[number], self.axes, self.options)
            except Unfit:
                pass
        if found is None:
            try:
                found = meshed(step.start(), body, self.options)
            except Refusal as fault:
                raise Refusal(f"{item.label}: {fault}") from fault
            self.meshed.append(body.name)
        found.mesh.name = item.label
        solid = Solid(item.part, scale, found.mesh, None, found.surfaces, found.over, found.under)
        solid.whole = on_grid(found.mesh, scale)
        if solid.whole is not None:
            ways = moved(found.mesh, solid.whole, scale)
            solid.whole_over = solid.whole_under = float(ways.max())
            held = numpy.delete(ways, sorted(found.spare))
            if found.spare and self.options.side == "over":
                solid.whole_under = float(held.max(initial=0.0))
            elif found.spare:
                solid.whole_over = float(held.max(initial=0.0))
            solid.whole_over += found.over
            solid.whole_under += found.under
        return solid


def free_name(name: str, taken: set[str]) -> str:
    free, number = name, 1
    while free in taken:
        number += 1
        free = f"{name}-{number}"
    taken.add(free)
    return free


def named_parts(reading: Reading, sources: List[Tuple[str, int]]) -> None:
    """Gives parts of different sources different names: items of one part of one source keep one name."""
    taken: set[str] = set()
    for start, (_, end) in zip([0] + [end for _, end in sources], sources):
        names: Dict[str, str] = {}
        for item in reading.items[start:end]:
            if item.part not in names:
                names[item.part] = free_name(item.part, taken)
            item.part = names[item.part]


def read_product(
    words: Sequence[str], options: Options, asked: Asked, grid: Optional[Fraction]
) -> Product:
    """The product in these files. Refusal: a file cannot be read, or no part is left."""
    step.clear()
    reading, ends = Reading(asked), []
    for name, files, folder in sources_of(words):
        reading.source(name, files, folder)
        ends.append((name, len(reading.items)))
    if asked.each == "solid":
        each_apart(reading.items)
    named_parts(reading, ends)
    frame = turned_upright(reading.items) if asked.is_upright else None
    chosen = grid_for(extent_of(reading.items), grid)
    scale = options.scale = 1 / chosen
    made = Solids(reading.items, options)
    unit = next(iter(reading.units.values()), "")
    product = Product([], unit, chosen, shared=made.shared, inputs=reading.inputs)
    parts: Dict[str, Part] = {}
    lost: Dict[str, str] = {}
    for number, item in enumerate(reading.items):
        part = parts.setdefault(item.part, Part(item.part))
        try:
            part.solids.append(made.solid(number, item, scale))
            part.tags.append(item.tag)
        except Refusal as fault:
            lost.setdefault(item.part, str(fault))
    product.parts = [part for part in parts.values() if part.name not in lost]
    product.lost, product.meshed = list(lost.items()), made.meshed
    product.frame = frame
    return product


def turned_upright(items: Sequence[Item]) -> Optional[numpy.ndarray]:
    """Turns meshes such that most of their faces lie along the axes; how. Refusal: a part is no mesh, or none is so."""
    meshes = [item.mesh for item in items if item.mesh is not None]
    if len(meshes) < len(items):
        raise Refusal("--upright turns meshes, and a STEP file is read besides")
    found = frame_of(meshes)
    if found is None:
        return None
    frame = max((turn @ found for turn in right_turns()), key=numpy.trace) + 0.0
    for mesh in meshes:
        mesh.points = mesh.points @ frame.T
    return numpy.asarray(frame)


def right_turns() -> List[numpy.ndarray]:
    """The 24 turns by right angles."""
    signs = itertools.product((1.0, -1.0), repeat=3)
    some = [
        numpy.diag(sign)[list(order)]
        for sign in signs
        for order in itertools.permutations(range(3))
    ]
    return [turn for turn in some if numpy.linalg.det(turn) > 0]


def each_apart(items: List[Item]) -> None:
    """Each solid becomes a part of its own; where a part had several, they get their tags behind the name."""
    many: Dict[str, int] = {}
    for item in items:
        many[item.part] = many.get(item.part, 0) + 1
    for item in items:
        if many[item.part] > 1:
            item.part = f"{item.part}-{item.tag}"
