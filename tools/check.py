#!/usr/bin/env python3
"""Judges a certificate of staat apart from staat.

    python3 tools/check.py CERTIFICATE [--digits=K] (--manifest=FILE | FILES..)

It prints the line that `staat check` prints, with the same status. It was written, and so was pieces.py on which it
stands, from the documents alone, of which docs/FORMATS.md, docs/DEFINITIONS.md and docs/CHECKING.md say all that is
needed, and shares no code with staat. Nothing here is proved.

The certificate is read and judged in full. Of the parts it is trusted that `staat look` accepts them: that each file
is a closed convex piece within the limits, and that no pieces of different parts overlap. So a refused file may be
told in other words here, or not at all. All numbers are whole numbers of Python: nothing is rounded.
"""
from __future__ import annotations

import argparse
import json
import pathlib
import re
import sys
from collections.abc import Callable, Iterable, Sequence
from itertools import combinations, product as tuples
from typing import Any

from pieces import AXES, ORIGIN, Piece, Vector, cross, dot, facets_of, is_solid, negative, primitive

Arc = tuple[int, int, int, int]  # piece i of part a and piece j of part b, as (a, i, b, j)
Values = tuple[int, ...]  # the numbers of a line
Numbered = tuple[int, Values]  # a line by its number, and its numbers
Node = tuple[Any, ...]  # ("leaf", part) or ("split", direction, its walls, each a Numbered)
Witness = tuple[list[Arc], list[Arc]]  # its arcs outwards and its arcs back
Refusal = tuple[Values, list[Witness], list[Numbered]]  # the stuck set, and the directions

NUMBER = re.compile(rb"0|-?[1-9][0-9]*")
COORDINATE = re.compile(rb"([+-]?)(?:([0-9]+)\.?([0-9]*)|\.([0-9]+))(?:[eE]([+-]?[0-9]+))?")
LONGEST_TEXT, LONGEST_LINE = (
    134_217_728,
    128,
)  # bytes of a certificate, and of a line with its line end
# The least and the greatest number at each place of a line.
PART, ARC = [(0, 31)], [(0, 31), (0, 63)] * 2
NORMAL, DIRECTION = [(-(2**39), 2**39)] * 3, [(-(2**81), 2**81)] * 3


class Product:
    """Parts, each a list of pieces, each a list of points; and what was found of them so far."""

    def __init__(self, parts: Sequence[Sequence[Sequence[Vector]]]):
        self.parts = parts
        self.pieces = [[Piece(points) for points in part] for part in parts]
        self.known_facets: dict[Arc, set[Vector]] = {}
        self.known_planes: dict[tuple[int, ...], list[Vector]] = {}

    def arcs(self, starts: Iterable[int], ends: Iterable[int]) -> set[Arc]:
        """All arcs from a piece of the one parts to a piece of another part among the others."""
        return {
            (a, i, b, j)
            for a, b in tuples(starts, ends)
            if a != b
            for i in range(len(self.parts[a]))
            for j in range(len(self.parts[b]))
        }

    def facets(self, a: int, i: int, b: int, j: int) -> set[Vector]:
        """All facets of piece i of part a and piece j of part b."""
        if (a, i, b, j) not in self.known_facets:
            found = facets_of(self.pieces[a][i], self.pieces[b][j])
            self.known_facets[a, i, b, j] = found
            self.known_facets[b, j, a, i] = set(
                map(negative, found)
            )  # the same planes, seen from the other side
        return self.known_facets[a, i, b, j]

    def planes(self, members: tuple[int, ...]) -> list[Vector]:
        """The axes, and then, ascending, the canonical normals of all other facets of pieces of different parts."""
        if members not in self.known_planes:
            normals = {
                max(n, negative(n))
                for arc in self.arcs(members, members)
                for n in self.facets(*arc)
            }
            self.known_planes[members] = AXES + sorted(normals.difference(AXES))
        return self.known_planes[members]


class Refused(Exception):
    """There is no verdict. It holds the status and the line that tells why."""

    def __init__(self, status: int, line: str):
        super().__init__(status, line)
        self.status, self.line = status, line


def read_file(name: str) -> bytes:
    """The bytes of a file. Refused: it cannot be read."""
    try:
        return pathlib.Path(name).read_bytes()
    except OSError:
        raise Refused(5, f"staat: cannot read {name}") from None


def read_coordinate(word: bytes, digits: int) -> int:
    """The value of the word times 10 to the power of the digits. ValueError: it has no such value, or is too big."""
    spelled = COORDINATE.fullmatch(word)
    if spelled is None:
        raise ValueError("no number")
    sign, whole, behind, alone, exponent = spelled.groups(default=b"")
    mantissa = (whole + behind + alone).rstrip(
        b"0"
    )  # with a point after as many digits as the whole ones
    places = len(whole) + int(exponent or 0) + digits - len(mantissa)
    if mantissa and not 0 <= places <= 6:
        raise ValueError("not whole or too big")
    return int(sign + mantissa + b"0" * places) if mantissa else 0


def read_piece(name: str, digits: int, at: Sequence[int]) -> list[Vector]:
    """The points that the faces of an OFF file have as corners, ascending and each once, moved by the vector."""
    lines = [line.partition(b"#")[0].split() for line in read_file(name).split(b"\n")]
    words = [(word, number) for number, line in enumerate(lines) for word in line][
        ::-1
    ]  # the next one stands last
    try:
        if words.pop()[0] != b"OFF":
            raise ValueError("no header")
        count, faces, _ = (int(words.pop()[0]) for _ in range(3))
        positions = [
            [read_coordinate(words.pop()[0], digits) for _ in range(3)] for _ in range(count)
        ]
        points: set[Vector] = set()
        for _ in range(faces):
            for _ in range(int(words.pop()[0])):
                word, line = words.pop()
                x, y, z = (value + shift for value, shift in zip(positions[int(word)], at))
                points.add((x, y, z))
            while (
                words and words[-1][1] == line
            ):  # what follows on the line of the last corner is passed over
                words.pop()
    except (ValueError, LookupError, AttributeError):
        raise Refused(3, f"check.py: {name}: no OFF file that it can read") from None
    if not is_solid(sorted(points)):
        raise Refused(3, f"check.py: {name}: not solid")
    return sorted(points)


def read_product(files: Sequence[str], manifest: str | None, digits: int) -> Product:
    """The parts that a part list names, or the files, each a part of one piece. Refused: they cannot be read."""
    named: list[tuple[Sequence[str], Sequence[int]]] = [([name], ORIGIN) for name in files]
    if manifest is not None:
        try:
            listed = json.loads(read_file(manifest).decode("utf-8"))["parts"]
            named = [(part["pieces"], part.get("at", ORIGIN)) for part in listed]
        except (ValueError, LookupError, TypeError, AttributeError):
            raise Refused(3, f"check.py: {manifest}: no part list that it can read") from None
    return Product([[read_piece(name, digits, at) for name in pieces] for pieces, at in named])


class Lines:
    """The lines of a certificate, taken one after another."""

    def __init__(self, name: str, text: bytes):
        *self.lines, self.rest = text.split(b"\n")
        self.name, self.number = name, 1  # the number is that of the line ahead

    def bad(self) -> Refused:
        """That the line ahead is bad."""
        return Refused(3, f"staat: {self.name}: bad line {self.number}")

    def ahead(self) -> list[bytes]:
        """The words of the line ahead."""
        if self.number <= len(self.lines):
            return self.lines[self.number - 1].split(b" ")
        too_short = Refused(3, f"staat: {self.name}: certificate too short")
        raise self.bad() if len(self.rest) >= LONGEST_LINE else too_short

    def take(
        self,
        word: bytes,
        bounds: Sequence[tuple[int, int]] = (),
        rule: Callable[[Any], object] = lambda values: True,
    ) -> Any:
        """The numbers of the line ahead, which has this word, and numbers that are in bounds and keep the rule."""
        first, *numbers = self.ahead()
        short = len(self.lines[self.number - 1]) < LONGEST_LINE
        if (
            short
            and first == word
            and len(numbers) == len(bounds)
            and all(map(NUMBER.fullmatch, numbers))
        ):
            values = tuple(map(int, numbers))
            if all(least <= value <= most for value, (least, most) in zip(values, bounds)) and rule(
                values
            ):
                self.number += 1
                return values
        raise self.bad()


def read_certificate(name: str, text: bytes) -> tuple[int, int, list[Node], Refusal | None]:
    """The stated number of parts, the version, the nodes of the plan, and the refusal: none of the one or the other."""
    if len(text) > LONGEST_TEXT:
        raise Refused(4, f"staat: {name} is too long")
    lines = Lines(name, text)
    (version,) = lines.take(b"STAAT", [(1, 2)])
    (stated,) = lines.take(b"parts", [(1, 32)])
    is_plan = lines.ahead()[0] == b"plan"
    nodes = read_nodes(lines, stated) if is_plan else []
    refusal = None if is_plan else read_refusal(lines, version)
    lines.take(b"end")
    if lines.lines[lines.number - 1 :] or lines.rest:
        raise lines.bad()
    return stated, version, nodes, refusal


def read_nodes(lines: Lines, stated: int) -> list[Node]:
    """The nodes in preorder: ("leaf", p), or ("split", direction, walls), where a wall has the number of its line."""
    lines.take(b"plan")
    nodes: list[Node] = []
    wanted = 1  # so many trees are still to come
    while wanted > 0:
        if lines.ahead()[0] == b"leaf":
            nodes.append(("leaf", *lines.take(b"leaf", PART)))
            wanted -= 1
        else:
            direction = lines.take(
                b"split", DIRECTION, lambda _: len(nodes) + 1 + wanted + 1 <= 2 * stated - 1
            )
            walls: list[Numbered] = []
            while lines.ahead()[0] == b"sep":
                after = walls[-1][1][:4] if walls else ()
                walls.append(
                    (
                        lines.number,
                        lines.take(b"sep", ARC + NORMAL, lambda values: values[:4] > after),
                    )
                )
            nodes.append(("split", direction, walls))
            wanted += 1
    return nodes


def read_refusal(lines: Lines, version: int) -> Refusal:
    """The stuck set; the witnesses, each its arcs outwards and its arcs back; the directions, each with its line."""
    bounds = PART * max(1, len(lines.ahead()) - 1)
    members = lines.take(b"stuck", bounds, lambda values: list(values) == sorted(set(values)))
    witnesses: list[Witness] = []
    directions: list[Numbered] = []
    while lines.ahead()[0] == b"witness":
        lines.take(b"witness", [(len(witnesses), len(witnesses))])
        witnesses.append(([], []))
        for word, arcs in zip((b"out", b"in"), witnesses[-1]):
            while lines.ahead()[0] == word:
                arcs.append(lines.take(word, ARC, lambda _: len(arcs) < 31))
    # A direction of version 2 is greater than zero, and so canonical.
    after: Values = ORIGIN if version == 2 else ()
    while lines.ahead()[0] == b"dir":
        bounds = DIRECTION + [(0, len(witnesses) - 1)]
        directions.append(
            (lines.number, lines.take(b"dir", bounds, lambda values: values[:3] > after))
        )
        after = directions[-1][1][:3]
    return members, witnesses, directions


def plan_fault(product: Product, nodes: Sequence[Node]) -> str | None:
    """The first rule that a plan breaks, or None."""
    seen: set[int] = set()
    for k, (kind, part, *_) in enumerate(nodes):
        if kind == "leaf" and (part >= len(product.parts) or part in seen):
            return f"bad leaves at node {k}"
        seen.update([part] if kind == "leaf" else [])
    if len(seen) < len(product.parts):
        return f"bad leaves at node {len(nodes)}"
    sides: dict[int, tuple[list[int], list[int]]] = {}  # the two sides of each split
    trees: list[list[int]] = []  # the parts of each tree behind the node, the next one last
    for k, node in reversed(list(enumerate(nodes))):
        if node[0] == "split":
            sides[k] = trees.pop(), trees.pop()
        trees.append([node[1]] if node[0] == "leaf" else sides[k][0] + sides[k][1])
    faults = (split_fault(product, k, *sides[k], *nodes[k][1:]) for k in sorted(sides))
    return next(filter(None, faults), None)


def split_fault(
    product: Product,
    k: int,
    moved: list[int],
    rest: list[int],
    direction: Vector,
    walls: Sequence[Numbered],
) -> str | None:
    """The first rule that a split, the node k, breaks, or None."""
    if direction == ORIGIN:
        return f"zero direction at node {k}"
    across = product.arcs(moved, rest)
    for line, (a, i, b, j, x, y, z) in walls:
        n = x, y, z
        if (a, i, b, j) not in across or n == ORIGIN or dot(n, direction) > 0:
            return f"bad separator on line {line}"
        if product.pieces[a][i].span(n)[1] > product.pieces[b][j].span(n)[0]:
            return f"bad separator on line {line}"
    missing = across - {(a, i, b, j) for _, (a, i, b, j, *_) in walls}
    return "missing separator %d %d %d %d" % min(missing) if missing else None


def refusal_fault(
    product: Product,
    version: int,
    members: Values,
    witnesses: Sequence[Witness],
    directions: Sequence[Numbered],
) -> str | None:
    """The first rule that a refusal breaks, or None."""
    if len(members) < 2 or members[-1] >= len(product.parts):
        return "bad stuck set"
    arcs_within = product.arcs(members, members)
    for k, (outwards, back) in enumerate(witnesses):
        there, here = [(a, b) for a, _, b, _ in outwards], [(b, a) for a, _, b, _ in back]
        if not arcs_within.issuperset(outwards + back) or not all(
            reaches_all(members, way) for way in (there, here)
        ):
            return f"bad tree in witness {k}"
    named = {values[3] for _, values in directions}
    facets = {
        k: {n for arcs in witnesses[k] for arc in arcs for n in product.facets(*arc)} for k in named
    }
    for line, (x, y, z, k) in directions:
        d = x, y, z
        if not all(dot(n, d) > 0 for n in facets[k]):
            return f"bad arc on line {line}"
    listed = {(x, y, z) for _, (x, y, z, _) in directions}
    listed |= {negative(direction) for direction in listed if version == 2}
    for g, h in combinations(product.planes(members), 2):
        vertex = primitive(cross(g, h))
        for v in vertex, negative(vertex):
            if v not in listed:
                return "missing direction %d %d %d" % v
    return None


def reaches_all(members: Sequence[int], pairs: Iterable[tuple[int, int]]) -> bool:
    """Whether each pair leads from a reached part to a new one, beginning with the least part, and all are reached."""
    reached = {members[0]}
    for start, end in pairs:
        if start not in reached or end in reached:
            return False
        reached.add(end)
    return len(reached) == len(members)


def verdict(product: Product, name: str, text: bytes) -> tuple[int, str]:
    """The status and the line that tell what is said of the certificate with this name and text."""
    try:
        stated, version, nodes, refusal = read_certificate(name, text)
    except Refused as refused:
        return refused.status, refused.line
    if stated != len(product.parts):
        return 1, f"not valid: wrong parts {stated}"
    fault = (
        plan_fault(product, nodes) if refusal is None else refusal_fault(product, version, *refusal)
    )
    return (
        (1, f"not valid: {fault}")
        if fault
        else (0, "valid plan" if refusal is None else "valid refusal")
    )


def main(words: Sequence[str]) -> int:
    """Judges what the words name, and answers the status."""
    if "--short" in words:
        import check_short

        return check_short.main([word for word in words if word != "--short"])
    parser = argparse.ArgumentParser(
        description="Judges a certificate of staat; with --short a short one.", allow_abbrev=False
    )
    parser.add_argument("certificate")
    parser.add_argument("files", nargs="*", help="each a part of one piece")
    parser.add_argument("--manifest", help="a part list, in the place of files")
    parser.add_argument("--digits", choices=list("0123456"), default="0")
    given = parser.parse_intermixed_args(words)
    if (given.manifest is None) == (not given.files) or len(given.files) > 32:
        parser.error("either --manifest or 1 to 32 files")
    try:
        product = read_product(given.files, given.manifest, int(given.digits))
        status, line = verdict(product, given.certificate, read_file(given.certificate))
    except Refused as refused:
        status, line = refused.status, refused.line
    print(line, file=sys.stdout if status < 2 else sys.stderr)
    return status


if __name__ == "__main__":
    sys.exit(main(sys.argv[1:]))
