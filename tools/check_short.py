#!/usr/bin/env python3
"""Judges a short certificate of staat from the files of its product: check_short.py CERTIFICATE INPUT

It is a second checker of short certificates, written from docs/FORMATS.md and docs/CHECKING.md alone, in whole numbers
without a limit. As in check.py the parts are trusted to be accepted by `staat`.
"""

from __future__ import annotations

import argparse
import sys
from collections.abc import Iterable, Iterator, Sequence
from dataclasses import dataclass, field
from functools import lru_cache
from itertools import combinations
from typing import Union

import check
from pieces import AXES, ORIGIN, Piece, Vector, cross, dot, negative, primitive

MOST_PARTS, MOST_PIECES = 1024, 16384
PART = [(0, MOST_PARTS - 1)]
PIECE = [(0, MOST_PIECES - 1)]


@dataclass
class Hold:
    """Nodes, each named by its least part, and the pairs of pieces that hold them together."""

    nodes: list[int] = field(default_factory=list)
    pairs: list[check.Arc] = field(default_factory=list)


@dataclass
class Leaf:
    """A part by itself."""

    part: int


@dataclass
class Split:
    """A step: what stands in the tree behind it moves along a direction away from what stands in the next one."""

    along: Vector


@dataclass
class Group:
    """Parts that are stuck, as holds show."""

    holds: list[Hold]


Node = Union[Leaf, Split, Group]


@dataclass
class Certificate:
    """The stated number of parts, and the nodes of a plan; or one group, where a set is named that is stuck."""

    stated: int
    nodes: list[Node]
    is_stuck_set: bool


class Invalid(Exception):
    """The first rule that a certificate breaks, as it is told."""


# ---- reading


def read(name: str, text: bytes) -> Certificate:
    """What the text says."""
    if len(text) > check.LONGEST_TEXT:
        raise check.Refused(4, f"staat: {name} is too long")
    lines = check.Lines(name, text)
    if lines.ahead() != [b"STAAT", b"SHORT", b"1"]:
        raise lines.bad()
    lines.number += 1
    (stated,) = lines.take(b"parts", [(1, MOST_PARTS)])
    kind = lines.ahead()[0]
    if kind not in (b"plan", b"stuck", b"rest"):
        raise lines.bad()
    lines.take(kind)
    is_stuck_set = kind == b"stuck"
    nodes: list[Node] = (
        [Group(read_holds(lines))] if is_stuck_set else read_nodes(lines, stated, kind)
    )
    lines.take(b"end")
    if lines.lines[lines.number - 1 :] or lines.rest:
        raise lines.bad()
    return Certificate(stated, nodes, is_stuck_set)


def read_nodes(lines: check.Lines, stated: int, kind: bytes) -> list[Node]:
    """One tree in preorder."""
    nodes: list[Node] = []
    wanted = 1  # so many trees are still to come
    while wanted > 0:
        word = lines.ahead()[0]
        if word == b"group" and kind == b"rest":
            lines.take(b"group")
            nodes.append(Group(read_holds(lines)))
            wanted -= 1
        elif word == b"leaf":
            nodes.append(Leaf(*lines.take(b"leaf", PART)))
            wanted -= 1
        else:
            room = 2 * stated - 1 - (len(nodes) + 1 + wanted + 1)
            nodes.append(Split(lines.take(b"split", check.DIRECTION, lambda _: room >= 0)))
            wanted += 1
    return nodes


def read_holds(lines: check.Lines) -> list[Hold]:
    """One hold or more."""
    holds: list[Hold] = []
    while not holds or lines.ahead()[0] == b"hold":
        lines.take(b"hold")
        hold = Hold()
        while lines.ahead()[0] == b"part":
            least = hold.nodes[-1] if hold.nodes else -1
            hold.nodes += lines.take(b"part", PART, lambda values: values[0] > least)
        while lines.ahead()[0] == b"pair":
            after = hold.pairs[-1] if hold.pairs else ()
            pair = lines.take(
                b"pair",
                PART + PIECE + PART + PIECE,
                lambda values: values[0] < values[2] and values > after,
            )
            hold.pairs.append(pair)
        holds.append(hold)
    return holds


# ---- judging


@dataclass
class Judge:
    """The rules of short certificates, for one product."""

    product: check.Product

    def judge(self, certificate: Certificate) -> str:
        """The line for a certificate that is valid; else Invalid is raised."""
        if certificate.stated != len(self.product.parts):
            raise Invalid(f"wrong parts {certificate.stated}")
        nodes = certificate.nodes
        members = self.members(nodes)
        if not certificate.is_stuck_set:
            self.judge_leaves(members)
            self.judge_splits(nodes, members)
        return "valid refusal" if any(isinstance(it, Group) for it in nodes) else "valid plan"

    def members(self, nodes: Sequence[Node]) -> list[list[int]]:
        """The parts of each node, where the holds keep their rules."""
        found, number = [], 0
        for node in nodes:
            if isinstance(node, Leaf):
                found.append([node.part])
            elif isinstance(node, Group):
                found.append(self.joined(node.holds, number))
                number += len(node.holds)
            else:
                found.append([])
        return found

    def joined(self, holds: Sequence[Hold], number: int) -> list[int]:
        """The parts that the last of the holds joins; the first one has this number in the text."""
        names = list(range(len(self.product.parts)))
        members: list[int] = []
        for number, hold in enumerate(holds, number):
            self.judge_hold(hold, names, number)
            members = [part for part, name in enumerate(names) if name in hold.nodes]
            for part in members:
                names[part] = hold.nodes[0]
        return members

    def judge_hold(self, hold: Hold, names: Sequence[int], number: int) -> None:
        """Raises Invalid at the first rule that the hold breaks."""
        for place, node in enumerate(hold.nodes):
            if node >= len(names) or names[node] != node:
                raise Invalid(f"no node at place {place} of hold {number}")
        if len(hold.nodes) < 2:
            raise Invalid(f"fewer than two nodes in hold {number}")
        for place, pair in enumerate(hold.pairs):
            if not self.is_between(pair, hold.nodes, names):
                raise Invalid(f"bad pair at place {place} of hold {number}")
        facets = [self.product.facets(*pair) for pair in hold.pairs]
        known: dict[tuple[int, ...], bool] = {}  # by the ways of all pairs: whether these hold
        for vertex in crossings(facets):
            ways = tuple(way_along(vertex, some) for some in facets)
            if ways not in known:
                known[ways] = is_held(hold, names, ways)
            if not known[ways]:
                raise Invalid("gap {} {} {} in hold {}".format(*primitive(vertex), number))

    def is_between(self, pair: check.Arc, nodes: Sequence[int], names: Sequence[int]) -> bool:
        """Whether the two pieces exist, and their parts are of two of the nodes."""
        a, i, b, j = pair
        parts = self.product.parts
        if max(a, b) >= len(parts) or i >= len(parts[a]) or j >= len(parts[b]):
            return False
        return names[a] in nodes and names[b] in nodes and names[a] != names[b]

    def judge_leaves(self, members: Sequence[Sequence[int]]) -> None:
        """Raises Invalid at the first node with a part that does not exist or stands in an earlier node."""
        seen: set[int] = set()
        for k, parts in enumerate(members):
            if any(part >= len(self.product.parts) or part in seen for part in parts):
                raise Invalid(f"bad leaves at node {k}")
            seen.update(parts)
        if len(seen) < len(self.product.parts):
            raise Invalid(f"bad leaves at node {len(members)}")

    def judge_splits(self, nodes: Sequence[Node], members: Sequence[Sequence[int]]) -> None:
        """Raises Invalid at the first split that breaks a rule."""
        sides: dict[int, tuple[list[int], list[int]]] = {}
        trees: list[list[int]] = []  # the parts of each tree behind the node, the next one last
        for k in range(len(nodes) - 1, -1, -1):
            if isinstance(nodes[k], Split):
                sides[k] = trees.pop(), trees.pop()
            trees.append(sides[k][0] + sides[k][1] if k in sides else list(members[k]))
        for k, (moved, rest) in sorted(sides.items()):
            node = nodes[k]
            assert isinstance(node, Split)
            if node.along == ORIGIN:
                raise Invalid(f"zero direction at node {k}")
            for arc in sorted(self.product.arcs(moved, rest)):
                if self.meets(arc, node.along):
                    raise Invalid("pieces {} {} and {} {} meet at node {}".format(*arc, k))

    def meets(self, arc: check.Arc, d: Vector) -> bool:
        """Whether the first piece, moved along d, ever meets the second one: it does where no wall keeps them apart.

        Most walls stand on the box of a piece or on its shadow along d; only where none does the facets are found.
        """
        a, i, b, j = arc
        first, second = self.product.pieces[a][i], self.product.pieces[b][j]
        if any(is_wall(n, ahead, first, second) for n, ahead in normals_for(d)):
            return False
        return all(dot(n, d) > 0 for n in self.product.facets(*arc))


@lru_cache
def normals_for(d: Vector) -> list[tuple[Vector, int]]:
    """The normals of boxes and of shadows along d, and the product of each with d."""
    across = (cross(axis, d) for axis in AXES)
    return [(n, dot(n, d)) for n in (*AXES, *across) if n != ORIGIN]


def is_wall(n: Vector, ahead: int, first: Piece, second: Piece) -> bool:
    """Whether a wall with the normal n, either way, keeps apart two pieces of which the first moves along d.

    ahead: the product of n and d
    """
    (least, most), (nearest, farthest) = first.span(n), second.span(n)
    return (ahead <= 0 and most <= nearest) or (ahead >= 0 and farthest <= least)


def crossings(facets: Iterable[set[Vector]]) -> Iterator[Vector]:
    """For each two planes, of the axes and the facets, a vector along their crossing; all in order."""
    normals = {max(n, negative(n)) for some in facets for n in some}
    planes = AXES + sorted(normals.difference(AXES))
    return (cross(g, h) for g, h in combinations(planes, 2))


def way_along(d: Vector, facets: set[Vector]) -> int:
    """1 where the first piece of these facets meets the second one along d, -1 where it does along -d, else 0.

    Along -d it does exactly where along d the second one meets the first.
    """
    x, y, z = d
    way = 0
    for a, b, c in facets:
        ahead = a * x + b * y + c * z
        if ahead * way < 0 or ahead == 0:
            return 0
        way = 1 if ahead > 0 else -1
    return way


def is_held(hold: Hold, names: Sequence[int], ways: Sequence[int]) -> bool:
    """Whether each node reaches each other one by the pairs that meet, each as its way says, in either order.

    Along the opposite direction all arcs are the other way round, and so the answer is the same there.
    """
    arcs = set()
    for (a, _, b, _), way in zip(hold.pairs, ways):
        if way != 0:
            arcs.add((names[a], names[b]) if way > 0 else (names[b], names[a]))
    back = {(b, a) for a, b in arcs}
    root = hold.nodes[0]
    return all(reached(root, some) == set(hold.nodes) for some in (arcs, back))


def reached(root: int, arcs: set[tuple[int, int]]) -> set[int]:
    """All that is reached from the root along arcs."""
    found, ahead = {root}, [root]
    while ahead:
        node = ahead.pop()
        for start, end in arcs:
            if start == node and end not in found:
                found.add(end)
                ahead.append(end)
    return found


def verdict(product: check.Product, name: str, text: bytes) -> tuple[int, str]:
    """The status and the line for the certificate with this name and text."""
    try:
        certificate = read(name, text)
    except check.Refused as refused:
        return refused.status, refused.line
    try:
        return 0, Judge(product).judge(certificate)
    except Invalid as why:
        return 1, f"not valid: {why}"


def main(words: Sequence[str]) -> int:
    """Judges what the words name."""
    parser = argparse.ArgumentParser(
        description="Judges a short certificate of staat.", allow_abbrev=False
    )
    parser.add_argument("certificate")
    parser.add_argument("files", nargs="*", help="each a part of one piece")
    parser.add_argument("--manifest", help="a part list, in the place of files")
    parser.add_argument("--digits", choices=list("0123456"), default="0")
    given = parser.parse_intermixed_args(words)
    if (given.manifest is None) == (not given.files) or len(given.files) > MOST_PARTS:
        parser.error(f"either --manifest or 1 to {MOST_PARTS} files")
    try:
        product = check.read_product(given.files, given.manifest, int(given.digits))
        text = check.read_file(given.certificate)
    except check.Refused as refused:
        status, line = refused.status, refused.line
    else:
        status, line = verdict(product, given.certificate, text)
    print(line, file=sys.stdout if status < 2 else sys.stderr)
    return status


if __name__ == "__main__":
    sys.exit(main(sys.argv[1:]))
