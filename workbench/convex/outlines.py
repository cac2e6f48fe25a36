"""Convex partition of a plane region with holes, exact: corners of its parts are corners of its outline.

Only a reflex corner, one with more than a half turn inside, asks for a cut. Cuts between two reflex corners that serve
both are taken first, the shortest first; then each reflex corner that is left gets the shortest cut that serves it, or
cuts on both sides. Cuts without which all angles stay convex are taken out at the end (Hertel and Mehlhorn, 1983).
"""
from __future__ import annotations

import functools
from typing import Dict, List, Optional, Sequence, Set, Tuple

import numpy

Spot = Tuple[int, int]
Cut = Tuple[int, int]
SEEN_AT_FIRST = 24  # cuts that are looked for at a corner before all are looked for


def turn(one: Spot, other: Spot) -> int:
    """Above 0 where `other` leads to the left of `one`."""
    return one[0] * other[1] - one[1] * other[0]


def way(start: Spot, end: Spot) -> Spot:
    return (end[0] - start[0], end[1] - start[1])


class Outline:
    """Closed loops of whole spots, the region to the left of each edge. Loops may touch at corners.

    Each corner of a loop is a node of its own, so two nodes may lie at one spot.
    """

    def __init__(self, loops: Sequence[Sequence[Spot]]) -> None:
        self.spots: List[Spot] = []
        self.before: List[int] = []
        self.after: List[int] = []
        for loop in loops:
            first, many = len(self.spots), len(loop)
            self.spots += [(int(x), int(y)) for x, y in loop]
            self.before += [first + (number - 1) % many for number in range(many)]
            self.after += [first + (number + 1) % many for number in range(many)]
        self.table = numpy.array(self.spots, numpy.int64).reshape(-1, 2)
        self.tails = self.table[self.after]
        self.cuts: Dict[int, Set[int]] = {}

    def edges_at(self, node: int) -> Tuple[Spot, Spot]:
        """The ways along the edge that leaves the node, and back along the edge that leads to it."""
        here = self.spots[node]
        return way(here, self.spots[self.after[node]]), way(here, self.spots[self.before[node]])

    def is_reflex(self, node: int) -> bool:
        leaving, back = self.edges_at(node)
        side = turn(leaving, back)
        return side < 0 or (side == 0 and leaving[0] * back[0] + leaving[1] * back[1] > 0)

    def inside(self, node: int, ways: numpy.ndarray) -> numpy.ndarray:
        """Which ways (n, 2) lead from the node into the region."""
        leaving, back = self.edges_at(node)
        left = leaving[0] * ways[:, 1] - leaving[1] * ways[:, 0]
        right = ways[:, 0] * back[1] - ways[:, 1] * back[0]
        side = turn(leaving, back)
        if side > 0:
            return (left > 0) & (right > 0)
        if side == 0 and not self.is_reflex(node):
            return left > 0
        along = leaving[0] * ways[:, 0] + leaving[1] * ways[:, 1]
        if side == 0:
            return (left != 0) | (along < 0)
        return (left > 0) | (right > 0) | ((left == 0) & (along < 0))

    def serves(self, node: int, other: int) -> bool:
        """Whether a cut between the nodes leaves no reflex angle at the first."""
        leaving, back = self.edges_at(node)
        cut = way(self.spots[node], self.spots[other])
        return turn(leaving, cut) >= 0 and turn(cut, back) >= 0

    def seen_from(self, node: int, enough: Optional[int]) -> List[int]:
        """Nodes to which a straight cut leads inside the region, the nearest first: all, or `enough` of them."""
        ways = self.table - self.table[node]
        lengths = (ways * ways).sum(axis=1)
        fit = numpy.nonzero(self.inside(node, ways) & (lengths > 0))[0]
        fit = fit[numpy.argsort(lengths[fit], kind="stable")]
        seen: List[int] = []
        for start in range(0, len(fit), 32):
            end = start + 32
            some = fit[start:end]
            for other in some[self.unblocked(node, some)]:
                back = (self.table[node] - self.table[other])[None, :]
                if self.inside(int(other), back)[0]:
                    seen.append(int(other))
            if enough is not None and len(seen) >= enough:
                break
        return seen

    def unblocked(self, node: int, others: numpy.ndarray) -> numpy.ndarray:
        """For each of the others whether the cut to it meets no edge, and no corner but its ends."""
        start, ends = self.table[node], self.table[others]
        cuts = (ends - start)[:, None, :]
        near = self.edges_within(node, int((cuts * cuts).sum(axis=2).max()))
        heads, tails = self.table[None, near, :], self.tails[None, near, :]

        def side(spots: numpy.ndarray) -> numpy.ndarray:
            return cuts[..., 0] * (spots[..., 1] - start[1]) - cuts[..., 1] * (
                spots[..., 0] - start[0]
            )

        head_side, tail_side = side(heads), side(tails)
        along = ((heads - start) * cuts).sum(axis=2)
        on = (head_side == 0) & (along > 0) & (along < (cuts * cuts).sum(axis=2))
        edge = tails - heads
        start_side = edge[..., 0] * (start[1] - heads[..., 1]) - edge[..., 1] * (
            start[0] - heads[..., 0]
        )
        end_side = edge[..., 0] * (ends[:, None, 1] - heads[..., 1]) - edge[..., 1] * (
            ends[:, None, 0] - heads[..., 0]
        )
        crossed = (numpy.sign(head_side) * numpy.sign(tail_side) < 0) & (
            numpy.sign(start_side) * numpy.sign(end_side) < 0
        )
        return ~(on | crossed).any(axis=1)

    def edges_within(self, node: int, reach: int) -> numpy.ndarray:
        """Numbers of the edges whose boxes come so near to the node; `reach` is the square of the distance."""
        start = self.table[node]
        least, most = numpy.minimum(self.table, self.tails), numpy.maximum(self.table, self.tails)
        gap = numpy.maximum(numpy.maximum(least - start, start - most), 0)
        return numpy.nonzero((gap * gap).sum(axis=1) <= reach)[0]

    def crosses(self, cut: Cut, others: Sequence[Cut]) -> bool:
        """Whether a cut crosses one of the others between its ends."""
        if not others:
            return False
        table = self.table[numpy.array(others)]
        start, end = self.table[cut[0]], self.table[cut[1]]
        step, ways = end - start, table[:, 1] - table[:, 0]
        first = step[0] * (table[:, :, 1] - start[1]) - step[1] * (table[:, :, 0] - start[0])
        one = ways[:, 0] * (start[1] - table[:, 0, 1]) - ways[:, 1] * (start[0] - table[:, 0, 0])
        two = ways[:, 0] * (end[1] - table[:, 0, 1]) - ways[:, 1] * (end[0] - table[:, 0, 0])
        split = numpy.sign(first[:, 0]) * numpy.sign(first[:, 1]) < 0
        return bool((split & (numpy.sign(one) * numpy.sign(two) < 0)).any())

    def rays(self, node: int) -> List[int]:
        """The nodes to which edges and cuts lead, against the clock, from the edge that leaves the node on."""
        leaving, _ = self.edges_at(node)
        here = self.spots[node]

        def half(cut: Spot) -> int:
            side = turn(leaving, cut)
            return 0 if side > 0 else 1 if side == 0 else 2

        def order(one: int, other: int) -> int:
            first, second = way(here, self.spots[one]), way(here, self.spots[other])
            return half(first) - half(second) or -turn(first, second)

        between = sorted(self.cuts.get(node, ()), key=functools.cmp_to_key(order))
        return [self.after[node], *between, self.before[node]]

    def is_convex_at(self, node: int) -> bool:
        """Whether edges and cuts leave no reflex angle at the node."""
        here, rays = self.spots[node], self.rays(node)
        if len(rays) == 2:
            return not self.is_reflex(node)
        ways = [way(here, self.spots[ray]) for ray in rays]
        return all(turn(one, other) >= 0 for one, other in zip(ways, ways[1:]))

    def add(self, cut: Cut) -> None:
        for one, other in (cut, cut[::-1]):
            self.cuts.setdefault(one, set()).add(other)

    def drop(self, cut: Cut) -> None:
        for one, other in (cut, cut[::-1]):
            self.cuts[one].discard(other)

    def faces(self) -> List[List[int]]:
        """The nodes around each part of the region, against the clock."""
        rays = {node: self.rays(node) for node in range(len(self.spots))}
        left = [(node, ray) for node in rays for ray in rays[node][:-1]]
        done: Set[Cut] = set()
        found = []
        for edge in left:
            face: List[int] = []
            while edge not in done:
                done.add(edge)
                face.append(edge[0])
                node = edge[1]
                edge = (node, rays[node][rays[node].index(edge[0], 1) - 1])
            if face:
                found.append(face)
        return found


def chosen_cuts(outline: Outline, reflex: List[int], seen: Dict[int, List[int]]) -> List[Cut]:
    """Cuts that leave no reflex corner, as far as those that are seen suffice."""
    spots = outline.spots

    def length(cut: Cut) -> int:
        step = way(spots[cut[0]], spots[cut[1]])
        return step[0] * step[0] + step[1] * step[1]

    cuts: List[Cut] = []

    def take(cut: Cut) -> None:
        cuts.append(cut)
        outline.add(cut)

    waiting = set(reflex)
    double = [
        (node, other)
        for node in reflex
        for other in seen[node]
        if node < other
        and other in waiting
        and outline.serves(node, other)
        and outline.serves(other, node)
    ]
    for cut in sorted(double, key=length):
        if waiting.issuperset(cut) and not outline.crosses(cut, cuts):
            take(cut)
            waiting.difference_update(cut)
    single = [
        (node, other) for node in waiting for other in seen[node] if outline.serves(node, other)
    ]
    for cut in sorted(single, key=length):
        if cut[0] in waiting and not outline.crosses(cut, cuts):
            take(cut)
            waiting.difference_update(
                node for node in cut if node in waiting and outline.is_convex_at(node)
            )
    for node in sorted(waiting):
        for other in seen[node]:
            if not outline.is_convex_at(node) and not outline.crosses((node, other), cuts):
                take((node, other))
    return cuts


def convex_parts(loops: Sequence[Sequence[Spot]]) -> Optional[List[List[Spot]]]:
    """The region as convex polygons, against the clock; all spots of the loops stay corners, also where no angle is.

    Nothing where the loops bound no region to their left.
    """
    outline = Outline(loops)
    reflex = [node for node in range(len(outline.spots)) if outline.is_reflex(node)]
    for enough in (SEEN_AT_FIRST, None):
        outline.cuts = {}
        seen = {node: outline.seen_from(node, enough) for node in reflex}
        cuts = chosen_cuts(outline, reflex, seen)
        if all(outline.is_convex_at(node) for node in reflex):
            break
    else:
        return None
    for cut in reversed(cuts):
        outline.drop(cut)
        if not (outline.is_convex_at(cut[0]) and outline.is_convex_at(cut[1])):
            outline.add(cut)
    parts = [[outline.spots[node] for node in face] for face in outline.faces()]
    whole = sum(twice_area(loop) for loop in loops)
    areas = [twice_area(part) for part in parts]
    return parts if all(area > 0 for area in areas) and sum(areas) == whole else None


def twice_area(loop: Sequence[Spot]) -> int:
    """Twice the area within a loop that runs against the clock."""
    return sum(turn(one, other) for one, other in zip(loop, [*loop[1:], loop[0]]))
