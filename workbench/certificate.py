"""Short certificates of `staat` (docs/FORMATS.md): the steps of a product, and the groups that remain.

Nothing is judged here: that is for `staat confirm`. What is read is what a certificate says.
"""
from __future__ import annotations

from dataclasses import dataclass
from typing import Dict, List, NamedTuple, Sequence, Tuple

from .solid import Refusal

Vector = Tuple[int, int, int]
HEAD = "STAAT SHORT 1"


class Pair(NamedTuple):
    """A piece of a part and a piece of a part behind it, which meet along some directions; all by number."""

    part: int
    piece: int
    by: int
    by_piece: int


@dataclass(frozen=True)
class Step:
    """Parts that move together along a direction, whole numbers, away from others; parts by number."""

    moved: Tuple[int, ...]
    along: Vector
    rest: Tuple[int, ...]


@dataclass(frozen=True)
class Hold:
    """Sets of parts that hold each other along every direction, and the pairs of pieces by which they do."""

    nodes: Tuple[Tuple[int, ...], ...]
    pairs: Tuple[Pair, ...]


@dataclass(frozen=True)
class Group:
    """Parts that no plan takes apart. The holds join them one after another, the first those that are joined first."""

    parts: Tuple[int, ...]
    holds: Tuple[Hold, ...] = ()


@dataclass(frozen=True)
class Answer:
    """The steps that take a product apart, the first first, down to single parts and to these groups."""

    steps: Tuple[Step, ...]
    groups: Tuple[Group, ...] = ()


def read_certificate(text: str) -> Answer:
    """What a short certificate says. Refusal: it is none."""
    try:
        return Reader([line.split() for line in text.splitlines()]).answer()
    except (IndexError, ValueError) as fault:
        raise Refusal("staat decide answers with no short certificate") from fault


class Reader:
    """The lines of a certificate as words, read from the first on."""

    def __init__(self, lines: Sequence[List[str]]) -> None:
        self.lines, self.number = lines, 0
        self.steps: List[Step] = []
        self.groups: List[Group] = []

    def next(self) -> List[str]:
        self.number += 1
        return self.lines[self.number - 1]

    def ahead(self, word: str) -> bool:
        """Whether the next line begins with a word."""
        return self.number < len(self.lines) and self.lines[self.number][0] == word

    def answer(self) -> Answer:
        if " ".join(self.next()) != HEAD:
            raise ValueError("no short certificate")
        self.next()
        (kind,) = self.next()
        if kind == "stuck":
            self.group()
        else:
            self.tree()
        if self.next() != ["end"]:
            raise ValueError("no end")
        return Answer(tuple(self.steps), tuple(self.groups))

    def tree(self) -> Tuple[int, ...]:
        """Adds the steps and groups of the tree that begins with the next line; the parts in it.

        A tree of a thousand parts may be as many splits deep, so those that wait for their sides stand in a list.
        """
        waiting: List[Waiting] = []
        while True:
            word, *numbers = self.next()
            if word == "split":
                x, y, z = map(int, numbers)
                waiting.append(Waiting(len(self.steps), (x, y, z)))
                self.steps.append(Step((), (x, y, z), ()))
                continue
            parts = (int(numbers[0]),) if word == "leaf" else self.group()
            while waiting and waiting[-1].moved:
                above = waiting.pop()
                self.steps[above.step] = Step(above.moved, above.along, parts)
                parts = tuple(sorted(above.moved + parts))
            if not waiting:
                return parts
            waiting[-1].moved = parts

    def group(self) -> Tuple[int, ...]:
        """Adds the group whose first hold is the next line; its parts."""
        joined: Dict[int, Tuple[int, ...]] = {}
        holds: List[Hold] = []
        if not self.ahead("hold"):
            raise ValueError("no hold")
        while self.ahead("hold"):
            self.next()
            names, pairs = [], []
            while self.ahead("part"):
                names.append(int(self.next()[1]))
            while self.ahead("pair"):
                pairs.append(Pair(*map(int, self.next()[1:])))
            holds.append(Hold(tuple(joined.get(name, (name,)) for name in names), tuple(pairs)))
            parts = tuple(sorted(part for node in holds[-1].nodes for part in node))
            joined[names[0]] = parts
        self.groups.append(Group(parts, tuple(holds)))
        return parts


@dataclass
class Waiting:
    """A step whose sides are being read: its number, its direction, and the parts that move, once they are read."""

    step: int
    along: Vector
    moved: Tuple[int, ...] = ()
