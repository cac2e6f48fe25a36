"""The parts of a list by the names of the model: one alone, several, and those that are the same with their count."""
from __future__ import annotations

import json
import os
import re
from dataclasses import dataclass, field
from fractions import Fraction
from functools import cached_property
from typing import Any, Dict, List, Optional, Sequence, Tuple

import numpy

from .certificate import Vector
from .hulls import piece_of as hull_of
from .overlaps import Body
from .planner import Place, must_be
from .reading.lists import read_list
from .reading.off import read_off_file
from .sameness import same_parts
from .solid import Piece, Refusal
from .writing import MODEL

WORDS = "no one two three four five six seven eight nine ten eleven twelve".split()
NAMED = 4  # of several that are the same, but are not all, that are named one by one
FEW = 6  # parts that are named one by one, where they are no group that is counted


def counted(many: int, word: str) -> str:
    """A number and what it counts: one step, four screws M4. A name in capitals stays as it is: six BOLT."""
    return f"{number_word(many)} {word if many == 1 else plural(word)}"


def number_word(many: int) -> str:
    return WORDS[many] if many < len(WORDS) else str(many)


def plural(words: str) -> str:
    """Several of what words name; their first word is made plural where it is an ordinary one."""
    first, blank, others = words.partition(" ")
    if not re.fullmatch("[a-z]+", first) or len(first) < 2:
        return words
    if re.search("(s|x|z|ch|sh)$", first):
        return f"{first}es{blank}{others}"
    if re.search("[^aeiou]y$", first):
        return f"{first[:-1]}ies{blank}{others}"
    return f"{first}s{blank}{others}"


def listing(words: Sequence[str]) -> str:
    return words[0] if len(words) == 1 else ", ".join(words[:-1]) + " and " + words[-1]


def short_names(names: Sequence[str]) -> List[str]:
    """The names without the assemblies that parts stand in, but with the numbers of their copies, where these tell all.

    BOLT::1::3 for A::1/B::3/BOLT.
    """
    found = []
    for name in names:
        *above, last = name.rstrip("/").split("/")
        copies = [re.search(r"(::\d+)+$", word) for word in above]
        plain, copy = re.fullmatch(r"(.*?)((?:::\d+)*)", last, re.DOTALL).groups()  # type: ignore
        found.append(plain + "".join(it.group() for it in copies if it) + copy)
    return found if len(set(found)) == len(found) and all(found) else list(names)


@dataclass
class Parts:
    """The parts of a list: names, pieces on the grid, groups of those that are the same, and the bounds of the pieces.

    same: name and numbers of parts that are alike, in the order of the first of each; one that is like no other too
    unit: of the model, empty where none is known; grid: how much of it a step is
    over, under: how far pieces go beyond their parts and fall short of them, at most; model units
    axes: directions of the model that are the axes of the files, where these are others
    side, command: on which side of the parts the pieces are wanted, and the call that made them; else empty
    """

    names: List[str]
    same: List[Tuple[str, List[int]]]
    pieces: List[List[Piece]] = field(default_factory=list)
    unit: str = ""
    grid: Fraction = Fraction(1)
    over: float = 0.0
    under: float = 0.0
    side: str = ""
    command: str = ""
    axes: Optional[List[List[float]]] = None

    def unit_vector(self, along: Vector) -> List[float]:
        """A direction as a unit vector of the model, to six digits."""
        way = numpy.array(along, dtype=float)
        if self.axes is not None:
            way = way @ numpy.array(self.axes)
        return [round(float(number), 6) + 0.0 for number in way / numpy.linalg.norm(way)]

    def direction(self, along: Vector) -> str:
        return "(" + ", ".join(f"{number:g}" for number in self.unit_vector(along)) + ")"

    @cached_property
    def boxes(self) -> List[Tuple[numpy.ndarray, numpy.ndarray]]:
        """The least and the greatest coordinates of each part, in steps."""
        rows = [numpy.concatenate([piece.points for piece in some]) for some in self.pieces]
        return [(points.min(axis=0), points.max(axis=0)) for points in rows]

    @cached_property
    def short(self) -> List[str]:
        """The names as they stand in lines for people."""
        return short_names(self.names)

    def body(self, part: int, piece: int) -> Body:
        return Body(part, piece, hull_of(self.pieces[part][piece].points.tolist()))

    def kind(self, part: int) -> int:
        """The number of the group of parts that are the same in which a part is."""
        return next(n for n, (_, members) in enumerate(self.same) if part in members)

    def called(self, numbers: Sequence[int], article: str = "") -> str:
        """The parts by name; those that are the same once with their count, where all or many of them are meant.

        article: stands before a part that is alone, as "the "; then more are named before they are counted
        """
        left, words = list(numbers), []
        for name, members in self.same:
            meant = [number for number in members if number in left]
            if len(members) > 1 and len(meant) == len(members):
                words.append(counted(len(members), name))
            elif len(meant) > (NAMED if article else 2):
                words.append(f"{number_word(len(meant))} of {counted(len(members), name)}")
            else:
                continue
            left = [number for number in left if number not in meant]
        if len(left) > FEW and len(words) + len(left) > FEW + 1:
            words.append(f"{len(left)} {'others' if words else 'parts'}")
        else:
            words += [article + self.short[number] for number in left]
        return listing(words)

    def briefly(self, numbers: Sequence[int]) -> str:
        """A set of parts by the names of some, where they are more than two."""
        if len(numbers) <= 2:
            return self.called(numbers)
        return f"{self.short[numbers[0]]} and {number_word(len(numbers) - 1)} with it"

    def others(self, numbers: Sequence[int], moved: Sequence[int]) -> str:
        """Those that parts leave behind: by name, or as all others where these are many and no part is elsewhere."""
        if len(numbers) > FEW and len(numbers) + len(moved) == len(self.names):
            return f"all {len(numbers)} others"
        return self.called(numbers)

    def length(self, steps: float) -> float:
        """Steps of the grid in the unit of the model."""
        return steps * float(self.grid)

    def place(self, point: Sequence[float]) -> Tuple[float, float, float]:
        x, y, z = (round(self.length(number), 6) + 0.0 for number in point)
        return (x, y, z)


def read_parts(place: Place) -> Parts:
    """The parts of a list. Refusal: it cannot be read."""
    must_be(place)
    listed = read_list(place.path)
    named = [(part.name, [piece_of(file, part.at) for file in part.files]) for part in listed]
    found = Parts([name for name, _ in named], same_parts(named), [some for _, some in named])
    model = model_of(place, found.names)
    if model:
        found.unit, found.grid = model["unit"], Fraction(model["grid"])
        found.over = max(part["over"] for part in model["parts"])
        found.under = max(part["under"] for part in model["parts"])
        found.side, found.command = model["side"], model.get("command", "")
        found.axes = model.get("axes")
    return found


def model_of(place: Place, names: Sequence[str]) -> Optional[Dict[str, Any]]:
    """What stands in model.json beside the list, where it tells of the same parts. Refusal: it cannot be read."""
    path = os.path.join(place.beside, MODEL)
    try:
        with open(path, encoding="utf-8") as file:
            model: Dict[str, Any] = json.load(file)
        return model if [part["name"] for part in model["parts"]] == list(names) else None
    except FileNotFoundError:
        return None
    except (OSError, ValueError, KeyError, TypeError) as fault:
        raise Refusal(f"{path}: not what pieces writes ({fault})") from fault


def piece_of(path: str, at: Vector) -> Piece:
    """The piece in a file, moved. Refusal: it cannot be read."""
    points, faces = read_off_file(path)
    rows = numpy.rint(numpy.array(points, dtype=float)[:, :3]).astype(numpy.int64)
    return Piece(rows + numpy.array(at, dtype=numpy.int64), faces)


def listed_alone(place: Place, some: Sequence[int]) -> Dict[str, Any]:
    """A part list of some of the parts, whose names of files hold where those of the whole do."""
    with open(place.path, encoding="utf-8") as file:
        parts = json.load(file)["parts"]
    return {"parts": [parts[number] for number in some]}
