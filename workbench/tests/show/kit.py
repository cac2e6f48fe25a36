"""What these tests share: the products of the gallery, what `staat` says of them, and their files."""
from __future__ import annotations

import contextlib
import functools
import io
import json
import os
import re
import subprocess
import tempfile
from dataclasses import dataclass
from typing import Any, Dict, List, Tuple

import numpy

from workbench import planner
from workbench.planner import place_of
from workbench.reading.lists import read_list
from workbench.reading.off import read_off
from workbench.show import command
from workbench.show.command import Shown, shown_of

TOP = planner.TOP
GALLERY = os.path.join(TOP, "gallery")
Place = Tuple[int, ...]


def products() -> List[str]:
    """The names of the products of the gallery."""
    return sorted(
        name
        for name in os.listdir(GALLERY)
        if os.path.exists(os.path.join(GALLERY, name, "parts.json"))
    )


def listed(name: str) -> str:
    return os.path.join("gallery", name, "parts.json")


def staat(*words: str) -> str:
    """What the planner prints at the top of the repository."""
    program = os.environ.get("STAAT") or planner.program() or os.path.join(TOP, "staat")
    done = subprocess.run([program, *words], cwd=TOP, capture_output=True, text=True, check=False)
    return done.stdout


@dataclass(frozen=True)
class Move:
    """A step as `staat` prints it."""

    moved: List[int]
    along: List[int]
    rest: List[int]


@dataclass(frozen=True)
class Said:
    """What `staat` says of a product: its steps, and where the parts are once all are apart."""

    moves: List[Move]
    shifts: List[Place]
    stuck: List[int]

    def places(self) -> List[List[Place]]:
        """Where each part is before the first step, and after each.

        How far a step leads follows from where they are in the end: of each side some part rests in all later steps.
        """
        at: List[Place] = [(0, 0, 0)] * len(self.shifts)
        found: List[List[Place]] = [list(at)]
        for number, move in enumerate(self.moves):
            one, other = (self.resting(side, number) for side in (move.moved, move.rest))
            way = [a - b for a, b in zip(self.shifts[one], self.shifts[other])]
            at = [
                tuple(a + b for a, b in zip(place, way)) if part in move.moved else place
                for part, place in enumerate(at)
            ]
            found.append(list(at))
        return found

    def resting(self, side: List[int], number: int) -> int:
        """A part of a side that no step behind that of the number moves."""
        later = {
            part
            for move in self.moves[number + 1 :]
            if set(move.moved) | set(move.rest) <= set(side)
            for part in move.moved
        }
        return next(part for part in side if part not in later)


def moves_of(text: str) -> List[Move]:
    """The steps that `staat` prints."""
    return [
        Move(*(list(map(int, words.split())) for words in line))
        for line in re.findall(r"move (.*) along (.*) away from (.*)", text)
    ]


@functools.lru_cache(maxsize=None)
def planned(name: str) -> Said:
    """What `staat plan` and `staat explode` print, read."""
    manifest = f"--manifest={listed(name)}"
    plan = staat("plan", manifest)
    stuck = [int(word) for word in plan.split()[1:]] if plan.startswith("stuck") else []
    shifts = re.findall(r"shift \d+ by (\S+) (\S+) (\S+)", staat("explode", manifest))
    return Said(moves_of(plan), [tuple(map(int, shift)) for shift in shifts], stuck)


@functools.lru_cache(maxsize=None)
def said(name: str) -> Said:
    """What `staat decide --rest` prints, read, and where the parts are then, by the rule of `explode`."""
    told = staat("decide", "--rest", f"--manifest={listed(name)}")
    found = re.search("^stuck (.*)$", told, re.MULTILINE)
    stuck = [int(word) for word in found.group(1).split()] if found else []
    moves = moves_of(told)
    return Said(moves, apart(moves, boxes(name)), stuck)


def boxes(name: str) -> List[Tuple[numpy.ndarray, numpy.ndarray]]:
    """The least and the greatest coordinates of each part."""
    with contextlib.chdir(TOP):
        parts = read_list(listed(name))
    found = []
    for part in parts:
        rows: List[List[float]] = []
        for path in part.files:
            with open(os.path.join(TOP, path), "rb") as file:
                rows += [list(point)[:3] for point in read_off(file.read())[0]]
        points = numpy.array(rows) + numpy.array(part.at)
        found.append((points.min(axis=0), points.max(axis=0)))
    return found


def apart(moves: List[Move], found: List[Tuple[numpy.ndarray, numpy.ndarray]]) -> List[Place]:
    """Where the parts are after all steps: each, the last first, leads on until the boxes of its sides are apart."""
    at = numpy.zeros((len(found), 3), dtype=int)
    for move in reversed(moves):
        axis = [number != 0 for number in move.along].index(True)
        while not is_past(move, axis, at, found):
            at[move.moved] += numpy.array(move.along)
    return [tuple(map(int, row)) for row in at]


def is_past(
    move: Move, axis: int, at: numpy.ndarray, found: List[Tuple[numpy.ndarray, numpy.ndarray]]
) -> bool:
    """Whether the boxes of what moves are beyond those of what rests, by 1 at least."""
    ahead, behind = (move.moved, move.rest) if move.along[axis] > 0 else (move.rest, move.moved)
    low = min(found[part][0][axis] + at[part][axis] for part in ahead)
    high = max(found[part][1][axis] + at[part][axis] for part in behind)
    return bool(low >= high + 1)


@functools.lru_cache(maxsize=None)
def shown(name: str) -> Shown:
    """What is shown of a product."""
    with contextlib.chdir(TOP):
        return shown_of(place_of(listed(name)))


def write_files(what: Shown, path: str) -> None:
    """Writes the page and the glTF file, and says nothing."""
    with contextlib.redirect_stdout(io.StringIO()):
        command.write_files(what, path)


@functools.lru_cache(maxsize=None)
def folder(name: str) -> str:
    """A folder with the page and the glTF file of a product, made once."""
    path = os.path.join(scratch().name, name)
    write_files(shown(name), path)
    return path


@functools.lru_cache(maxsize=None)
def scratch() -> "tempfile.TemporaryDirectory[str]":
    return tempfile.TemporaryDirectory(prefix="show-")


def by_assimp(path: str) -> Dict[str, Any]:
    """What assimp reads in a glTF file."""
    with tempfile.TemporaryDirectory() as place:
        out = os.path.join(place, "out.json")
        subprocess.run(
            ["assimp", "export", path, out, "-fassjson"], check=True, capture_output=True
        )
        with open(out, encoding="utf-8") as file:
            told: Dict[str, Any] = json.load(file)
            return told
