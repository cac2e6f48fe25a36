"""Cuts the solids of a product into pieces, side by side, each that is alike but for its place once."""
from __future__ import annotations

import os
from concurrent.futures import ProcessPoolExecutor
from dataclasses import dataclass, replace
from typing import Iterable, List, Optional, Sequence, Tuple, Union

import numpy

from .alike import Alike, Turn, further, groups_of, mesh_of
from .convex import Cut, decompose, frame_of, placed
from .progress import Progress
from .solid import Options, Piece, Pieces, Refusal, Solid

FEW = 200  # faces that are cut faster than another process begins
Answer = Union[Pieces, str]  # the pieces, or the line that says why there are none


@dataclass
class Like:
    """A solid that was cut, and how another one is turned against it."""

    solid: Solid
    cut: Cut
    turn: Turn


@dataclass
class Task:
    """A solid that is to be cut, of the pieces of one that is like it if there is one."""

    solid: Solid
    options: Options
    like: Optional[Like] = None

    def answer(self) -> Answer:
        """The pieces, or a line where it cannot be cut; a fault of the program is one, too."""
        name = mesh_of(self.solid).name
        try:
            return self.pieces()
        except Refusal as fault:
            return f"{name}: {fault}" if name not in str(fault) else str(fault)
        except Exception as fault:  # one solid must not take the others along
            cause = " ".join([type(fault).__name__, *str(fault).split()])[:200]
            return f"{name}: it could not be cut ({cause}); please report this with the file"

    def pieces(self) -> Pieces:
        like = self.like
        found = like and placed(self.solid, self.options, like.solid, like.cut, like.turn)
        return found or decompose(self.solid, self.options)


def moved(pieces: Pieces, way: numpy.ndarray, more: Tuple[float, float]) -> Pieces:
    """Pieces a way of whole steps elsewhere, of a solid against which their bounds are greater by so much."""
    there = [Piece(piece.points + way, piece.faces) for piece in pieces.pieces]
    over, under = pieces.over + more[0], pieces.under + more[1]
    if isinstance(pieces, Cut):
        beyond = (pieces.beyond[0] + more[0], pieces.beyond[1] + more[1])
        return replace(pieces, pieces=there, over=over, under=under, beyond=beyond)
    return replace(pieces, pieces=there, over=over, under=under)


class Work:
    """The answers for all solids, while they are found."""

    def __init__(self, solids: Sequence[Solid], options: Options) -> None:
        self.solids, self.options = solids, options
        self.answers: List[Answer] = [""] * len(solids)

    def task(self, alike: Alike, like: Optional[Like] = None) -> Task:
        return Task(self.solids[alike.first], self.options, like)

    def turned_task(self, alike: Alike, other: Alike, turn: Turn) -> Task:
        """The task for a solid that is like one that was cut; alone, where that one could not be cut."""
        answer = self.answers[alike.first]
        if isinstance(answer, Cut):
            return self.task(other, Like(self.solids[alike.first], answer, turn))
        return self.task(other)

    def take(self, alike: Alike, answer: Answer) -> None:
        """The answer for the first of a group, which is that of all that only lie elsewhere."""
        self.answers[alike.first] = answer
        for number, way in alike.others:
            self.answers[number] = answer
            if isinstance(answer, Pieces):
                more = further(self.solids[alike.first], self.solids[number], way)
                self.answers[number] = moved(answer, way, more)


class Jobs:
    """So many processes that cut solids; where one is enough, this one does it."""

    def __init__(self, many: int) -> None:
        self.pool = ProcessPoolExecutor(many) if many > 1 else None

    def __enter__(self) -> "Jobs":
        return self

    def __exit__(self, *fault: object) -> None:
        if self.pool is not None:
            self.pool.shutdown()

    def each(self, tasks: Sequence[Task]) -> Iterable[Answer]:
        """The answers, in the order of the tasks."""
        if self.pool is None:
            return (task.answer() for task in tasks)
        waiting = [self.pool.submit(task.answer) for task in tasks]
        return (one.result() for one in waiting)


def cut(solids: Sequence[Solid], options: Options, jobs: Optional[int] = None) -> List[Answer]:
    """The pieces of each solid, or a line that says why there are none."""
    groups = groups_of(solids)
    drawn = [solid.exact for solid in solids if solid.exact is not None]
    options = replace(options, frame=frame_of(drawn) if drawn else None)
    turned = [(alike, *pair) for alike in groups for pair in alike.turned]
    work = Work(solids, options)
    faces = sum(len(mesh_of(solids[alike.first]).faces) for alike in groups)
    many = min(jobs or os.cpu_count() or 1, len(groups), 1 + faces // FEW)
    with Progress("solids cut", len(groups) + len(turned)) as progress, Jobs(many) as pool:
        for alike, answer in zip(groups, pool.each([work.task(alike) for alike in groups])):
            work.take(alike, answer)
            progress.step()
        for (_, other, _), answer in zip(
            turned, pool.each([work.turned_task(*it) for it in turned])
        ):
            work.take(other, answer)
            progress.step()
    return work.answers
