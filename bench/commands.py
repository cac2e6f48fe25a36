#!/usr/bin/env python3
"""Times every command over the gallery and some large products, and says what got slower.

    python3 bench/commands.py PROGRAM [--only=NAME,..] [--runs=N] [--store]

A time is the least processor time of so many runs (5), in *yardsticks*: multiples of the processor time of yardstick.c,
which is built with `cc` and run in turn with the program, so that figures of different machines can be compared. The
stored figures are those of times.json; `--store` writes them anew. A run counts as slower where it takes a quarter more
than the stored one and a twentieth of a yardstick beside. Status 1 where one does, or ends with another status.
"""

from __future__ import annotations

import argparse
import functools
import json
import os
import pathlib
import subprocess
import sys
import tempfile
from collections.abc import Callable, Iterator
from dataclasses import dataclass

import solids

HERE = pathlib.Path(__file__).resolve().parent
TOP = HERE.parent
TIMES = HERE / "times.json"
FACTOR, SLACK = (
    1.25,
    0.02,
)  # what is no more than this above the stored figure is as fast: a factor, and yardsticks
LONGEST = 20.0  # seconds: what takes longer is run once
MANIFEST = "--manifest"  # stands for the product's own part list
CERTIFICATE = "certificate"

# What is asked of each product, in order: `check` judges what `cert` wrote.
COMMANDS: dict[str, tuple[str, ...]] = {
    "look": ("look", MANIFEST),
    "graph": ("graph", "--along=1,2,3", MANIFEST),
    "plan": ("plan", MANIFEST),
    "robust": ("plan", "--robust", MANIFEST),
    "cert": ("plan", "--cert", MANIFEST),
    "check": ("check", CERTIFICATE, MANIFEST),
    "cells": ("cells", MANIFEST),
    "explode": ("explode", MANIFEST),
    "linear": ("linear", MANIFEST),
    "local": ("local", MANIFEST),
    "decide": ("decide", MANIFEST),
    "blocks": ("blocks", "--along=1,2,3", MANIFEST),
}
ANSWERED = 5  # statuses below this one say something of the product


@dataclass(frozen=True)
class Figure:
    """What a run took, in yardsticks, and the status with which it ended."""

    yardsticks: float
    status: int

    def is_slower(self, stored: Figure) -> bool:
        """Whether it took clearly more than a stored one."""
        return self.yardsticks > FACTOR * stored.yardsticks + SLACK


Figures = dict[str, dict[str, Figure]]  # by product and command


def part_of(each: int, piece: int) -> int:
    """The part of a piece where so many make one."""
    return piece // each


def tube_of(piece: int) -> int:
    """The part of a piece of nested tubes: the first is the rod, and each four behind it are a tube."""
    return (piece + 3) // 4


def large() -> Iterator[tuple[str, list[solids.Piece], Callable[[int], int]]]:
    """Large products: the name, with numbers of pieces and corners, or of parts; the pieces; and the part of each."""
    by_twos = functools.partial(part_of, 2)
    yield "flat balls 64x64", solids.flat_pieces([64] * 64), by_twos
    yield "flat balls 64x8", solids.flat_pieces([8] * 64), by_twos
    yield "far balls 64x8", solids.far_pieces([8] * 64), by_twos
    yield "flat balls 12x12", solids.flat_pieces([12] * 12), functools.partial(part_of, 1)
    yield "nested tubes 9", solids.nested_tubes(9), tube_of


def listed() -> Iterator[tuple[str, str]]:
    """The products of the repository: each one's name, and its part list as it is named from the top folder."""
    for listing in sorted([*TOP.glob("gallery/*/parts.json"), *TOP.glob("examples/tray/*.json")]):
        folder = listing.parent.name
        name = folder if listing.stem == "parts" else f"{folder} {listing.stem}"
        yield name, str(listing.relative_to(TOP))


def products(folder: pathlib.Path) -> Iterator[tuple[str, pathlib.Path, str]]:
    """Each product: its name, the folder in which it is asked about, and its part list as it is named there.

    Those that are made are written into `folder`.
    """
    for name, listing in listed():
        yield name, TOP, listing
    for number, (name, pieces, parts) in enumerate(large()):
        at = folder / str(number)
        at.mkdir()
        solids.write(str(at), pieces, parts)
        yield name, at, "parts.json"


def run(words: list[str], folder: pathlib.Path, out: pathlib.Path) -> Figure:
    """The processor seconds and the status of one run, whose output goes to a file."""
    with out.open("wb") as file:
        child = subprocess.Popen(
            words, cwd=folder, stdin=subprocess.DEVNULL, stdout=file, stderr=subprocess.DEVNULL
        )
        _, status, used = os.wait4(child.pid, 0)
        child.returncode = os.waitstatus_to_exitcode(status)
    return Figure(used.ru_utime + used.ru_stime, child.returncode)


class Clock:
    """Times runs of a program in yardsticks. Its files stand in a folder of its own."""

    def __init__(self, program: str, runs: int, folder: pathlib.Path) -> None:
        self._program, self._runs, self._folder = program, runs, folder
        self._yardstick = folder / "yardstick"
        subprocess.run(
            ["cc", "-O2", "-o", str(self._yardstick), str(HERE / "yardstick.c")], check=True
        )

    def time(self, words: tuple[str, ...], folder: pathlib.Path, out: pathlib.Path) -> Figure:
        """The least of some runs, each beside one of the yardstick."""
        found, units = [], []
        for _ in range(self._runs):
            units.append(run([str(self._yardstick)], folder, self._folder / "unit").yardsticks)
            found.append(run([self._program, *words], folder, out))
            if found[-1].yardsticks > LONGEST:
                break
        best = min(it.yardsticks for it in found)
        return Figure(round(best / min(units), 4), found[-1].status)

    def all(self, folder: pathlib.Path, listing: str) -> dict[str, Figure]:
        """What each command takes of one product."""
        stands_for = {
            CERTIFICATE: str(self._folder / CERTIFICATE),
            MANIFEST: f"{MANIFEST}={listing}",
        }
        certificate = self._folder / CERTIFICATE
        figures = {}
        for command, words in COMMANDS.items():
            out = certificate if command == "cert" else self._folder / "out"
            asked = tuple(stands_for.get(word, word) for word in words)
            figures[command] = self.time(asked, folder, out)
            if figures[command].status >= ANSWERED:
                sys.exit(f"bench: {listing}: {command} ended with status {figures[command].status}")
        return figures


def read(path: pathlib.Path) -> Figures:
    """The stored figures; none where there is no file."""
    if not path.exists():
        return {}
    stored = json.loads(path.read_text(encoding="utf-8"))
    return {
        product: {command: Figure(*figure) for command, figure in figures.items()}
        for product, figures in stored.items()
    }


def write(path: pathlib.Path, figures: Figures) -> None:
    """Stores figures, a line for each product."""
    lines = [
        f"{json.dumps(product)}: "
        + json.dumps({command: [it.yardsticks, it.status] for command, it in found.items()})
        for product, found in sorted(figures.items())
    ]
    path.write_text("{\n" + ",\n".join(lines) + "\n}\n", encoding="utf-8")


def slower(product: str, now: dict[str, Figure], stored: dict[str, Figure]) -> Iterator[str]:
    """A line for each command that got slower, or that ends with another status."""
    for command, figure in now.items():
        before = stored.get(command)
        if before is None:
            continue
        if figure.status != before.status:
            yield f"{product}: {command}: status {figure.status}, stored {before.status}"
        elif figure.is_slower(before):
            yield (
                f"{product}: {command}: {figure.yardsticks:.3f} yardsticks,"
                f" stored {before.yardsticks:.3f}"
            )


def compare(
    clock: Clock, only: set[str], stored: Figures, folder: pathlib.Path
) -> tuple[Figures, int]:
    """The figures of all products, or of those that are named, and how many got slower; each is told."""
    figures: Figures = {}
    count = 0
    for product, at, listing in products(folder):
        if only and product not in only:
            continue
        figures[product] = clock.all(at, listing)
        row = "  ".join(
            f"{command} {it.yardsticks:.3f}" for command, it in figures[product].items()
        )
        print(f"{product}: {row}", flush=True)
        for line in slower(product, figures[product], stored.get(product, {})):
            print(f"slower: {line}", flush=True)
            count += 1
    return figures, count


def main(words: list[str]) -> int:
    """Times what is asked, and stores the figures or compares them."""
    parser = argparse.ArgumentParser(description=(__doc__ or "").partition("\n")[0])
    parser.add_argument("program", help="the built program, not ./staat")
    parser.add_argument("--only", default="", help="names of products, with commas between them")
    parser.add_argument(
        "--runs", type=int, default=5, help="how often each is run; the least counts (5)"
    )
    parser.add_argument("--store", action="store_true", help="write the figures to times.json")
    given = parser.parse_args(words)
    only = {name for name in given.only.split(",") if name}
    stored = read(TIMES)
    with tempfile.TemporaryDirectory() as name:
        folder = pathlib.Path(name)
        clock = Clock(os.path.abspath(given.program), max(1, given.runs), folder)
        figures, count = compare(clock, only, {} if given.store else stored, folder)
    if only - set(figures):
        print(f"bench: no product {', '.join(sorted(only - set(figures)))}", file=sys.stderr)
        return 2
    if given.store:
        write(TIMES, {**stored, **figures})
    print(f"{sum(map(len, figures.values()))} times, {count} slower")
    return 1 if count else 0


if __name__ == "__main__":
    sys.exit(main(sys.argv[1:]))
