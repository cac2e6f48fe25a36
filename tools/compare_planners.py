#!/usr/bin/env python3
"""Holds `staat decide` against `staat plan`, and its plans against `staat check`.

    python3 tools/compare_planners.py [--program=FILE] [--made=N] [--seed=S] [--only=CASE] [PART_LISTS..]

The products are those of the part lists, or of all in examples/ and gallery/ where none is named, and N that are made
by chance, so that a seed and the number of a case always give the same. Of each:

- where `plan` answers, `decide` answers in kind: both a plan, or both parts that are stuck;
- a plan of `decide` is written as a certificate, with walls that are found here, and `check` calls it valid;
- parts that `decide` calls stuck are given to `plan` alone, which calls all of them stuck.

Each difference is printed with its seed and its case; the last line is `N passed, M failed`, and the status is 1 where
any failed. It is not proved.
"""

from __future__ import annotations

import argparse
import concurrent.futures
import json
import os
import random
import subprocess
import sys
import tempfile
from collections.abc import Iterable, Iterator, Sequence
from dataclasses import dataclass
from itertools import islice, product as pairs_of
from pathlib import Path

import check
import compare_checkers as made
from pieces import dot

TOP = Path(__file__).resolve().parent.parent
SECONDS = 120  # how long a run may take
MADE_AT_ONCE = 50  # so many products are made of one seed

Vector = tuple[int, int, int]


@dataclass(frozen=True)
class Step:
    """Parts that move along a direction away from others."""

    moved: frozenset[int]
    along: Vector
    rest: frozenset[int]

    @classmethod
    def read(cls, line: str) -> Step:
        """Reads the line `move P .. along X Y Z away from Q ..`."""
        moved, _, behind = line.removeprefix("move ").partition(" along ")
        along, _, rest = behind.partition(" away from ")
        x, y, z = map(int, along.split())
        return cls(frozenset(map(int, moved.split())), (x, y, z), frozenset(map(int, rest.split())))


class Wrong(Exception):
    """What is wrong with an answer, in a line."""


def asked(program: str, folder: str, *words: str) -> subprocess.CompletedProcess[str]:
    """What the program says to the words in that folder."""
    run = [program, *words]
    return subprocess.run(
        run, cwd=folder, capture_output=True, text=True, check=False, timeout=SECONDS
    )


def wall_between(
    product: check.Product, p: tuple[int, int], q: tuple[int, int], d: Vector
) -> Vector:
    """The normal of a plane between two pieces through which the direction does not lead."""
    for normal in sorted(product.facets(*p, *q)):
        if dot(normal, d) <= 0:
            return normal
    raise Wrong(f"pieces {p} and {q} meet along {d}")


def walls_of(product: check.Product, step: Step) -> Iterator[str]:
    """The `sep` lines of a step: a wall for each two pieces across."""
    pieces = [
        ((a, i), (b, j))
        for a, b in pairs_of(sorted(step.moved), sorted(step.rest))
        for i, j in pairs_of(range(len(product.parts[a])), range(len(product.parts[b])))
    ]
    for (a, i), (b, j) in pieces:
        x, y, z = wall_between(product, (a, i), (b, j), step.along)
        yield f"sep {a} {i} {b} {j} {x} {y} {z}"


def in_order(separators: Iterator[str]) -> list[str]:
    """The `sep` lines by parts and pieces, as a certificate has them."""
    return sorted(separators, key=lambda line: tuple(map(int, line.split()[1:5])))


def nodes_of(product: check.Product, steps: list[Step], parts: frozenset[int]) -> Iterator[str]:
    """The lines of the tree that takes the parts apart by the first of the steps, which are in preorder."""
    open_sets = [parts]
    while open_sets:
        members = open_sets.pop()
        if len(members) == 1:
            yield f"leaf {min(members)}"
            continue
        step = steps.pop(0)
        if step.moved | step.rest != members or step.moved & step.rest:
            raise Wrong(f"a step moves {sorted(step.moved)} out of {sorted(members)}")
        yield "split {} {} {}".format(*step.along)
        yield from in_order(walls_of(product, step))
        open_sets += [step.rest, step.moved]


def certificate_of(product: check.Product, text: str) -> str:
    """The certificate of the plan that is printed as this text, in the second version."""
    *lines, last = text.splitlines()
    steps = [Step.read(line) for line in lines]
    if last != f"moves {len(steps)}":
        raise Wrong(f"the last line is {last!r}")
    count = len(product.parts)
    nodes = list(nodes_of(product, steps, frozenset(range(count))))
    if steps:
        raise Wrong("there are more steps than splits")
    return "\n".join(["STAAT 2", f"parts {count}", "plan", *nodes, "end", ""])


def is_small(product: check.Product) -> bool:
    """Whether `check` takes products of that size."""
    return len(product.parts) <= 32 and sum(map(len, product.parts)) <= 64


def only_parts(folder: str, words: Sequence[str], members: Sequence[int], to: Path) -> list[str]:
    """The words for the same product with these parts alone; a part list that is wanted for it is written."""
    lists = [word for word in words if word.startswith("--manifest=")]
    options = [word for word in words if word.startswith("--digits=")]
    if not lists:
        files = [word for word in words if not word.startswith("--")]
        return [files[p] for p in members] + options
    listed = json.loads(Path(folder, lists[0].partition("=")[2]).read_text(encoding="utf-8"))
    to.write_text(json.dumps({"parts": [listed["parts"][p] for p in members]}), encoding="utf-8")
    return [f"--manifest={to}", *options]


@dataclass
class Comparison:
    """Both planners asked about one product after another."""

    program: str
    scratch: Path

    def judge(self, subject: made.Subject, number: int) -> None:
        """Raises Wrong where the answers about the product do not go together."""
        folder, words = str(subject.folder), list(subject.words)
        decided = asked(self.program, folder, "decide", *words)
        if decided.returncode not in (0, 1):
            raise Wrong(f"decide: status {decided.returncode}: {decided.stderr.strip()}")
        planned = asked(self.program, folder, "plan", *words)
        if planned.returncode in (0, 1) and planned.returncode != decided.returncode:
            raise Wrong(f"plan: status {planned.returncode}, decide: {decided.returncode}")
        if decided.returncode == 1:
            self.judge_stuck(folder, words, decided.stdout, number)
        elif is_small(subject.product):
            self.judge_plan(subject, decided.stdout, number)

    def judge_plan(self, subject: made.Subject, text: str, number: int) -> None:
        """Lets `check` judge the certificate of a plan."""
        file = self.scratch / f"{number}.certificate"
        file.write_text(certificate_of(subject.product, text), encoding="utf-8")
        said = asked(self.program, str(subject.folder), "check", str(file), *subject.words)
        if said.stdout != "valid plan\n":
            raise Wrong(f"check: {said.stdout.strip()}{said.stderr.strip()}")

    def judge_stuck(self, folder: str, words: Sequence[str], text: str, number: int) -> None:
        """Lets `plan` look at the parts alone that are called stuck."""
        members = [int(word) for word in text.split()[1:]]
        alone = only_parts(folder, words, members, self.scratch / f"{number}.json")
        said = asked(self.program, folder, "plan", *alone)
        if (
            said.returncode in (0, 1)
            and said.stdout != f"stuck {' '.join(map(str, range(len(members))))}\n"
        ):
            raise Wrong(f"{text.strip()}, but plan says of them: {said.stdout.strip()}")


def made_subjects(seed: int, numbers: range, folder: str) -> Iterator[tuple[int, made.Subject]]:
    """The products of these numbers that are made of the seed; one file is written for each piece."""
    wanted = set(numbers)
    for start in range(0, numbers.stop, MADE_AT_ONCE):
        if not wanted.intersection(range(start, start + MADE_AT_ONCE)):
            continue
        chance = random.Random(f"{seed} {start}")
        products = islice(iter(_endless(chance)), MADE_AT_ONCE)
        for number, parts in enumerate(products, start):
            subject = made.written_subject(chance, folder, number, parts)
            if number in wanted:
                yield number, subject


def _endless(chance: random.Random) -> Iterator[list[object]]:
    while True:
        yield from made.made_products(chance)


def tried(
    comparison: Comparison, subjects: Iterable[tuple[str, int, made.Subject]]
) -> tuple[int, list[str]]:
    """How many of the products pass, and what is wrong with the others, each told by its title."""
    passed, wrong = 0, []
    for title, number, subject in subjects:
        try:
            comparison.judge(subject, number)
            passed += 1
        except (Wrong, subprocess.TimeoutExpired) as why:
            wrong.append(f"{title}: {why}")
    return passed, wrong


def tried_made(program: str, seed: int, numbers: range) -> tuple[int, list[str]]:
    """The same of products that are made."""
    with tempfile.TemporaryDirectory() as folder:
        subjects = made_subjects(seed, numbers, folder)
        titled = ((f"seed {seed} case {number}", number, it) for number, it in subjects)
        return tried(Comparison(program, Path(folder)), titled)


def tried_lists(program: str, lists: Sequence[Path]) -> tuple[int, list[str]]:
    """The same of the products of part lists that `look` takes."""
    with tempfile.TemporaryDirectory() as folder:
        found = ((path, made.listed_subject(program, path)) for path in lists)
        titled = ((str(path), k, it) for k, (path, it) in enumerate(found) if it is not None)
        return tried(Comparison(program, Path(folder)), titled)


def main(words: Sequence[str]) -> int:
    parser = argparse.ArgumentParser(description="Compares decide with plan.", allow_abbrev=False)
    parser.add_argument("lists", nargs="*", type=Path, help="part lists")
    parser.add_argument("--program", default=str(TOP / "staat"))
    parser.add_argument("--made", type=int, default=1000, help="how many products are made")
    parser.add_argument("--seed", type=int, default=1)
    parser.add_argument("--only", type=int, help="one case of those that are made")
    given = parser.parse_args(words)
    program = str(Path(given.program).resolve())
    lists = [path.resolve() for path in given.lists] or sorted(
        path for folder in ("examples", "gallery") for path in (TOP / folder).glob("*/*.json")
    )
    if given.only is not None:
        passed, wrong = tried_made(program, given.seed, range(given.only, given.only + 1))
    else:
        ranges = [
            range(k, min(k + MADE_AT_ONCE, given.made)) for k in range(0, given.made, MADE_AT_ONCE)
        ]
        passed, wrong = tried_lists(program, lists)
        with concurrent.futures.ProcessPoolExecutor(os.cpu_count()) as pool:
            for more, faults in pool.map(
                tried_made, [program] * len(ranges), [given.seed] * len(ranges), ranges
            ):
                passed, wrong = passed + more, wrong + faults
    for line in wrong:
        print(line)
    print(f"{passed} passed, {len(wrong)} failed")
    return 1 if wrong else 0


if __name__ == "__main__":
    sys.exit(main(sys.argv[1:]))
