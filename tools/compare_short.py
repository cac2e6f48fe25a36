#!/usr/bin/env python3
"""Compares `staat confirm` with tools/check_short.py on short certificates of products, and on many that are broken.

    python3 tools/compare_short.py [--program=FILE] [--broken=N] [--seed=S] [--only=CASE] [PART_LISTS..]

The products are those of compare_checkers.py, some that are partly stuck, and some whose pieces have 64 corners. Of
each the program makes its short certificates, with `--rest` and without. Both checkers judge each of them, and call it
valid; then N broken ones: in each, something in one of the certificates is changed, by chance, but so that a seed and
the number of a case always give the same. Each difference is printed with its seed and its case; the last line is
`N passed, M failed`, and the status is 1 where any failed. With --only=CASE that one case is run and its certificate
printed. It is not proved.
"""

from __future__ import annotations

import argparse
import collections
import concurrent.futures
import os
import random
import subprocess
import sys
import tempfile
from collections.abc import Callable, Iterator, Sequence
from dataclasses import dataclass, field
from pathlib import Path

import check_short
import compare_checkers as made

TOP = Path(__file__).resolve().parent.parent
SECONDS = 120  # how long a run may take
MOST_LINES = 400  # longer certificates are compared as they are, but not broken
CASES_AT_ONCE = 250
WORDS = "STAAT SHORT parts plan stuck rest split leaf group hold part pair end".split()
STRANGE = (1023, 1024, 1025, 16383, 16384, 2**81, 2**81 + 1, -(2**81), -(2**81) - 1)

Solid = tuple[list[tuple[int, ...]], Sequence[Sequence[int]]]  # points and faces
Lines = list[str]
Way = Callable[[random.Random, Lines], None]
Change = Callable[[random.Random, Lines, int], None]  # of the line at a place


# ---- ways to break a certificate: each takes its lines, without line ends, and changes the list


def numbers_of(line: str) -> list[int]:
    """The places of the words of a line that are numbers."""
    return [k for k, word in enumerate(line.split(" ")) if word.lstrip("-").isdigit()]


def with_number(chance: random.Random, line: str, most: int) -> str:
    """The line with another number, below the bound mostly, in one of its places."""
    words, places = line.split(" "), numbers_of(line)
    if places:
        place = chance.choice(places)
        now = int(words[place])
        other = (now + 1, now - 1, -now, 0, chance.randint(0, most), chance.choice(STRANGE))
        words[place] = str(chance.choice(other))
    return " ".join(words)


def on_a(change: Change, *kinds: str) -> Way:
    """The way that changes a line of one of these kinds so."""

    def way(chance: random.Random, lines: Lines) -> None:
        places = made.lines_with(lines, *kinds)
        if places:
            change(chance, lines, chance.choice(places))

    way.__name__ = f"{'_or_'.join(kinds)}_{change.__name__}"
    return way


def changed(chance: random.Random, lines: Lines, place: int) -> None:
    """A number of the line is another one."""
    lines[place] = with_number(chance, lines[place], len(lines))


def left_out(_: random.Random, lines: Lines, place: int) -> None:
    del lines[place]


def doubled(_: random.Random, lines: Lines, place: int) -> None:
    lines.insert(place, lines[place])


def multiplied(chance: random.Random, lines: Lines, place: int) -> None:
    """The direction of the line is a multiple of what it was."""
    made.multiplied(chance, lines, place, 1)


def turned(_: random.Random, lines: Lines, place: int) -> None:
    """The two pieces of the line are exchanged."""
    word, *numbers = lines[place].split(" ")
    lines[place] = " ".join((word, *numbers[2:], *numbers[:2]))


def pairs_in_order(lines: Lines) -> None:
    """Puts each run of `pair` lines into order, and drops all but one of those that are alike."""
    place = 0
    while place < len(lines):
        end = place
        while end < len(lines) and lines[end].startswith("pair "):
            end += 1
        try:
            run = sorted({tuple(map(int, line.split(" ")[1:])) for line in lines[place:end]})
        except ValueError:
            run = []
        if run:
            lines[place:end] = [" ".join(map(str, ("pair", *numbers))) for numbers in run]
        place = end + 1


def pair_exchanged(chance: random.Random, lines: Lines) -> None:
    """A pair is another one, in its place."""
    on_a(changed, "pair")(chance, lines)
    pairs_in_order(lines)


def kind_changed(chance: random.Random, lines: Lines) -> None:
    if len(lines) > 2:
        lines[2] = chance.choice(("plan", "stuck", "rest"))


def word_changed(chance: random.Random, lines: Lines) -> None:
    place = chance.randrange(len(lines))
    words = lines[place].split(" ")
    at = chance.randrange(len(words))
    word = words[at]
    other = (
        chance.choice(WORDS),
        "",
        "x",
        "0" + word,
        "+" + word,
        "-" + word,
        word + " ",
        word[:-1],
    )
    words[at] = chance.choice(other)
    lines[place] = " ".join(words)


def line_put_in(chance: random.Random, lines: Lines) -> None:
    line = " ".join([chance.choice(WORDS)] + ["0"] * chance.randint(0, 5))
    lines.insert(chance.randrange(len(lines) + 1), chance.choice(("", line, line)))


WAYS: Sequence[Way] = (
    on_a(changed, "split"),
    on_a(changed, "split"),
    on_a(changed, "leaf"),
    on_a(changed, "part"),
    on_a(changed, "pair"),
    on_a(changed, "parts"),
    on_a(left_out, "pair"),
    on_a(left_out, "pair"),
    on_a(left_out, "part"),
    on_a(left_out, "leaf"),
    on_a(left_out, "split"),
    on_a(left_out, "hold", "group", "end", "STAAT", "plan"),
    on_a(doubled, "pair", "part"),
    on_a(doubled, "leaf", "split", "hold", "group", "end"),
    on_a(multiplied, "split"),
    on_a(turned, "pair"),
    pair_exchanged,
    pair_exchanged,
    kind_changed,
    word_changed,
    line_put_in,
    made.leaves_exchanged,
    made.lines_exchanged,
    made.line_too_long,
)


def byte_changed(chance: random.Random, text: bytes) -> bytes:
    place = chance.randrange(len(text))
    byte = chance.choice((b"", b"0", b"7", b" ", b"\n", b"-", b"\xff", bytes([text[place] ^ 1])))
    return text[:place] + byte + text[place + 1 :]


def broken(chance: random.Random, text: bytes) -> tuple[list[str], bytes]:
    """The text with one to three things changed, so that it is another text, and the names of these."""
    other = text
    names: list[str] = []
    while other == text:
        names, other = made.changed_by(chance, text, WAYS, (1, 1, 1, 2, 3))
        if other and chance.random() < 0.1:
            names.append("byte_changed")
            other = byte_changed(chance, other)
        if chance.random() < 0.05:
            names.append("text_cut_off")
            other = other[: chance.randrange(len(other) + 1)]
    return names, other


# ---- products


def locked(chance: random.Random) -> list[list[Solid]]:
    """Cubes in closed boxes side by side, with loose cubes beside them: some of it comes apart, and some does not."""
    parts = []
    for place in range(chance.randint(1, 3)):
        away = (20 * place, 0, 0)
        parts += [
            [moved(piece, away) for piece in part] for part in made.nested(chance.randint(1, 2))
        ]
    parts += [[moved(made.box((-1, -1, -1), (1, 1, 1)), (0, 20 + 2 * k, 0))] for k in range(3)]
    chance.shuffle(parts)
    return parts


def dish(up: int) -> Solid:
    """A piece of 64 corners over a square, round below and even on top. Another one has room from 25 above it on."""
    points: list[tuple[int, ...]] = [(x, y, x * x + y * y + up) for x in range(8) for y in range(8)]
    faces: list[Sequence[int]] = [
        (8 * x + y, 8 * x + y + 1, 8 * x + y + 9, 8 * x + y + 8) for x in range(7) for y in range(7)
    ]
    sides = [range(8), range(56, 64), range(0, 64, 8), range(7, 64, 8)]
    return points, [*faces, *sides, (0, 7, 63, 56)]


def moved(piece: Solid, away: tuple[int, int, int]) -> Solid:
    """The piece, moved by the vector."""
    points, faces = piece
    x, y, z = away
    return [(p[0] + x, p[1] + y, p[2] + z) for p in points], faces


def products(program: str, folder: str, seed: int, paths: Sequence[Path]) -> Iterator[made.Subject]:
    """The products of the part lists and those that are made here."""
    chance = random.Random(f"products {seed}")
    listed = (made.listed_subject(program, path) for path in paths)
    yield from (subject for subject in listed if subject)
    parts = list(made.made_products(chance))
    parts += [locked(chance) for _ in range(6)]
    parts += [made.sheared(chance, locked(chance)) for _ in range(3)]
    stack = [[dish(25 * k)] for k in range(4)]
    parts += [stack, made.sheared(chance, stack)]
    parts.append([[moved(dish(0), (-3, -3, -49))], made.shell(50, 52)])
    for number, some in enumerate(parts):
        yield made.written_subject(chance, folder, number, some)


def certificates_of(program: str, subject: made.Subject) -> list[bytes]:
    """The short certificates that the program makes of the product, each once."""
    texts: list[bytes] = []
    for options in ("--cert",), ("--cert", "--rest"):
        run = subprocess.run(
            [program, "decide", *options, *subject.words],
            cwd=subject.folder,
            capture_output=True,
            check=False,
            timeout=SECONDS,
        )
        if run.returncode in (0, 1) and run.stdout not in texts:
            texts.append(run.stdout)
    return texts


# ---- the comparison


@dataclass
class Comparison:
    """Both checkers asked the same, and what came of it."""

    program: str
    file: Path
    said: collections.Counter[str] = field(default_factory=collections.Counter)
    ways: collections.Counter[str] = field(default_factory=collections.Counter)
    faults: list[str] = field(default_factory=list)
    count: int = 0

    def ask(self, label: str, subject: made.Subject, text: bytes) -> int:
        """Asks both; keeps a difference with the label. The status of the program."""
        self.file.write_bytes(text)
        run = subprocess.run(
            [self.program, "confirm", str(self.file), *subject.words],
            cwd=subject.folder,
            capture_output=True,
            check=False,
            timeout=SECONDS,
        )
        status, line = check_short.verdict(subject.product, str(self.file), text)
        self.count += 1
        words = line.replace(str(self.file), "FILE").split(" ")
        self.said[" ".join(word for word in words if not word.lstrip("-").isdigit())] += 1
        told = line.encode() + b"\n"
        wanted = (status, told, b"") if status < 2 else (status, b"", told)
        if (run.returncode, run.stdout, run.stderr) != wanted:
            self.faults.append(
                f"{label}, {subject.name}: the program says {run.returncode} "
                f"{(run.stdout + run.stderr)!r}, check_short.py says {status} {line!r}"
            )
        return run.returncode

    def add(self, other: Comparison) -> None:
        """Adds what came of another one."""
        self.said += other.said
        self.ways += other.ways
        self.faults += other.faults
        self.count += other.count


Texts = list[tuple[made.Subject, bytes]]


def ask_broken(
    program: str, seed: int, cases: Sequence[int], texts: Sequence[Texts], shown: bool = False
) -> Comparison:
    """Asks both about the broken certificates of these cases."""
    with tempfile.TemporaryDirectory() as folder:
        comparison = Comparison(program, Path(folder, "certificate"))
        for case in cases:
            chance = random.Random(f"case {seed} {case}")
            subject, text = chance.choice(chance.choice(texts))
            if chance.random() < 0.03:
                (subject, _), names = chance.choice(chance.choice(texts)), ["another_product"]
            else:
                names, text = broken(chance, text)
            comparison.ways.update(names)
            comparison.ask(f"seed {seed}, case {case}, {' '.join(names)}", subject, text)
            if shown:
                sys.stdout.write(text.decode("latin-1"))
        return comparison


def whole(
    program: str, folder: str, seed: int, paths: Sequence[Path]
) -> tuple[Comparison, list[Texts]]:
    """Asks both about the certificates as the program makes them; those that can be broken, by their kinds."""
    comparison = Comparison(program, Path(folder, "certificate"))
    kinds: dict[bytes, Texts] = {}
    for subject in products(program, folder, seed, paths):
        texts = certificates_of(program, subject)
        if not texts:
            comparison.faults.append(f"no certificate of {subject.name}")
        for text in texts:
            if comparison.ask(f"seed {seed}, whole", subject, text) != 0:
                comparison.faults.append(f"the certificate of {subject.name} is not called valid")
            if text.count(b"\n") <= MOST_LINES:
                kinds.setdefault(text.split(b"\n")[2], []).append((subject, text))
    return comparison, list(kinds.values())


def main(words: Sequence[str]) -> int:
    """Compares what the words name."""
    parser = argparse.ArgumentParser(
        description="Compares staat confirm with tools/check_short.py."
    )
    parser.add_argument("--program", default=str(TOP / "staat"))
    parser.add_argument("--broken", type=int, default=20_000)
    parser.add_argument("--seed", type=int, default=1)
    parser.add_argument("--only", type=int)
    parser.add_argument("part_lists", nargs="*")
    given = parser.parse_args(words)
    paths = [Path(name).resolve() for name in given.part_lists]
    paths = paths or sorted([*TOP.glob("examples/*/parts.json"), *TOP.glob("gallery/*/parts.json")])
    program = str(Path(given.program).resolve())
    with tempfile.TemporaryDirectory() as folder:
        comparison, texts = whole(program, folder, given.seed, paths)
        print(f"{comparison.count} certificates as the program makes them")
        if given.only is not None:
            comparison.add(ask_broken(program, given.seed, [given.only], texts, shown=True))
        else:
            starts = range(0, given.broken, CASES_AT_ONCE)
            cases = [range(k, min(k + CASES_AT_ONCE, given.broken)) for k in starts]
            with concurrent.futures.ProcessPoolExecutor() as pool:
                ask = (pool.submit(ask_broken, program, given.seed, some, texts) for some in cases)
                for run in list(ask):
                    comparison.add(run.result())
        os.chdir(TOP)
    for fault in comparison.faults:
        print(fault)
    for title, counter in ("changes", comparison.ways), ("answers", comparison.said):
        print(title + ":", ", ".join(f"{name} {count}" for name, count in sorted(counter.items())))
    failed = len(comparison.faults)
    print(f"{max(comparison.count - failed, 0)} passed, {failed} failed")
    return 1 if failed else 0


if __name__ == "__main__":
    sys.exit(main(sys.argv[1:]))
