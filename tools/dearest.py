#!/usr/bin/env python3
"""Lists what takes longest in the proof of a crate: tools/dearest.py CRATE [--most=N]

The crates below it are proved first, where they are not (tools/build.py). Then CRATE is proved from nothing by one
job. The prover works module after module, and writes a file for each as soon as it is proved, so the time from one
file to the next is what a module took. Each of the N dearest (30, if no number is given) has a line with its seconds
and what it is:

    searched m::f   the goals of the function m::f that the prover had to search for
    answers m::f    the goals that have an answer in proofs/m/f/Answers.antt, and those answers
    borrows m::f    what the borrow checker owes for it, which grows with its code alone
    lemmas M        the lemmas of proofs/M.antt
    other M         another module that the prover makes

What is searched for is the dear part that can be written: an answer of some lines takes a tenth of a second where the
search takes five. Times are those of a clock, so nothing else should be at work. Status 0 if the crate is proved, 1 if
it was refused, 2 if something else was in the way.
"""

from __future__ import annotations

import argparse
import os
import re
import subprocess
import sys
import tempfile
from collections import defaultdict
from pathlib import Path

import build

KINDS = {"Proof": "searched", "Answers": "answers", "Lts": "borrows"}
MOST = 30  # how many modules are listed, if no number is given


def seconds_of(kept: Path) -> dict[str, float]:
    """The seconds of each module, by the times of the files that the prover left in `kept`."""
    files = sorted(
        (os.stat(os.path.join(at, name)).st_mtime_ns, name)
        for at, _, names in os.walk(kept)
        for name in names
    )
    found: defaultdict[str, float] = defaultdict(float)
    for (before, _), (after, name) in zip(files, files[1:]):
        found[re.sub(r"(\.decls)?\.oantt$", "", name)] += (after - before) / 1e9
    return found


def dearest_first(seconds: dict[str, float]) -> list[tuple[str, float]]:
    """Names with their seconds, those with the most first."""
    return sorted(seconds.items(), key=lambda it: -it[1])


def told(module: str, crate: str) -> str:
    """What a module is, in a word, and the name of its function or file."""
    inside = module.removeprefix(f"Rattle-{crate}-proofs.")
    if inside == module:
        return f"other {module.removeprefix(f'Rattle-{crate}').lstrip('-') or crate}"
    above, _, last = inside.rpartition(".")
    if last in KINDS and above:
        return f"{KINDS[last]} {above.replace('.', '::')}"
    return f"lemmas {inside}" if not above else f"other {inside}"


def listing(seconds: dict[str, float], crate: str, most: int) -> list[str]:
    """A line with the seconds of each kind, and one for each of the dearest modules."""
    kinds: defaultdict[str, float] = defaultdict(float)
    for module, taken in seconds.items():
        kinds[told(module, crate).partition(" ")[0]] += taken
    parts = ", ".join(f"{kind} {taken:.0f}" for kind, taken in dearest_first(kinds))
    lines = [f"{crate}: {sum(kinds.values()):.0f} seconds: {parts}"]
    return lines + [
        f"{taken:7.2f}  {told(module, crate)}" for module, taken in dearest_first(seconds)[:most]
    ]


def main() -> int:
    parser = argparse.ArgumentParser(
        description="Lists what takes longest in the proof of a crate."
    )
    parser.add_argument("crate", metavar="CRATE")
    parser.add_argument("--most", metavar="N", type=int, default=MOST)
    words = parser.parse_args()
    if not (build.TOP / "crates" / words.crate / "src").is_dir():
        parser.error(f"there is no crates/{words.crate}")
    crates = build.crates_of(build.TOP, words.crate)
    crate = next(it for it in crates if it.name == words.crate)
    locks = build.lock(crates, sys.stderr)
    try:
        below = [it for it in crates if it is not crate]
        crate.log.parent.mkdir(parents=True, exist_ok=True)
        if below and not build.Builder(below, build.slots(), sys.stderr).run(locks):
            return 1
        with tempfile.TemporaryDirectory() as room:
            with crate.log.open("wb") as log:
                words_of_check = build.Kit().check(crate, Path(room))
                done = subprocess.run(words_of_check, cwd=crate.folder, stdout=log, stderr=log)
            if done.returncode:
                print(f"dearest: {crate.name} was refused: {crate.log}", file=sys.stderr)
                return 1
            print("\n".join(listing(seconds_of(Path(room)), crate.name, words.most)))
        return 0
    except OSError as error:
        print(f"dearest: {error.strerror}: {error.filename}", file=sys.stderr)
        return 2
    finally:
        for held in locks:
            os.close(held)


if __name__ == "__main__":
    sys.exit(main())
