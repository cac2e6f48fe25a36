#!/usr/bin/env python3
"""Times the command `look` of the built program. README.md beside this file says what is measured."""

from __future__ import annotations

import argparse
import os
import platform
import subprocess
import sys
import tempfile
import time
from typing import IO

from solids import far_pieces, flat_pieces, write


def started(
    program: str, folder: str, listing: str, out: IO[bytes] | int
) -> subprocess.Popen[bytes]:
    """A run that was begun."""
    words = [program, "look", f"--manifest={listing}"]
    return subprocess.Popen(words, cwd=folder, stdout=out, stderr=subprocess.STDOUT)


def look(program: str, folder: str, listing: str) -> float:
    """Seconds of one run."""
    with tempfile.TemporaryFile() as out:
        began = time.perf_counter()
        status = started(program, folder, listing, out).wait()
        seconds = time.perf_counter() - began
        out.seek(0)
        text = out.read().decode("utf-8", "replace")
    if status != 0 or not text.endswith("sound\n"):
        sys.exit(f"measure: {listing}: status {status}: {text.strip()[-200:]}")
    return seconds


def greatest_memory(program: str, folder: str, listing: str) -> float:
    """The greatest resident memory of one run in MiB, as the system tells it while the program runs.

    What the system tells afterwards is no less than the memory of this script, from which the program is started.
    """
    greatest = 0
    child = started(program, folder, listing, subprocess.DEVNULL)
    while child.poll() is None:
        with open(f"/proc/{child.pid}/status", encoding="ascii", errors="replace") as file:
            for line in file:
                if line.startswith("VmHWM:"):
                    greatest = max(greatest, int(line.split()[1]))
    return greatest / 1024


def best(program: str, folder: str, listing: str, repeat: int) -> float:
    """The least seconds of so many runs."""
    return min(look(program, folder, listing) for _ in range(repeat))


def in_twos(k: int) -> int:
    """The part of a piece where each two make one."""
    return k // 2


def in_halves(k: int) -> int:
    """The part of a piece where every second belongs to the same."""
    return k % 2


# what it is, how many points each piece has, where the pieces stand, and the part of each
RUNS = [
    ("8 and 8 points, boxes overlap", [8] * 64, flat_pieces, in_twos),
    ("64 and 8 points, boxes overlap", [64, 8] * 32, flat_pieces, in_halves),
    ("64 and 64 points, boxes overlap", [64] * 64, flat_pieces, in_twos),
    ("56 and 56 points, boxes overlap", [56] * 64, flat_pieces, in_twos),
    ("8 and 8 points, far apart", [8] * 64, far_pieces, in_twos),
    ("64 and 8 points, far apart", [64, 8] * 32, far_pieces, in_halves),
    ("64 and 64 points, far apart", [64] * 64, far_pieces, in_twos),
]


def measure(program: str, repeat: int) -> None:
    """Prints the table."""
    print(f"{platform.machine()}, {os.cpu_count()} processors, best of {repeat}")
    print()
    print("| Pieces | Pairs | `look`, s | reading, s | a pair, ms | memory, MiB |")
    print("|---|---|---|---|---|---|")
    for what, counts, place, part_of in RUNS:
        with tempfile.TemporaryDirectory() as folder:
            pairs = write(folder, place(counts), part_of)
            reading = best(program, folder, "one.json", repeat)
            whole = best(program, folder, "parts.json", repeat)
            memory = greatest_memory(program, folder, "parts.json")
        each = (whole - reading) / pairs * 1000
        print(
            f"| {what} | {pairs} | {whole:.3f} | {reading:.3f} | {each:.4f} | {memory:.1f} |",
            flush=True,
        )


def main() -> None:
    """Measures, or makes the pieces alone."""
    words = argparse.ArgumentParser(description=__doc__)
    words.add_argument(
        "program",
        nargs="?",
        help="the built program; without it the pieces are only made and checked",
    )
    words.add_argument(
        "--repeat", type=int, default=5, help="how often each run is made; the best counts (5)"
    )
    given = words.parse_args()
    if given.program is None:
        for what, counts, place, _ in RUNS:
            print(f"{what}: {len(place(counts))} pieces")
    else:
        measure(os.path.abspath(given.program), max(1, given.repeat))


if __name__ == "__main__":
    main()
