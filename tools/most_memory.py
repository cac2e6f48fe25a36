#!/usr/bin/python3
"""Measures the most memory that the built planner takes for the drawing of large files.

    tools/most_memory.py PROGRAM

Each product has as many pieces as a product may have, each in a file that is nearly as long as a
file may be: of one, the files list vertices that no face uses; of the other, each has a face of
very many corners. A line for each tells the greatest resident memory of `explode --off`. The last
line is `N passed, M failed`, and the status is 1 if a run did not end with the drawing, or took
more than 350 MB.
"""

from __future__ import annotations

import json
import os
import subprocess
import sys
import tempfile
from collections.abc import Callable
from pathlib import Path

MOST = 350_000_000  # bytes
FILE = 1_048_576  # bytes of a file at most
PIECES = 64
FACES = ("0 1 3 2", "4 5 7 6", "0 1 5 4", "2 3 7 6", "0 2 6 4")


def off(corner: int, vertices: int, end: str) -> str:
    """A cube of side 1, so many vertices that no face uses, and `end` as its last face."""
    cube = [f"{corner + x} {y} {z}" for x in (0, 1) for y in (0, 1) for z in (0, 1)]
    lines = [*cube, *["0 0 0"] * vertices, *(f"4 {face}" for face in FACES), end]
    return f"OFF\n{8 + vertices} 6 0\n" + "\n".join(lines) + "\n"


def with_vertices(corner: int) -> str:
    """A cube and vertices that no face uses."""
    return off(corner, (FILE - 200) // len("0 0 0\n"), "4 1 3 7 5")


def with_corners(corner: int) -> str:
    """A cube of which one face comes back to one corner again and again."""
    more = (FILE - 200) // len(" 7")
    return off(corner, 0, f"{4 + more} 1 3 7" + " 7" * more + " 5")


def memory_of(program: str, folder: Path, text: Callable[[int], str]) -> tuple[int, int]:
    """The status of the drawing of such pieces, two to a part, and its greatest memory in bytes."""
    parts = [
        {"name": str(part), "pieces": [str(folder / f"{2 * part + k}.off") for k in (0, 1)]}
        for part in range(PIECES // 2)
    ]
    for piece in range(PIECES):
        (folder / f"{piece}.off").write_text(text(2 * (piece // 2)), encoding="ascii")
    names = folder / "parts.json"
    names.write_text(json.dumps({"parts": parts}), encoding="ascii")
    words = [program, "explode", "--off", f"--manifest={names}"]
    with subprocess.Popen(words, stdout=subprocess.DEVNULL) as run:
        _, status, used = os.wait4(run.pid, 0)
        run.returncode = os.waitstatus_to_exitcode(status)
    return run.returncode, used.ru_maxrss * 1024


def main(words: list[str]) -> int:
    if len(words) != 1:
        print(__doc__, file=sys.stderr)
        return 2
    passed = 0
    cases = {"vertices": with_vertices, "corners": with_corners}
    for name, text in cases.items():
        with tempfile.TemporaryDirectory() as folder:
            status, most = memory_of(str(Path(words[0]).resolve()), Path(folder), text)
        print(f"{name}: status {status}, {most / 1e6:.0f} MB at most")
        passed += status == 0 and most <= MOST
    print(f"{passed} passed, {len(cases) - passed} failed")
    return int(passed < len(cases))


if __name__ == "__main__":
    sys.exit(main(sys.argv[1:]))
