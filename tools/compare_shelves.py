#!/usr/bin/python3
"""Holds the program over the disk against the one over files in memory: tools/compare_shelves.py PROGRAM [IN_MEMORY]

PROGRAM is crates/staat_cli/out/staat_cli. IN_MEMORY is crates/staat_in_memory/out/staat_in_memory, where no other is
named: it does the same over files that it has read into memory before. Each request is run by the first, while a
library writes down which files it opens and what each read gives (watched.py), and by the second over files that hold
exactly these bytes. Status, out and err have to be the same; the files have to be opened in the order of work, and to
have been read to their ends where no refusal came before; and what was read has to be what stood there.

The requests are those of `shelf_cases.py`, over files that stay as they are and some that change between two reads.
Then the transcripts of tests/ are run with the program in memory. The last line is `N passed, M failed`, and the status
is 1 if any failed.
"""

from __future__ import annotations

import argparse
import re
import subprocess
import sys
import tempfile
from collections.abc import Mapping, Sequence
from pathlib import Path

import watched
from compare_readings import named
from in_memory import call
from shelf_cases import Case, all_cases

TOP = Path(__file__).resolve().parent.parent
IN_MEMORY = TOP / "crates/staat_in_memory/out/staat_in_memory"
ANSWERS = (0, 1)  # the statuses of requests whose files were all read

_COUNTS = re.compile(r"([0-9]+) passed, ([0-9]+) failed")


def write(folder: Path, files: Mapping[str, bytes]) -> None:
    """Writes the files into the folder, which is made."""
    folder.mkdir()
    for name, content in files.items():
        path = folder / name
        path.parent.mkdir(parents=True, exist_ok=True)
        path.write_bytes(content)


def in_order(words: Sequence[str], gave: Mapping[str, bytes]) -> list[str]:
    """The files that a request names, in the order of work, where its part list holds what was read of it."""
    try:
        return named(words, {name: [content] for name, content in gave.items()})
    except (KeyError, TypeError, ValueError):  # no part list was read
        return [word.partition("=")[2] for word in words if word.startswith("--manifest=")]


def content_at(case: Case, opening: watched.Opening) -> bytes:
    """What stood in a file while it was read: behind the read that is followed by the change, the other bytes."""
    content, change = case.files.get(opening.name, opening.gave), case.change
    if not change or change.name != opening.name or len(opening.reads) <= change.reads:
        return content
    place = len(b"".join(opening.reads[: change.reads]))
    return content[:place] + change.bytes[place:]


def faults_of_reading(case: Case, run: watched.Run) -> list[str]:
    """What is wrong about the files that were opened, and about what was read of them."""
    faults = []
    gave = {opening.name: opening.gave for opening in reversed(run.openings)}
    names, wanted = [opening.name for opening in run.openings], in_order(case.words, gave)
    is_whole = run.status in ANSWERS
    if names != (wanted if is_whole else wanted[: len(names)]):
        faults.append(f"opens {names}, and not {wanted}")
    if run.refused and [*names, *run.refused] != wanted[: len(names) + 1]:
        faults.append(f"opens {run.refused} behind {names}, and not what comes next in {wanted}")
    for opening in run.openings:
        content = content_at(case, opening)
        if opening.gave != content[: len(opening.gave)]:
            faults.append(f"reads of {opening.name} what does not stand there")
        if is_whole and (opening.gave != content or opening.reads[-1:] != [b""]):
            faults.append(f"reads {opening.name} not to its end")
        if opening.gave != gave[opening.name]:
            faults.append(f"{opening.name} gives other bytes when it is opened again")
    if case.change and all(
        opening.gave == case.files.get(opening.name) for opening in run.openings
    ):
        faults.append("the change is not seen")
    return faults


def faults_of(program: Path, in_memory: Path, library: Path, case: Case) -> list[str]:
    """What is wrong about the answers of both programs to a case."""
    with tempfile.TemporaryDirectory() as name:
        disk, memory, room = (Path(name, part) for part in ("disk", "memory", "room"))
        room.mkdir()
        write(disk, case.files)
        run = watched.run(library, [program, *case.words], disk, room, case.change)
        read = {opening.name: opening.gave for opening in reversed(run.openings)}
        write(memory, {name: gave for name, gave in read.items() if name in case.files})
        done = subprocess.run(
            call(in_memory, case.words, memory),
            cwd=memory,
            stdin=subprocess.DEVNULL,
            capture_output=True,
            check=False,
            timeout=watched.SECONDS,
        )
    got, want = (run.status, run.out, run.err), (done.returncode, done.stdout, done.stderr)
    differs = [] if got == want else [f"answers {got!r:.300}, and in memory {want!r:.300}"]
    return differs + faults_of_reading(case, run)


def run_transcripts(in_memory: Path) -> tuple[int, int]:
    """Runs the transcripts of tests/ with the program in memory, and answers how many cases passed and failed."""
    with tempfile.TemporaryDirectory() as name:
        command = Path(name) / "staat"
        command.write_text(
            f'#!/bin/sh\nexec {sys.executable} -B -S {TOP}/tools/in_memory.py {in_memory} "$@"\n',
            encoding="utf-8",
        )
        command.chmod(0o700)
        done = subprocess.run(
            [sys.executable, "-B", TOP / "tests/runner/transcripts.py", command],
            stdin=subprocess.DEVNULL,
            stdout=subprocess.PIPE,
            text=True,
            check=False,
        )
    told, _, last = done.stdout.rstrip("\n").rpartition("\n")
    found = _COUNTS.fullmatch(last)
    if told or not found:
        print(told or last)
    return (int(found.group(1)), int(found.group(2))) if found else (0, 1)


def main() -> int:
    """Tries every case, and tells what is wrong."""
    parser = argparse.ArgumentParser(description="Holds the disk against files in memory.")
    parser.add_argument("program", type=Path, help="crates/staat_cli/out/staat_cli")
    parser.add_argument("in_memory", type=Path, nargs="?", default=IN_MEMORY)
    given = parser.parse_args()
    program, in_memory = given.program.resolve(), given.in_memory.resolve()
    if not in_memory.exists():
        print(
            f"compare_shelves: no {in_memory}: `rt run` in crates/staat_in_memory proves and builds it"
        )
        print("0 passed, 1 failed")
        return 1
    passed = failed = 0
    with tempfile.TemporaryDirectory() as name:
        library = watched.build(Path(name))
        for case in all_cases(program):
            faults = faults_of(program, in_memory, library, case)
            for fault in faults:
                print(f"{case.name}: {fault}")
            passed, failed = passed + (not faults), failed + bool(faults)
    print(f"over files: {passed} passed, {failed} failed")
    of_transcripts = run_transcripts(in_memory)
    print(f"transcripts: {of_transcripts[0]} passed, {of_transcripts[1]} failed")
    passed, failed = passed + of_transcripts[0], failed + of_transcripts[1]
    print(f"{passed} passed, {failed} failed")
    return 1 if failed else 0


if __name__ == "__main__":
    sys.exit(main())
