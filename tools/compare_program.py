#!/usr/bin/env python3
"""Compares bin/staat with a program that was proved and built from the sources here: tools/compare_program.py PROGRAM

PROGRAM is crates/staat_cli/out/staat_cli after `rt ci`. bin/BUILT_FROM has to name these sources and the bytes of
bin/staat. Where the kit is the one that it names, both programs have to be the same, byte for byte. Under another kit
this says so, and both have to print what the transcripts of tests/ and the gallery show. Status 0 if all of it holds,
and else 1.
"""

from __future__ import annotations

import hashlib
import os
import subprocess
import sys
from pathlib import Path

TOP = Path(__file__).resolve().parent.parent
EXAMPLES = (
    ("tests/runner/transcripts.py",),
    ("gallery/run",),
)  # each takes a program as its last word


def said_of(file: Path) -> dict[str, str]:
    """What BUILT_FROM says, by the first word of its lines."""
    rows = (line.partition(" ") for line in file.read_text(encoding="utf-8").splitlines())
    return {word: value for word, _, value in rows}


def output(*words: str) -> str:
    """What a command at the top of the repository prints, or nothing where it cannot."""
    setting = {name: value for name, value in os.environ.items() if not name.startswith("GIT_")}
    try:
        done = subprocess.run(
            words,
            cwd=TOP,
            env=setting,
            stdin=subprocess.DEVNULL,
            capture_output=True,
            encoding="utf-8",
            check=False,
        )
    except FileNotFoundError:
        return ""
    return done.stdout.strip() if done.returncode == 0 else ""


def git_names() -> tuple[str, str] | None:
    """The names that git has for crates/ and crates.txt, or none where no commit holds them as they stand."""
    names = output("git", "rev-parse", "HEAD:./crates", "HEAD:./crates.txt").split()
    changed = output(
        "git", "status", "--porcelain", "--untracked-files=normal", "--", "crates", "crates.txt"
    )
    return (names[0], names[1]) if len(names) == 2 and not changed else None


def first_difference(one: bytes, other: bytes) -> int | None:
    """The first place at which the bytes differ."""
    if one == other:
        return None
    pairs = zip(one, other)
    return next((at for at, (a, b) in enumerate(pairs) if a != b), min(len(one), len(other)))


def faults_of_names(said: dict[str, str], given: bytes) -> list[str]:
    """In what bin/BUILT_FROM does not name these sources and the bytes of bin/staat."""
    faults = []
    if said.get("program") != hashlib.sha256(given).hexdigest():
        faults.append("bin/staat is not the program that bin/BUILT_FROM names")
    if said.get("sources") != output("tools/sources"):
        faults.append(
            "bin/BUILT_FROM names other sources than those that stand here: run tools/release"
        )
    names = git_names()
    if names and names != (said.get("crates"), said.get("crates.txt")):
        faults.append("bin/BUILT_FROM has other names for the sources than git: run tools/release")
    return faults


def faults_of_examples(program: Path) -> list[str]:
    """Which examples the program does not print as they are shown."""
    faults = []
    for words in EXAMPLES:
        command = [sys.executable, "-B", *words, str(program)]
        done = subprocess.run(command, cwd=TOP, stdin=subprocess.DEVNULL, check=False)
        if done.returncode:
            faults.append(f"{program} does not print what {words[0]} compares")
    return faults


def main(words: list[str]) -> int:
    if len(words) != 1:
        print(__doc__, file=sys.stderr)
        return 2
    built, stored = Path(words[0]).resolve(), TOP / "bin" / "staat"
    try:
        said, given, made = (
            said_of(TOP / "bin" / "BUILT_FROM"),
            stored.read_bytes(),
            built.read_bytes(),
        )
    except OSError as error:
        print(f"{error.filename}: {error.strerror}")
        return 1
    faults = faults_of_names(said, given)
    kit = output("rt", "version")
    if not kit:
        faults.append("rt is missing, so nothing says of which kit the program that was built is")
    elif kit != said.get("kit"):
        print(
            f"bin/staat is of {said.get('kit')}, and here is {kit}: what both print is compared, not their bytes"
        )
        faults += [fault for program in (stored, built) for fault in faults_of_examples(program)]
    else:
        place = first_difference(given, made)
        if place is not None:
            faults.append(
                f"bin/staat is not the program that was built here: byte {place + 1} is the first that differs"
            )
    for fault in faults:
        print(fault)
    print(f"{'differs' if faults else 'agrees'}: bin/staat and {built}")
    return 1 if faults else 0


if __name__ == "__main__":
    sys.exit(main(sys.argv[1:]))
