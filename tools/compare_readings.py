#!/usr/bin/python3
"""Holds what the program prints against the bytes that it read: tools/compare_readings.py PROGRAM

Each request is run over ordinary files, and again over named pipes that give the same bytes a few at a time: status,
out and err have to be the same, and each file has to be opened as often as it is named, in the order of work. Among
them are files at their limits and one byte past them, and files that change between two readings. The last line is
`N passed, M failed`, and the status is 1 if any failed.
"""

from __future__ import annotations

import argparse
import json
import subprocess
import sys
import tempfile
from collections.abc import Iterator, Mapping, Sequence
from dataclasses import dataclass
from pathlib import Path

from pipes import Pipes

TOP = Path(__file__).resolve().parent.parent
FILE_LIMIT = 1_048_576  # bytes of a file of points or a part list
TEXT_LIMIT = 134_217_728  # bytes of a certificate
SECONDS = 300  # how long a run may take
SMALL, LARGE = 7, 65_536  # bytes that a pipe gives at a time
LIST = "parts.json"
MANIFEST = f"--manifest={LIST}"
CUBE = (TOP / "tests/files/cube.off").read_bytes()
BESIDE = (TOP / "tests/files/beside.off").read_bytes()
CORNER = (TOP / "tests/files/corner.off").read_bytes()
PARTS = b'{"parts":[{"name":"p","pieces":["a.off","b.off"]}]}'
ON_LISTS = (
    ("look",),
    ("graph", "--along=0,0,1"),
    ("plan",),
    ("plan", "--cert"),
    ("explode", "--off"),
    ("linear",),
    ("local",),
    ("decide",),
    ("blocks", "--along=0,0,1"),
)

ON_CERTIFICATES = ("check", "confirm")
MOST_PARTS = 32  # of all commands but these
OF_ANY_SIZE = ("decide", "blocks")

Answer = tuple[int, bytes, bytes]  # the status, out and err
Texts = Mapping[str, Sequence[bytes]]  # what each file gives, at each of its openings


@dataclass(frozen=True)
class Case:
    """A request over files.

    opens: the files that are opened, in their order, where not all that are named are; same: words and files over which
    the answer is the same, where these are not the own ones
    """

    name: str
    words: tuple[str, ...]
    texts: Texts
    piece: int = SMALL
    opens: tuple[str, ...] | None = None
    same: tuple[tuple[str, ...], Texts] | None = None


def listed(text: bytes) -> list[str]:
    """The files of the pieces that a part list names, in its order."""
    return [name for part in json.loads(text)["parts"] for name in part["pieces"]]


def named(words: Sequence[str], texts: Texts) -> list[str]:
    """The files that a request names, in the order of work: those of the input, and then the certificate's."""
    files = [word for word in words[1:] if not word.startswith("--")]
    certificate = [files.pop(0)] if words[0] in ON_CERTIFICATES else []
    for word in words:
        if word.startswith("--manifest="):
            part_list = word.partition("=")[2]
            files = [part_list, *listed(texts[part_list][0])]
    return files + certificate


def answer(program: Path, words: Sequence[str], folder: Path) -> Answer:
    """What the program answers in the folder."""
    done = subprocess.run(
        [program, *words],
        cwd=folder,
        stdin=subprocess.DEVNULL,
        capture_output=True,
        check=False,
        timeout=SECONDS,
    )
    return done.returncode, done.stdout, done.stderr


def over_files(program: Path, words: Sequence[str], texts: Texts) -> Answer:
    """What it answers over ordinary files, each with what it gives first."""
    with tempfile.TemporaryDirectory() as name:
        folder = Path(name)
        for file, given in texts.items():
            path = folder / file
            path.parent.mkdir(parents=True, exist_ok=True)
            path.write_bytes(given[0])
        return answer(program, words, folder)


def over_pipes(program: Path, case: Case) -> tuple[Answer, list[str]]:
    """What it answers over pipes, and the files that it opened."""
    with tempfile.TemporaryDirectory() as name:
        with Pipes(Path(name), case.texts, case.piece) as pipes:
            got = answer(program, case.words, Path(name))
        return got, pipes.opened


def faults_of(program: Path, case: Case) -> list[str]:
    """What is wrong about the answers to a case."""
    words, texts = case.same or (case.words, case.texts)
    want = over_files(program, words, texts)
    got, opened = over_pipes(program, case)
    opens = named(case.words, case.texts) if case.opens is None else list(case.opens)
    faults = []
    if got != want:
        faults.append(f"answers {got!r:.300}, and over files {want!r:.300}")
    if opened != opens:
        faults.append(f"opens {opened}, and not {opens}")
    return faults


def words_for(name: str, text: bytes) -> Sequence[tuple[str, ...]]:
    """What is asked of a part list: of an example all, or what takes as many parts as it has."""
    if len(json.loads(text)["parts"]) > MOST_PARTS:
        return [words for words in ON_LISTS if words[0] in OF_ANY_SIZE]
    return ON_LISTS if name.startswith("examples") else ON_LISTS[:1]


def stored() -> Iterator[Case]:
    """Each example and each product of the gallery."""
    for path in sorted([*TOP.glob("examples/*/parts.json"), *TOP.glob("gallery/*/parts.json")]):
        name = path.relative_to(TOP).as_posix()
        files = [name, *listed(path.read_bytes())]
        texts = {file: [(TOP / file).read_bytes()] for file in files}
        for words in words_for(name, path.read_bytes()):
            yield Case(f"{' '.join(words)} {name}", (*words, f"--manifest={name}"), texts)
        certificate = path.with_name("plan.cert")
        if certificate.exists():
            file = certificate.relative_to(TOP).as_posix()
            words = ("check", file, f"--manifest={name}")
            yield Case(
                f"check {file}", words, {**texts, file: [certificate.read_bytes()]}, piece=LARGE
            )


def in_turn() -> Iterator[Case]:
    """Files by themselves, and where the work ends before all of them are opened."""
    three = {"a.off": [CUBE], "b.off": [BESIDE], "c.off": [CORNER]}
    files = tuple(three)
    yield Case("files by themselves", ("look", *files), three)
    yield Case("a file that is named twice", ("look", "a.off", "b.off", "a.off"), three)
    wall = ("pair", "--wall=1,0,0", "--along=-1,0,0")
    yield Case("two files", (*wall, "a.off", "b.off"), three)
    broken = {**three, "b.off": [b"OFF 1"]}
    yield Case("a file that is no piece", ("look", *files), broken, opens=files[:2])
    missing = {"a.off": [CUBE], "c.off": [CORNER]}
    yield Case("a file that is not there", ("look", *files), missing, opens=files[:1])
    yield Case("no part list", ("look", MANIFEST), {**three, LIST: [b'{"parts":[']}, opens=(LIST,))
    yield Case("words that make no request", ("look", "--depth=1", *files), three, opens=())


def padded(length: int) -> bytes:
    """A cube's file of so many bytes: a remark behind it."""
    return CUBE + b"#" * (length - len(CUBE))


def at_limits() -> Iterator[Case]:
    """Files of as many bytes as there may be, and of one more."""
    words = ("look", "a.off", "b.off")
    for length, opens in ((FILE_LIMIT, None), (FILE_LIMIT + 1, ("a.off",))):
        texts = {"a.off": [padded(length)], "b.off": [BESIDE]}
        yield Case(f"a file of {length} bytes", words, texts, piece=LARGE, opens=opens)
        yield Case(
            f"a part list of {length} bytes",
            ("look", MANIFEST),
            {LIST: [PARTS.rjust(length)], "a.off": [CUBE], "b.off": [BESIDE]},
            piece=LARGE,
            opens=opens and (LIST,),
        )
    for length in (TEXT_LIMIT, TEXT_LIMIT + 1):
        texts = {"a.off": [CUBE], "b.off": [BESIDE], "c.cert": [b"x" * length]}
        yield Case(
            f"a certificate of {length} bytes",
            ("check", "c.cert", "a.off", "b.off"),
            texts,
            piece=LARGE,
        )


def changing() -> Iterator[Case]:
    """Files that change between two readings: each reading is used in its turn."""

    def parts(first: str, second: str) -> bytes:
        rows = [{"name": "p", "pieces": [first]}, {"name": "q", "pieces": [second]}]
        return json.dumps({"parts": rows}).encode()

    texts = {"a.off": [CUBE, BESIDE], LIST: [parts("a.off", "a.off")]}
    apart = {"a.off": [CUBE], "b.off": [BESIDE], LIST: [parts("a.off", "b.off")]}
    for words in ON_LISTS:
        yield Case(
            f"{words[0]} of a file that changes",
            (*words, MANIFEST),
            texts,
            same=((*words, MANIFEST), apart),
        )


def main() -> int:
    """Tries every case, and tells what is wrong."""
    parser = argparse.ArgumentParser(description="Holds answers against the bytes that were read.")
    parser.add_argument("program", type=Path, help="crates/staat_cli/out/staat_cli")
    program = parser.parse_args().program.resolve()
    passed = failed = 0
    for case in (*stored(), *in_turn(), *at_limits(), *changing()):
        faults = faults_of(program, case)
        for fault in faults:
            print(f"{case.name}: {fault}")
        passed, failed = passed + (not faults), failed + bool(faults)
    print(f"{passed} passed, {failed} failed")
    return 1 if failed else 0


if __name__ == "__main__":
    sys.exit(main())
