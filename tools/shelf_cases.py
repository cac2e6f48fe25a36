"""The requests of compare_shelves.py, each with its files, and with what changes in one of them while it is read."""

from __future__ import annotations

import json
import subprocess
from collections.abc import Iterator, Mapping
from dataclasses import dataclass
from pathlib import Path

import compare_readings as readings
from watched import Change

TOP = readings.TOP
LIST, MANIFEST = readings.LIST, readings.MANIFEST
CUBE, BESIDE, CORNER = readings.CUBE, readings.BESIDE, readings.CORNER
CERTIFICATE = "c.cert"
SECONDS = 300  # how long a certificate may take
SHORT_READ, LONG_READ = (
    4_096,
    65_536,
)  # how many bytes are asked for: of a certificate, and of others
ON_PRODUCTS = (("look",), ("plan",), ("decide",), ("linear",), ("local",), ("explode",))
MAKES = {"check": ("plan", "--cert"), "confirm": ("decide", "--cert")}
ROW = 1_000  # so many parts have a short certificate that is longer than one read
CHANGED = (
    ("look", "a.off", "b.off"),
    ("graph", "--along=1,0,0", "a.off", "b.off"),
    ("plan", "--cert", "a.off", "b.off"),
    ("explode", "--off", "a.off", "b.off"),
    ("decide", "a.off", "b.off"),
)


@dataclass(frozen=True)
class Case:
    """A request over files, of which one may change while it is read."""

    name: str
    words: tuple[str, ...]
    files: Mapping[str, bytes]
    change: Change | None = None


def _answer(program: Path, words: tuple[str, ...], folder: Path) -> bytes:
    """What the program prints on out."""
    done = subprocess.run(
        [program, *words], cwd=folder, capture_output=True, check=False, timeout=SECONDS
    )
    return done.stdout


def products(program: Path) -> Iterator[Case]:
    """Each example and each product of the gallery; certificates are those that the program makes."""
    for path in sorted([*TOP.glob("examples/*/parts.json"), *TOP.glob("gallery/*/parts.json")]):
        name = path.relative_to(TOP).as_posix()
        names = [name, *readings.listed(path.read_bytes())]
        files = {name: (TOP / name).read_bytes() for name in names}
        manifest = f"--manifest={name}"
        for words in ON_PRODUCTS:
            yield Case(f"{words[0]} {name}", (*words, manifest), files)
        for judge, maker in MAKES.items():
            made = _answer(program, (*maker, manifest), TOP)
            yield Case(f"{' '.join(maker)} {name}", (*maker, manifest), files)
            yield Case(
                f"{judge} {name}",
                (judge, CERTIFICATE, manifest),
                {**files, CERTIFICATE: made},
            )


def settled() -> Iterator[Case]:
    """Requests that end before all files are opened, and files at the limit of their length, besides certificates."""
    for case in (*readings.in_turn(), *readings.at_limits()):
        files = {name: given[0] for name, given in case.texts.items()}
        if all(len(content) <= readings.FILE_LIMIT + 1 for content in files.values()):
            yield Case(case.name, case.words, files)


def long(text: bytes, length: int) -> bytes:
    """The OFF file with a remark of so many bytes behind its first word."""
    first, _, rest = text.partition(b"\n")
    return first + b"\n#" + b"-" * (length - 2) + b"\n" + rest


def others(
    old: bytes, tail: bytes, end: bytes, limit: int, piece: int
) -> Iterator[tuple[str, int, bytes]]:
    """What a file can hold after a read: how that is called, the number of the read, and the bytes.

    tail: as long as the file and the same as far as the last read but one; end: bytes to follow on it
    """
    reads = -(-len(old) // piece)
    for read in range(1, reads + 1):
        if read < reads:
            yield f"another tail after read {read}", read, tail
            yield f"cut off after read {read}", read, old[: read * piece + 7]
            yield f"cut off behind what was read, after read {read}", read, old[:10]
        yield f"longer after read {read}", read, old + end
        if limit:
            yield f"too long after read {read}", read, old + b"\n" * (limit + 1 - len(old))


def changing_pieces() -> Iterator[Case]:
    """OFF files that change while they are read."""
    length = 2 * SHORT_READ + 100
    old = long(CUBE, length)
    files = {"a.off": old, "b.off": BESIDE}
    limit = readings.FILE_LIMIT
    for told, read, new in others(old, long(CORNER, length), b"\n7\n", limit, SHORT_READ):
        for words in CHANGED:
            yield Case(f"{words[0]} of a piece, {told}", words, files, Change("a.off", read, new))


def changing_lists() -> Iterator[Case]:
    """Part lists that change while they are read."""

    def parts(second: str) -> bytes:
        names = [{"name": "p", "pieces": ["a.off"]}, {"name": "q", "pieces": [second]}]
        text = json.dumps({"parts": names})
        return (text[:10] + " " * (2 * SHORT_READ + 100) + text[10:]).encode()

    old = parts("b.off")
    files = {LIST: old, "a.off": CUBE, "b.off": BESIDE, "c.off": CORNER}
    limit = readings.FILE_LIMIT
    for told, read, new in others(old, parts("c.off"), b"\n{}\n", limit, SHORT_READ):
        for command in readings.ON_LISTS:
            yield Case(
                f"{' '.join(command)} of a part list, {told}",
                (*command, MANIFEST),
                files,
                Change(LIST, read, new),
            )


def _row() -> tuple[dict[str, bytes], bytes]:
    """A row of cubes, and a short certificate of it that is longer than one read."""
    rows = [{"name": f"p{i}", "pieces": ["a.off"], "at": [2 * i, 0, 0]} for i in range(ROW)]
    files = {LIST: json.dumps({"parts": rows}).encode(), "a.off": CUBE}
    steps = [f"split 0 99999 100000\nleaf {part}\n" for part in reversed(range(1, ROW))]
    text = f"STAAT SHORT 1\nparts {ROW}\nplan\n{''.join(steps)}leaf 0\nend\n"
    return files, text.encode()


def changing_certificates() -> Iterator[Case]:
    """Certificates of several reads that change while they are read."""
    folder = TOP / "gallery/linked-rings"
    part_list = folder / "parts.json"
    names = readings.listed(part_list.read_bytes())
    rings = {name: (TOP / name).read_bytes() for name in names} | {LIST: part_list.read_bytes()}
    for judge, (files, old) in {
        "check": (rings, (folder / "plan.cert").read_bytes()),
        "confirm": _row(),
    }.items():
        words = (judge, CERTIFICATE, MANIFEST)
        files = {**files, CERTIFICATE: old}
        yield Case(f"{judge} of a long certificate", words, files)
        tail = old[: len(old) - 20] + old[len(old) - 20 :].replace(b"end", b"eno")
        for told, read, new in others(old, tail, b"end\n", 0, LONG_READ):
            yield Case(
                f"{judge} of a certificate, {told}", words, files, Change(CERTIFICATE, read, new)
            )


def all_cases(program: Path) -> Iterator[Case]:
    """All cases; certificates of products are made by the program."""
    yield from products(program)
    yield from settled()
    yield from changing_pieces()
    yield from changing_lists()
    yield from changing_certificates()
