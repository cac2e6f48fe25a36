"""Runs the transcripts of tests/: transcripts.py PROGRAM [FILE..]

tests/README.md says how a transcript is written. Blocks stand between blank lines, and each command in a block is a
case: its out, its err and its status have to be those that are written. A case runs in a folder that holds the files of
tests/files and those that its block makes.
"""

from __future__ import annotations

import os
import pathlib
import re
import shutil
import sys
import tempfile
from collections.abc import Iterable, Iterator
from concurrent.futures import ThreadPoolExecutor
from dataclasses import dataclass, field

import scratch
import shown

FILES = scratch.TOP / "tests" / "files"
INDENT = "    "

_TERM = re.compile(
    r"\s*('(?:[^'\\]|\\.)*'|[^\s'*+\[\]]+)(?:\[:([0-9]+)\])?(?:\s*\*\s*([0-9]+))?\s*(\+|$)"
)
_RANGE = re.compile(r"([0-9]+)\.\.([0-9]+)")
_ESCAPES = {"n": "\n", "t": "\t", "\\": "\\", "'": "'"}


class Mistake(Exception):
    """A transcript that breaks the rules of tests/README.md."""


@dataclass
class Made:
    """A file that a block makes: by its lines, or by an expression."""

    name: str
    lines: list[str] = field(default_factory=list)
    expression: str | None = None


@dataclass
class Case:
    """A command, the number of its line, and what it has to print."""

    line: int
    command: str
    out: list[str] = field(default_factory=list)
    err: list[str] = field(default_factory=list)
    out_expression: str | None = None


@dataclass
class Block:
    """Files and the cases that read them, once for each value of a name."""

    files: list[Made] = field(default_factory=list)
    cases: list[Case] = field(default_factory=list)
    name: str | None = None
    values: list[str] = field(default_factory=lambda: [""])

    def put(self, text: str, value: str) -> str:
        """The text with this value in the place of `{NAME}`."""
        return text.replace("{" + self.name + "}", value) if self.name else text


def content(expression: str, folder: pathlib.Path) -> bytes:
    """The bytes of an expression: texts and files, whole or their first bytes, repeated, and joined by `+`."""
    made, at = b"", 0
    while True:
        term = _TERM.match(expression, at)
        if not term:
            raise Mistake(f"no expression: {expression}")
        word, first, times, joined = term.groups()
        if word.startswith("'"):
            part = re.sub(
                r"\\(.)", lambda it: _ESCAPES.get(it.group(1), it.group()), word[1:-1]
            ).encode()
        else:
            part = (folder / word).read_bytes()
        made += part[: int(first) if first else None] * int(times or 1)
        at = term.end()
        if not joined:
            return made


def _values(words: str) -> list[str]:
    limits = _RANGE.fullmatch(words)
    return (
        [str(n) for n in range(int(limits.group(1)), int(limits.group(2)) + 1)]
        if limits
        else words.split()
    )


def _read_line(block: Block, number: int, line: str, takes: list[str] | None) -> list[str] | None:
    """Puts one line into its block, and says where the indented lines behind it go."""
    if line.startswith(INDENT) and takes is not None:
        takes.append(line.removeprefix(INDENT))
        return takes
    kind, _, rest = line.partition(" ")
    if kind == "for" and " in " in rest and not block.cases:
        block.name, _, values = rest.partition(" in ")
        block.values = _values(values)
        return None
    if kind == "file" and not block.cases:
        name, is_made, expression = rest.partition(" = ")
        block.files.append(Made(name, expression=expression if is_made else None))
        return None if is_made else block.files[-1].lines
    if kind == "$":
        block.cases.append(Case(number, rest))
        return block.cases[-1].out
    if kind == "!" and block.cases:
        block.cases[-1].err.append(rest)
        return takes
    if line.startswith("out = ") and block.cases:
        block.cases[-1].out_expression = line.removeprefix("out = ")
        return None
    raise Mistake(f"line {number}: {line}")


def blocks_of(text: str) -> Iterator[Block]:
    """The blocks of a transcript that have a case."""
    block, takes = Block(), None
    for number, line in enumerate([*text.split("\n"), ""], 1):
        if line == "":
            if block.cases:
                yield block
            block, takes = Block(), None
        elif not line.startswith("#"):
            takes = _read_line(block, number, line, takes)


def failure(case: Case, block: Block, value: str, folder: pathlib.Path, path: str) -> str | None:
    """What is false in a case, run in this folder; None where it holds."""
    command, status = shown.split_status(block.put(case.command, value))
    got, out, err = scratch.run(command, folder, path)
    told = []
    if got != status:
        told.append(f"status {got} in the place of {status}")
    if case.out_expression:
        wanted = content(block.put(case.out_expression, value), folder)
        if out.encode("utf-8", "surrogateescape") != wanted:
            told.append(
                shown.difference(
                    shown.lines_of(wanted.decode("utf-8", "replace")), shown.lines_of(out)
                )
            )
    for lines, text in ((case.err, err), *(() if case.out_expression else ((case.out, out),))):
        wanted_lines = [block.put(line, value) for line in lines]
        if not shown.agrees(wanted_lines, shown.lines_of(text)):
            told.append(shown.difference(wanted_lines, shown.lines_of(text)))
    return "\n".join(told) or None


def write_files(block: Block, value: str, folder: pathlib.Path) -> list[pathlib.Path]:
    """Makes the files of a block, and answers where they stand."""
    made = []
    for file in block.files:
        path = folder / block.put(file.name, value)
        if path.exists():
            raise Mistake(f"{file.name} stands in tests/files already")
        if file.expression is not None:
            path.write_bytes(content(block.put(file.expression, value), folder))
        else:
            path.write_text(
                "".join(block.put(line, value) + "\n" for line in file.lines), encoding="utf-8"
            )
        made.append(path)
    return made


def run_transcript(transcript: pathlib.Path, program: pathlib.Path) -> tuple[int, list[str]]:
    """The number of cases of a transcript, and what is false in each that does not hold."""
    count, failures = 0, []
    with tempfile.TemporaryDirectory(prefix="staat-transcript-") as room:
        folder, commands = pathlib.Path(room, "files"), pathlib.Path(room, "bin")
        shutil.copytree(FILES, folder)
        commands.mkdir()
        scratch.put_program(commands / "staat", program)
        for block in blocks_of(transcript.read_text(encoding="utf-8")):
            for value in block.values:
                made = write_files(block, value, folder)
                for case in block.cases:
                    why = failure(case, block, value, folder, str(commands))
                    count += 1
                    if why:
                        told = block.put(case.command, value)
                        failures.append(
                            f"{transcript.relative_to(scratch.TOP)}:{case.line}: $ {told}\n{why}"
                        )
                for path in made:
                    path.unlink()
    return count, failures


def run_all(transcripts: Iterable[pathlib.Path], program: pathlib.Path) -> int:
    """Runs transcripts side by side, prints what is false and how many cases hold, and answers the status."""
    passed, failed = 0, 0
    with ThreadPoolExecutor(os.cpu_count()) as pool:
        jobs = [
            (transcript, pool.submit(run_transcript, transcript, program))
            for transcript in transcripts
        ]
        for transcript, job in jobs:
            try:
                count, failures = job.result()
            except (Mistake, OSError) as mistake:
                count, failures = 1, [f"{transcript.relative_to(scratch.TOP)}: {mistake}"]
            passed, failed = passed + count - len(failures), failed + len(failures)
            for told in failures:
                print(told)
    print(f"{passed} passed, {failed} failed")
    return 1 if failed else 0


def main(words: list[str]) -> int:
    """Runs all transcripts, or those that are named."""
    named = [pathlib.Path(word).resolve() for word in words[1:]]
    return run_all(
        named or sorted((scratch.TOP / "tests").glob("*.txt")), pathlib.Path(words[0]).resolve()
    )


if __name__ == "__main__":
    sys.exit(main(sys.argv[1:]))
