#!/usr/bin/python3
"""The program over files in memory, called as `staat` is: tools/in_memory.py PROGRAM WORDS..

PROGRAM is crates/staat_in_memory/out/staat_in_memory. It is given the files that the words name, and those that a part
list names, as far as they can be read, and then the words. Its status, out and err are those of this command.
"""

from __future__ import annotations

import json
import os
import re
import subprocess
import sys
import tempfile
from collections.abc import Iterator, Sequence
from pathlib import Path

STDIN = "/dev/stdin"
LONGEST_LIST = 2_000_000  # bytes; the part lists that staat takes are shorter

_TEXT = re.compile(rb'"(?:[^"\\]|\\.)*"', re.DOTALL)


def texts_of(content: bytes) -> Iterator[str]:
    """Each text of a JSON file, also where the file is broken: all names of a part list are among them."""
    for found in _TEXT.findall(content):
        try:
            text = json.loads(found.decode("utf-8"), strict=False)
            text.encode("utf-8")
        except ValueError:
            continue
        yield text


def can_be_read(name: str, folder: Path) -> bool:
    """Whether an ordinary file of that name can be read, relative to the folder."""
    path = os.path.join(folder, name)
    return os.path.isfile(path) and os.access(path, os.R_OK)


def files_of(words: Sequence[str], folder: Path, given: bytes = b"") -> list[str]:
    """The files that a request can name, each once: words, values of options, and texts in these files.

    given: what stands in the file of standard input
    """
    found: dict[str, None] = {}
    for word in words:
        name = word.partition("=")[2] if word.startswith("--") else word
        if name == STDIN:
            content = given
        elif can_be_read(name, folder):
            path = folder / name
            content = path.read_bytes() if path.stat().st_size < LONGEST_LIST else b""
        else:
            continue
        texts = (text for text in texts_of(content) if can_be_read(text, folder))
        found.update(dict.fromkeys([name, *texts]))
    return list(found)


def call(program: Path, words: Sequence[str], folder: Path, given: bytes = b"") -> list[str]:
    """The words that run the program in the folder over all files that the request can name."""
    return [str(program), *files_of(words, folder, given), "--", *words]


def main(words: list[str]) -> int:
    """Runs the program for the words; what is on standard input is given on to it as a file."""
    program, request = Path(words[0]), words[1:]
    with tempfile.TemporaryFile() as room:
        if any(STDIN in word for word in request):
            room.write(sys.stdin.buffer.read())
        room.seek(0)
        given = room.read()
        room.seek(0)
        return subprocess.run(
            call(program, request, Path(), given), stdin=room, check=False
        ).returncode


if __name__ == "__main__":
    sys.exit(main(sys.argv[1:]))
