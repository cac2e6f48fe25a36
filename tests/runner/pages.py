"""Runs the examples of the pages: pages.py PROGRAM [PAGE..]

An example is a line that begins with `$ ` in a block of code, up to the last line that ends in a
backslash, and what the page shows of it are the lines behind it. All examples of a page run one after
another in one scratch copy of the repository, in which `./staat` is PROGRAM. What is printed, on out and
on err, has to be what is shown; `...` on a line of its own stands for lines that are left out. The status
has to be 0, or N where `# status N` stands behind the command.
"""

from __future__ import annotations

import os
import pathlib
import re
import subprocess
import sys
import tempfile
from collections.abc import Iterator
from concurrent.futures import ThreadPoolExecutor
from dataclasses import dataclass, field

import scratch
import shown

PAGES = (
    "README.md",
    "docs/*.md",
    "bench/*.md",
    "examples/**/*.md",
    "gallery/**/*.md",
    "tests/*.md",
    "tools/*.md",
)

INDENT = "    "
_FENCE = re.compile(r"```|~~~")


@dataclass
class Example:
    """A command of a page, the number of its line, and what the page shows of it."""

    line: int
    command: str
    lines: list[str] = field(default_factory=list)


def _code_of(text: str) -> Iterator[tuple[int, str | None]]:
    """The number and text of each line of code; None where a block ends."""
    is_fenced = False
    for number, line in enumerate(text.split("\n"), 1):
        if _FENCE.match(line):
            is_fenced = not is_fenced
            yield number, None
        elif is_fenced:
            yield number, line
        elif line.startswith(INDENT):
            yield number, line.removeprefix(INDENT)
        else:
            yield number, "" if line == "" else None


def examples_of(text: str) -> list[Example]:
    """The examples of a page, in their order."""
    found: list[Example] = []
    is_open = is_continued = False
    for number, line in _code_of(text):
        if line is None:
            is_open = False
        elif is_open and is_continued:
            found[-1].command += "\n" + line
            is_continued = line.endswith("\\")
        elif line.startswith("$ "):
            found.append(Example(number, line[2:]))
            is_open, is_continued = True, line.endswith("\\")
        elif is_open:
            found[-1].lines.append(line)
    for example in found:
        while example.lines and example.lines[-1] == "":
            example.lines.pop()
    return found


def failure(example: Example, folder: pathlib.Path) -> str | None:
    """What is false in an example, run in this folder; None where it holds."""
    command, status = shown.split_status(example.command)
    got, out, err = scratch.run(f"exec 2>&1; {command}", folder)
    lines = shown.lines_of(out + err)
    told = []
    if got != status:
        told.append(f"status {got}, and the page says {status}")
    if not shown.agrees(example.lines, lines):
        told.append(shown.difference(example.lines, lines))
    return "\n".join(told) or None


def run_page(page: pathlib.Path, program: pathlib.Path) -> tuple[int, list[str]]:
    """The number of examples of a page, and what is false in each that does not hold."""
    examples = examples_of(page.read_text(encoding="utf-8"))
    failures = []
    with tempfile.TemporaryDirectory(prefix="staat-page-") as room:
        folder = pathlib.Path(room, "staat")
        if examples:
            scratch.copy_repository(folder, program)
        for example in examples:
            why = failure(example, folder)
            if why:
                failures.append(
                    f"{page.relative_to(scratch.TOP)}:{example.line}: $ {example.command}\n{why}"
                )
    return len(examples), failures


def main(words: list[str]) -> int:
    """Runs all pages, or those that are named."""
    program = pathlib.Path(words[0]).resolve()
    pages = [pathlib.Path(word).resolve() for word in words[1:]]
    pages = pages or sorted({page for pattern in PAGES for page in scratch.TOP.glob(pattern)})
    # What ./staat-cad builds when it is first wanted is built before, since it tells so then.
    words = [sys.executable, "-c", "from workbench.convex import cgal; cgal.built()"]
    subprocess.run(words, cwd=scratch.TOP, check=False)
    count, failures = 0, []
    with ThreadPoolExecutor(os.cpu_count()) as pool:
        for number, told in pool.map(lambda page: run_page(page, program), pages):
            count += number
            failures += told
    print("".join(f"{told}\n" for told in failures), end="")
    print(f"{count - len(failures)} passed, {len(failures)} failed")
    return 1 if failures else 0


if __name__ == "__main__":
    sys.exit(main(sys.argv[1:]))
