"""Looks whether what the pages point at is there: links.py

A link has to lead to a file of the repository, and its `#head` to a heading of that page. A path that a page names in
its text, as docs/TRUST.md or crates/staat_top/src/top.rt, has to be there too; those with a placeholder in capitals or
a star, and what is built in `out` folders, are passed over. Where a page says that a name stands in a file of code, as
`staat` in crates/staat_top/src/top.rt, that file has to declare it. Below a heading that names crates, as
docs/DEFINITIONS.md has them, each word that a table explains has to stand in the definitions or the code of one.
"""

from __future__ import annotations

import functools
import re
import sys
from collections.abc import Collection, Iterator
from pathlib import Path

import pages
import scratch

_LINK = re.compile(r"\[[^\]]*\]\(([^)\s]+)\)")
_IMAGE = re.compile(r'<img src="([^"]+)"')
_PATH = re.compile(
    r"(?<![\w./-])(?:bench|bin|crates|docs|examples|gallery|tests|tools|workbench)/[\w./*-]*\w"
)
_NAME = re.compile(r"`(?:\w+::)*(\w+)`\s+in\s+(crates/\w+/src/\w+\.rt)")
_CRATE = re.compile(r"`(staat_\w+)`")
_QUOTED = re.compile(r"`([^\s`]+)[^`]*`")
_WORD = re.compile(r"[^\s(){}\[\],;.:`|]+")
_PASSED_OVER = re.compile(r"\*|\b[A-Z]{3,}\b(?!\.md)|/out\b")


def slug(heading: str) -> str:
    """How a link names a heading: its words in small letters, joined by hyphens."""
    kept = re.sub(r"[^\w\- ]", "", heading.strip().lower())
    return kept.replace(" ", "-")


def slugs(text: str) -> set[str]:
    """The names of all headings of a page."""
    return {slug(line.lstrip("#")) for line in text.split("\n") if line.startswith("#")}


def links_of(text: str) -> Iterator[tuple[int, str]]:
    """The links within the repository, each with the number of its line."""
    for number, line in enumerate(text.split("\n"), 1):
        for target in _LINK.findall(line) + _IMAGE.findall(line):
            if "://" not in target:
                yield number, target


def paths_of(text: str) -> Iterator[tuple[int, str]]:
    """The paths that the text names, each with the number of its line."""
    for number, line in enumerate(text.split("\n"), 1):
        for path in _PATH.findall(_LINK.sub("", line)):
            if not _PASSED_OVER.search(path):
                yield number, path


def names_of(text: str) -> Iterator[tuple[int, str, str]]:
    """The names of which the text says in which file they stand, each with the number of its line."""
    for found in _NAME.finditer(text):
        yield text.count("\n", 0, found.start()) + 1, found[1], found[2]


def words_of(text: str) -> Iterator[tuple[int, str, list[str]]]:
    """The words that tables explain below a heading that names crates, with the number of the line and the crates."""
    crates: list[str] = []
    for number, line in enumerate(text.split("\n"), 1):
        if line.startswith("#"):
            crates = _CRATE.findall(line)
        elif crates and line.startswith("| `"):
            for word in _QUOTED.findall(line.split(" | ")[0]):
                yield number, word, crates


@functools.cache
def spoken_in(crate: str) -> frozenset[str]:
    """All words of a crate's definitions and code."""
    folder = scratch.TOP / "crates" / crate
    files = [*folder.glob("specs/*.antt"), *folder.glob("src/*.rt")]
    return frozenset(
        word for file in files for word in _WORD.findall(file.read_text(encoding="utf-8"))
    )


def is_spoken(word: str, crates: Collection[str]) -> bool:
    """Whether a word stands in the definitions or the code of one of the crates."""
    return any(word in spoken_in(crate) for crate in crates)


def declares(code: str, name: str) -> bool:
    """Whether a text of code declares a function, a type or a constant of this name."""
    return re.search(rf"\b(?:fn|struct|enum|trait|const|type)\s+{name}\b", code) is not None


def is_link_right(page: Path, target: str) -> bool:
    """Whether a link of a page leads to a file, and to a heading where it names one."""
    name, _, head = target.partition("#")
    file = page.parent / name if name else page
    return file.exists() and (not head or head in slugs(file.read_text(encoding="utf-8")))


def seen(page: Path) -> Iterator[tuple[int, str]]:
    """What a page points at, in the order of its kinds: the number of the line, and what is wrong or an empty text."""
    text = page.read_text(encoding="utf-8")
    for number, target in links_of(text):
        is_right = is_link_right(page, target)
        yield number, "" if is_right else f"the link to {target} leads nowhere"
    for number, path in paths_of(text):
        yield number, "" if (scratch.TOP / path).exists() else f"there is no {path}"
    for number, name, file in names_of(text):
        code = scratch.TOP / file
        is_right = code.is_file() and declares(code.read_text(encoding="utf-8"), name)
        yield number, "" if is_right else f"{file} declares no {name}"
    for number, word, crates in words_of(text):
        is_right = is_spoken(word, crates)
        yield number, "" if is_right else f"no {word} stands in {', '.join(crates)}"


def main() -> int:
    """Looks at all pages and prints what is not there. Returns the exit status."""
    count, failures = 0, []
    for page in sorted({page for pattern in pages.PAGES for page in scratch.TOP.glob(pattern)}):
        for number, wrong in seen(page):
            count += 1
            if wrong:
                failures.append(f"{page.relative_to(scratch.TOP)}:{number}: {wrong}")
    print("".join(f"{told}\n" for told in failures), end="")
    print(f"{count - len(failures)} passed, {len(failures)} failed")
    return 1 if failures else 0


if __name__ == "__main__":
    sys.exit(main())
