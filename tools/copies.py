#!/usr/bin/env python3
"""Lists the statements that are proved more than once: tools/copies.py [--check]

Two statements are the same where they differ by nothing but the names that they bind, how these stand together, and
spaces. They are looked for in all files of `proofs`, also in `where` blocks, unless they speak of what is bound
around them; an answer of a goal, whose type the prover makes, has no statement to be found, and a definition is none.
Status 1 with `--check` where there is a copy.
"""

from __future__ import annotations

import collections
import pathlib
import re
import sys
from collections.abc import Collection, Iterator, Mapping
from dataclasses import dataclass

TOP = pathlib.Path(__file__).resolve().parent.parent
SHORTEST = 6  # words of a statement that is looked at: what is shorter says nothing of its own

_DECLARED = re.compile(r"( *)(?:pub )?([^\s:(){}]+) : (.*)")
_WORD = re.compile(r"[(){}]|[^\s(){}]+")
# binders whose type has no brackets of its own, and what binds
_BINDER = re.compile(r"([({])\s*((?:[^\s:(){}]+\s+)+):\s([^(){}]*)[)}]")
_BOUND = re.compile(r"[({]\s*((?:[^\s:(){}]+\s+)+):\s")
# what a file has from others: names, or a module under another name, unless it is a statement that the prover made
_USED = re.compile(r"^use (?![^{\n]*\.Statement as )([^{\s]*?)(?:\.\{([^}]*)\}| as (\w+))", re.M)
_AT_TOP = re.compile(
    r"(?:(?:abbrev|data|pub|record|unfoldable) )*([^\s:(){}]+)(?: .*)? (?:[:=] .*|where)"
)
# what a definition ends in
_VALUE = re.compile(r"Type \d|(?:List|Option) .*|(?!⊥)[^ ]+")
_LAMBDA = re.compile(r"λ((?:\s+[^\s.(){}]+)+)\.")


@dataclass(frozen=True)
class Statement:
    """A statement: where it stands, its name, what it says (words with their modules), and the lines of its proof."""

    path: pathlib.Path
    line: int
    name: str
    text: str
    says: str
    lines: int


def _each(found: re.Match[str]) -> str:
    opening, names = found.group(1), found.group(2).split()
    closing = {"(": ")", "{": "}"}[opening]
    *others, last = names
    same = f" : {found.group(3)}{closing} "
    return "".join(f"{opening}{name}{same}" for name in others) + f"{opening}{last}{same}"


def plain(text: str) -> str:
    """The statement with bound names by their numbers, and each binder in brackets of its own."""
    text = _BINDER.sub(_each, re.sub(r"--.*", "", text))
    names: dict[str, str] = {}
    for group in (*_BOUND.findall(text), *_LAMBDA.findall(text)):
        for name in group.split():
            names.setdefault(name, f"${len(names)}")
    words = _WORD.findall(text)
    return " ".join(".".join(names.get(part, part) for part in word.split(".")) for word in words)


def _end(lines: list[str], first: int, indent: int) -> int:
    """The number of the first line after `first` that neither stands further in nor closes what is open."""
    inner = re.compile(rf" {{{indent + 1}}}| {{{indent}}}[)}}\]]|\s*$")
    at = first + 1
    while at < len(lines) and inner.match(lines[at]):
        at += 1
    return at


def _proof_end(lines: list[str], first: int, indent: int, name: str) -> int:
    """The number of the first line after the clauses of a name, which follow what they unfold; `first` if none do."""
    at = first
    while at < len(lines) and re.match(rf" {{{indent}}}unfolding ", lines[at]):
        at += 1
    clause = re.compile(rf" {{{indent}}}{re.escape(name)}[\s(]")
    proof = at
    while proof < len(lines) and clause.match(lines[proof]):
        proof = _end(lines, proof, indent)
    return proof if proof > at else first


def _known(text: str, module: str) -> dict[str, str]:
    """The names that a file has from others or declares at its top; those of this repository with their modules."""
    known = {"Type": "Type"}
    for origin, names, alias in _USED.findall(text):
        for item in names.split(","):
            name, _, other = (word.strip() for word in item.partition(" as "))
            is_own = origin.startswith("Rattle.staat_")
            known[other or name] = f"{origin}.{name}" if is_own else other or name
        known[alias] = origin
    lines = (line for line in text.splitlines() if not line.startswith((" ", "--", "use ")))
    tops = filter(None, map(_AT_TOP.fullmatch, lines))
    known.update({found.group(1): f"{module}.{found.group(1)}" for found in tops})
    return known


def _is_local(statement: str, known: Collection[str]) -> bool:
    """Whether a statement speaks of a name that is bound around it."""
    firsts = (word.partition(".")[0] for word in statement.split())
    return any(first[:1].isalpha() and first not in known and first != "λ" for first in firsts)


def _said(statement: str, known: Mapping[str, str]) -> str:
    """The statement with the module of each word."""
    parts = (word.partition(".") for word in statement.split())
    return " ".join(known.get(first, first) + dot + rest for first, dot, rest in parts)


def statements(path: pathlib.Path) -> Iterator[Statement]:
    """The statements of one file."""
    text = path.read_text(encoding="utf-8")
    module = ".".join(["Rattle", *path.with_suffix("").parts[path.parts.index("crates") + 1 :]])
    known, lines = _known(text, module), text.splitlines()
    for number, line in enumerate(lines):
        found = _DECLARED.fullmatch(line)
        if not found or line.lstrip().startswith(("--", "use ", "|")):
            continue
        indent, name = len(found.group(1)), found.group(2)
        end = _end(lines, number, indent)
        proof = _proof_end(lines, end, indent, name)
        if proof > end:
            statement = plain(" ".join([found.group(3), *lines[number + 1 : end]]))
            if not _VALUE.fullmatch(statement.rpartition(" → ")[2]) and not _is_local(
                statement, known
            ):
                says = _said(statement, known)
                yield Statement(path, number + 1, name, statement, says, proof - number)


def copies(top: pathlib.Path) -> list[list[Statement]]:
    """The statements that stand more than once, those with the most lines first."""
    found = collections.defaultdict(list)
    for path in sorted((top / "crates").glob("*/proofs/**/*.antt")):
        for statement in statements(path):
            if len(statement.text.split()) >= SHORTEST:
                found[statement.says].append(statement)
    groups = [group for group in found.values() if len(group) > 1]
    return sorted(groups, key=lambda group: -sum(it.lines for it in group[1:]))


def main(words: list[str]) -> int:
    """Prints each group of copies."""
    groups = copies(TOP)
    for group in groups:
        print(group[0].text)
        for it in group:
            print(f"    {it.path.relative_to(TOP)}:{it.line}: {it.name}, {it.lines} lines")
    spare = [it for group in groups for it in group[1:]]
    print(
        f"{len(groups)} statements stand in {len(spare)} copies, with {sum(it.lines for it in spare)} lines"
    )
    return int("--check" in words and bool(groups))


if __name__ == "__main__":
    sys.exit(main(sys.argv[1:]))
