#!/usr/bin/env python3
"""Makes docs/GUARDS.md, which says what guards each public function.

    python3 tools/guards.py            writes docs/GUARDS.md
    python3 tools/guards.py --check    says whether the page is what it would write; status 1 where it is not

A guard is a wrong body that the proof must refuse, a file of crates/NAME/must-fail, or a test. A wrong body aims at
the public function in whose text it stands. Where it stands in a helper, it aims at each public function (in a program:
at `main`) that reaches the helper by calls within the crate, or at those that it names itself:

    # aims at: sink_of
    # refused by: least of sink_of

The second line names the clause that refuses it, and the function whose clause that is, or the function alone where its
clause has no name. Without it, that is the clause of the function in which the wrong body stands, if it has only one.
"""

from __future__ import annotations

import argparse
import sys
from dataclasses import dataclass
from pathlib import Path

from rattle_source import Crate, Function

TOP = Path(__file__).resolve().parent.parent
PAGE = "docs/GUARDS.md"
MOST_EDITS = 10
# What stands for the public functions of a program with wrong bodies.
MAIN = "main"
# The call that the program makes; each file tests/*.txt shows runs of the program.
CALL = "staat"
HEAD = """# What guards each public function

This page is made by `python3 tools/guards.py`, which says how; do not edit it.

For each crate, lowest first, it lists the public functions. A *wrong body* is an edit of the code, a file of the
crate's `must-fail/`, that changes what the code means; `rt ci` passes only where the proof refuses each. Behind its
name stands the clause that refuses it, as `clause` of `function`. *Tests* are the modules with tests that call the
function, most of them in the crates that have nothing but tests, and the files of `tests/`, whose runs of the program
call `staat`. A function that has neither is guarded by its contract alone. A *law* does nothing: its contract is a
statement, which is proved.
"""


class Fault(Exception):
    """What is wrong with an edit, in a line."""


@dataclass(frozen=True)
class Edit:
    """A wrong body: its name, the places where it changes a source file, and what it says of itself."""

    name: str
    places: tuple[tuple[str, str], ...]  # a file of the crate, and a text that stands in it once
    aims: tuple[str, ...]
    refused_by: str

    @classmethod
    def read(cls, path: Path) -> Edit:
        """Reads a file of must-fail/."""
        file, places, aims, refused = "", [], [], ""
        for line in path.read_text(encoding="utf-8").splitlines():
            word, _, rest = line.partition(": ")
            if word == "file":
                file = rest.strip()
            elif word == "old":
                places.append((file, rest))
            elif word == "# aims at":
                aims += [it.strip() for it in rest.split(",")]
            elif word == "# refused by":
                refused = rest.strip()
        return cls(path.stem, tuple(places), tuple(aims), refused)


@dataclass
class Guarded:
    """A crate with its public functions, and the wrong bodies and tests of each by its title."""

    crate: Crate
    public: list[Function]
    edits: list[Edit]
    # each edit with the title of the helper in which it stands, or ""
    bodies: dict[str, list[tuple[Edit, str]]]
    tests: dict[str, list[str]]


def places_of(crate: Crate, edit: Edit) -> list[Function]:
    """The functions in which an edit stands.

    Raises Fault where a text that it replaces is not in its file once. One that an earlier line of it wrote is not
    looked for.
    """
    found = []
    for number, (file, old) in enumerate(edit.places):
        text = crate.texts.get(file, "")
        count = text.count(old)
        if count != 1 and (number == 0 or count > 1):
            raise Fault(
                f"{crate.name}/must-fail/{edit.name}: its old text is in {file} {count} times, and not once"
            )
        at = text.find(old) + len(old) - len(old.lstrip())
        found += [it for it in crate.functions if it.file == file and it.start <= at < it.end]
    return found


def aims_of(crate: Crate, public: list[Function], edit: Edit) -> list[tuple[Function, str]]:
    """The public functions at which an edit aims, each with the helper in which it stands, or "".

    Raises Fault where there is none, or where the edit names none of the crate's.
    """
    if edit.aims:
        named = [(it, "") for it in public if it.title in edit.aims]
        lacking = set(edit.aims) - {it.title for it, _ in named}
        if lacking:
            raise Fault(
                f"{crate.name}/must-fail/{edit.name}: {', '.join(sorted(lacking))} is no public function"
            )
        return named
    found: dict[Function, str] = {}
    for place in places_of(crate, edit):
        for it in reaching(crate, public, place):
            found.setdefault(it, "" if it is place else place.title)
    if not found:
        raise Fault(
            f"{crate.name}/must-fail/{edit.name}: no public function reaches it; name one by '# aims at: NAME'"
        )
    return [(it, found[it]) for it in public if it in found]


def reaching(crate: Crate, public: list[Function], place: Function) -> list[Function]:
    """The public functions that reach a function by calls, through functions that are not public."""
    if place in public:
        return [place]
    found, known, left = [], {place}, [place]
    while left:
        of = left.pop()
        for it in crate.functions:
            if it in known or it.file in crate.test_files:
                continue
            if of not in crate.calls[it] and of not in crate.handed_on(it):
                continue
            known.add(it)
            if it in public:
                found.append(it)
            else:
                left.append(it)
    return found


def clause_of(crate: Crate, edit: Edit) -> str:
    """The clause that refuses an edit, as the page shows it, or "" where that is not known.

    Raises Fault where the edit names a clause that the crate does not have.
    """
    if edit.refused_by:
        name, _, title = edit.refused_by.rpartition(" of ")
        its = [clause for it in crate.functions if it.title == title for clause in it.clauses]
        if all(clause.name != name for clause in its):
            raise Fault(
                f"{crate.name}/must-fail/{edit.name}: no clause of the crate is {edit.refused_by!r}"
            )
    else:
        places = set(places_of(crate, edit))
        place = places.pop() if len(places) == 1 else None
        promises = [it for it in place.clauses if it.word == "ensures"] if place else []
        if place is None or len(promises) != 1:
            return ""
        name, title = promises[0].name, place.title
    return f"`{name}` of `{title}`" if name else f"`{title}`"


def tests_of(crate: Crate, of: Function, testing: Crate) -> list[str]:
    """The modules of a crate with tests that call a function of one, themselves or by helpers, in their order."""
    helpers = [it for it in testing.functions if it.file in testing.test_files]
    calls = testing.calls if testing is crate else testing.calls_into(crate)
    known = {it for it in helpers if of in calls.get(it, ())}
    while more := {it for it in helpers if it not in known and testing.calls[it] & known}:
        known |= more
    return list(dict.fromkeys(Path(it.file).stem for it in helpers if it in known and it.is_test))


def guarded(folder: Path, crate: Crate, traits: set[str], crates: list[Crate]) -> Guarded:
    """Finds what guards each public function of the crate in a folder, with tests of any of the crates."""
    edits = [Edit.read(it) for it in sorted(folder.glob("must-fail/*.edit"))]
    public = crate.public_functions(traits)
    if edits and not public:
        public = [it for it in crate.functions if it.title == MAIN]
    bodies: dict[str, list[tuple[Edit, str]]] = {it.title: [] for it in public}
    for edit in edits:
        for it, helper in aims_of(crate, public, edit):
            bodies[it.title].append((edit, helper))
    if len(edits) > MOST_EDITS:
        raise Fault(f"{crate.name}/must-fail: {len(edits)} edits, and not at most {MOST_EDITS}")
    tests = {
        it.title: [name for by in crates if by.test_files for name in tests_of(crate, it, by)]
        for it in public
    }
    if CALL in tests:
        top = folder.parent.parent
        tests[CALL] += [f"tests/{it.name}" for it in sorted(top.glob("tests/*.txt"))]
    return Guarded(crate, public, edits, bodies, tests)


def rows(of: Guarded, function: Function) -> list[str]:
    """The table's lines of a function: one for each wrong body, or one if there is none."""
    head = f"`{function.title}`"
    tests = ", ".join(f"`{it}`" for it in of.tests[function.title]) or "-"
    bodies = [
        (
            f"`{edit.name}`" + (f" in `{helper}`" if helper else ""),
            clause_of(of.crate, edit) or "not told",
        )
        for edit, helper in of.bodies[function.title]
    ]
    lines = []
    for name, clause in bodies or [("-", "")]:
        lines.append(f"| {head} | {name} | {clause} | {tests} |")
        head = tests = ""
    return lines


def section(of: Guarded) -> str:
    """The page's part on a crate."""
    laws = [it for it in of.public if it.is_law]
    getters = [it for it in of.public if it.is_getter and not of.bodies[it.title]]
    listed = [it for it in of.public if it not in laws + getters or of.bodies[it.title]]
    lines = [
        f"## {of.crate.name}",
        "",
        f"Wrong bodies: {len(of.edits)}. Public functions: {len(of.public)}.",
        "",
    ]
    if listed:
        lines += ["| Function | Wrong body | Refused by | Tests |", "|---|---|---|---|"]
        lines += [line for it in listed for line in rows(of, it)] + [""]
    alone = [it for it in listed if not of.bodies[it.title] and not of.tests[it.title]]
    for head, some in (
        ("By its contract alone", alone),
        ("Laws", [it for it in laws if it not in listed]),
        ("Only hand out a field", [it for it in getters if it not in laws]),
    ):
        if some:
            lines += [f"{head}: {', '.join(f'`{it.title}`' for it in some)}.", ""]
    return "\n".join(lines)


def page(top: Path) -> str:
    """The page's whole text. Raises Fault where an edit cannot be told."""
    rows = (top / "crates.txt").read_text(encoding="utf-8").splitlines()
    names = [
        it.partition(":")[0].split()[0] for it in rows if it.strip() and not it.startswith("#")
    ]
    folders = [top / "crates" / it for it in names]
    crates = [Crate.read(it) for it in folders]
    promised = {method: clauses for it in crates for method, clauses in it.promised().items()}
    traits = {trait for trait, _ in promised}
    for crate in crates:
        crate.inherit(promised)
    found = [guarded(folder, crate, traits, crates) for folder, crate in zip(folders, crates)]
    edits = sum(len(it.edits) for it in found)
    total = f"In all there are {edits} wrong bodies.\n"
    return "\n".join([HEAD, total, *(section(it) for it in found if it.public)])


def main(words: list[str]) -> int:
    """Writes the page, or with --check compares it. Returns the exit status."""
    parser = argparse.ArgumentParser(
        description="Makes docs/GUARDS.md, which says what guards each public function."
    )
    parser.add_argument(
        "--check", action="store_true", help="write nothing; fail where the page is not up to date"
    )
    asked = parser.parse_args(words)
    try:
        text = page(TOP)
    except Fault as fault:
        print(f"guards: {fault}", file=sys.stderr)
        return 1
    if not asked.check:
        (TOP / PAGE).write_text(text, encoding="utf-8")
        return 0
    if not (TOP / PAGE).is_file() or (TOP / PAGE).read_text(encoding="utf-8") != text:
        print(
            f"guards: {PAGE} is not what the crates say: run python3 tools/guards.py",
            file=sys.stderr,
        )
        return 1
    return 0


if __name__ == "__main__":
    sys.exit(main(sys.argv[1:]))
