#!/usr/bin/env python3
"""Makes the picture of the crates, docs/crates.svg, and what docs/ARCHITECTURE.md says each stands on.

    python3 tools/layers.py            writes both
    python3 tools/layers.py --check    says whether they are what would be written; status 1 where they are not

A crate stands in the row above the highest that it stands on. A line leads from each crate to those that it stands
on, but not where lines lead there by a crate between. Crates of tests, whose names end in `_tests`, stand in a row of
their own, without lines. Either way the status is 1, and a line says why, where a crate of crates.txt has no row in
the table of docs/ARCHITECTURE.md, or a row is of no crate.
"""

from __future__ import annotations

import argparse
import re
import sys
from dataclasses import dataclass, field
from pathlib import Path

TOP = Path(__file__).resolve().parent.parent
PICTURE = "docs/crates.svg"
PAGE = "docs/ARCHITECTURE.md"
PREFIX = "staat_"
TESTS = "_tests"
# In the picture, in pixels: from row to row, the height of a box, the widths of a letter and of a line that passes, and
# what lies between boxes and around all.
ROW, BOX, LETTER, BEND, GAP, MARGIN = 62, 24, 8, 4, 22, 14
ROUNDS = 24  # how often the rows are put in order by their neighbours

_TABLE_ROW = re.compile(r"^\| (\w+) \|(.*)\| ([^|]*) \|$")


@dataclass
class Crates:
    """The crates of a repository, each with those that it stands on, of the repository and of the kit."""

    on: dict[str, list[str]]
    _heights: dict[str, int] = field(default_factory=dict)

    @classmethod
    def read(cls, text: str) -> Crates:
        """The crates of crates.txt."""
        lines = [line.split("#")[0].partition(":") for line in text.splitlines()]
        return cls({head.split()[0]: rest.split() for head, _, rest in lines if head.strip()})

    def own(self, name: str) -> list[str]:
        """Those of the repository that a crate stands on."""
        return [it for it in self.on[name] if it in self.on]

    def below(self, name: str) -> set[str]:
        """All that stand below a crate."""
        found: set[str] = set()
        left = self.own(name)
        while left:
            it = left.pop()
            if it not in found:
                found.add(it)
                left += self.own(it)
        return found

    def next_below(self, name: str) -> list[str]:
        """Those that a crate stands on, without those that stand below another one of them."""
        own = self.own(name)
        return [it for it in own if not any(it in self.below(other) for other in own)]

    def height(self, name: str) -> int:
        """The row of a crate, from 0 at the bottom; one of tests stands above all that are none."""
        if name not in self._heights:
            under = self.no_tests() if name.endswith(TESTS) else self.own(name)
            self._heights[name] = 1 + max(map(self.height, under), default=-1)
        return self._heights[name]

    def no_tests(self) -> list[str]:
        """The crates but those of tests."""
        return [name for name in self.on if not name.endswith(TESTS)]


@dataclass(frozen=True, order=True)
class Knot:
    """What stands in a row of the picture: a crate, or where the lines to a lower crate pass the row."""

    crate: str
    row: int
    is_box: bool

    def width(self) -> int:
        """How wide it is."""
        return LETTER * len(shown(self.crate)) + 16 if self.is_box else BEND


def shown(name: str) -> str:
    """The name of a crate in the picture and in the table."""
    return name.removeprefix(PREFIX)


def segments(crates: Crates) -> list[tuple[Knot, Knot]]:
    """The lines of the picture, each from a row to the next one below; lines to one crate meet on their way."""
    found = set()
    for name in crates.no_tests():
        for it in crates.next_below(name):
            upper, low = Knot(name, crates.height(name), True), crates.height(it)
            for row in range(upper.row - 1, low - 1, -1):
                lower = Knot(it, row, row == low)
                found.add((upper, lower))
                upper = lower
    return sorted(found)


def centred(row: list[Knot]) -> dict[Knot, float]:
    """Where what stands in a row has its middle, around 0."""
    at = -(sum(it.width() for it in row) + GAP * (len(row) - 1)) / 2
    places = {}
    for knot in row:
        places[knot] = at + knot.width() / 2
        at += knot.width() + GAP
    return places


def placed(crates: Crates, lines: list[tuple[Knot, Knot]]) -> dict[Knot, float]:
    """Where each knot has its middle: the rows in an order in which the lines cross little."""
    boxes = [Knot(name, crates.height(name), True) for name in crates.on]
    beside: dict[Knot, list[Knot]] = {it: [] for it in sorted({*boxes, *sum(lines, ())})}
    for upper, lower in lines:
        beside[upper].append(lower)
        beside[lower].append(upper)
    rows = [[it for it in beside if it.row == k] for k in range(1 + max(it.row for it in boxes))]
    places = {it: at for row in rows for it, at in centred(row).items()}

    def middle(knot: Knot) -> tuple[float, Knot]:
        its = [places[it] for it in beside[knot]] or [places[knot]]
        return round(sum(its) / len(its), 3), knot

    for _ in range(ROUNDS):
        for row in rows:
            row.sort(key=middle)
            places.update(centred(row))
    return places


def picture(crates: Crates) -> str:
    """The picture as SVG."""
    segments_of = segments(crates)
    places = placed(crates, segments_of)
    half = round(max(abs(at) + it.width() / 2 for it, at in places.items())) + MARGIN
    tall = ROW * max(it.row for it in places) + BOX + 2 * MARGIN
    x = {it: round(at) + half for it, at in places.items()}
    y = {it: tall - MARGIN - BOX - ROW * it.row for it in places}  # of the upper side
    lines = [
        f'<svg xmlns="http://www.w3.org/2000/svg" width="{2 * half}" height="{tall}" '
        'font-family="monospace" font-size="13" text-anchor="middle">',
        "<title>The crates, and what each stands on</title>",
        f'<rect width="{2 * half}" height="{tall}" fill="white"/>',
    ]
    for upper, lower in segments_of:
        lines.append(
            f'<path d="M{x[upper]} {y[upper] + BOX}L{x[lower]} {y[lower]}" stroke="#8899aa"/>'
        )
    for knot in places:
        if knot.is_box:
            fill = "white" if knot.crate.endswith(TESTS) else "#e8eef4"
            lines.append(
                f'<rect x="{x[knot] - knot.width() // 2}" y="{y[knot]}" width="{knot.width()}" '
                f'height="{BOX}" rx="4" fill="{fill}" stroke="#445566"/>'
            )
            lines.append(f'<text x="{x[knot]}" y="{y[knot] + 17}">{shown(knot.crate)}</text>')
        else:
            lines.append(f'<path d="M{x[knot]} {y[knot]}v{BOX}" stroke="#8899aa"/>')
    return "\n".join([*lines, "</svg>"]) + "\n"


def told(crates: Crates, page: str) -> tuple[str, list[str]]:
    """The page with what each crate stands on in its row of the table, and what is wrong with the rows."""
    lines, known = [], []
    faults = []
    for line in page.split("\n"):
        found = _TABLE_ROW.match(line)
        if found and found[1].startswith(PREFIX):
            known.append(found[1])
            if found[1] in crates.on:
                on = ", ".join(map(shown, crates.on[found[1]])) or "nothing"
                line = f"| {found[1]} |{found[2]}| {on} |"
            else:
                faults.append(f"{PAGE}: {found[1]} is no crate")
        lines.append(line)
    faults += [f"{PAGE}: no row of {name}" for name in crates.on if name not in known]
    return "\n".join(lines), faults


def main(words: list[str]) -> int:
    """Writes picture and page, or with --check compares them. Returns the exit status."""
    parser = argparse.ArgumentParser(
        description="Makes docs/crates.svg and a column of docs/ARCHITECTURE.md."
    )
    parser.add_argument(
        "--check", action="store_true", help="write nothing; fail where they are not up to date"
    )
    asked = parser.parse_args(words)
    crates = Crates.read((TOP / "crates.txt").read_text(encoding="utf-8"))
    page, faults = told(crates, (TOP / PAGE).read_text(encoding="utf-8"))
    for name, text in ((PICTURE, picture(crates)), (PAGE, page)):
        file = TOP / name
        if not asked.check:
            file.write_text(text, encoding="utf-8")
        elif not file.is_file() or file.read_text(encoding="utf-8") != text:
            faults.append(f"{name} is not what crates.txt says: run python3 tools/layers.py")
    for line in faults:
        print(f"layers: {line}", file=sys.stderr)
    return 1 if faults else 0


if __name__ == "__main__":
    sys.exit(main(sys.argv[1:]))
