"""Tries ./staat-cad on models that nobody here made, and writes workbench/TRIED.md: what became of each.

    /usr/bin/python3 -m workbench.tests.tried                      all models of all packages, for hours
    /usr/bin/python3 -m workbench.tests.tried openscad star.off    those of these packages and of these names
    /usr/bin/python3 -m workbench.tests.tried --check openscad     the same, and writes nothing; the status tells

Rows of models that are not tried stay as they are. The status is 1 where a model became neither pieces nor a line that
says why there are none.
"""
from __future__ import annotations

import argparse
import json
import os
import re
import subprocess
import sys
import tempfile
import time
from concurrent.futures import ThreadPoolExecutor
from dataclasses import dataclass
from typing import Any, Dict, List, Optional, Tuple

from workbench.grids import short
from workbench.planner import TOP
from workbench.tests.models import Model, all_models

TABLE = os.path.join(TOP, "workbench", "TRIED.md")
HEAD = """# What became of models that nobody here made

`/usr/bin/python3 -m workbench.tests.tried` makes this table anew, of models in packages of Debian 12. Each is read by
`./staat-cad pieces` with no option but `--seconds={seconds}`: so much time of a processor a solid may take. Lengths are
in the unit of the model; *extent* is its greatest coordinate. Seconds are those of a processor, for the whole command;
where none stand, they were not measured. Models of these packages that have no row were not tried yet.

| Package | Model | Parts | Pieces | Over | Under | Extent | Seconds | What else was told |
|---|---|---|---|---|---|---|---|---|
"""
NO_SOLID = "OpenSCAD exports no solid, or not in time"


@dataclass(frozen=True)
class Row:
    """A row of the table. parts: how many were written, none where there is but a line; told: that line, and notes."""

    package: str
    name: str
    parts: int = 0
    pieces: int = 0
    over: float = 0.0
    under: float = 0.0
    extent: float = 0.0
    seconds: float = 0.0
    told: str = ""
    good: bool = True

    @property
    def key(self) -> Tuple[str, str]:
        return self.package, self.name

    def line(self) -> str:
        numbers = [
            str(self.parts),
            str(self.pieces),
            *map(short, (self.over, self.under, self.extent)),
        ]
        cells = numbers if self.parts else [""] * 5
        told = self.told.replace("|", "/")
        used = f"{self.seconds:.1f}" if self.seconds else ""
        return f"| {' | '.join([self.package, self.name, *cells, used, told])} |"


def summed(package: str, rows: List[Row]) -> str:
    """The line that counts the models of a package."""
    some = [row for row in rows if row.package == package]
    cut = sum(1 for row in some if row.parts)
    return f"{package}: {len(some)} models, {cut} in pieces, {len(some) - cut} with a line that says why not"


def tried(model: Model, seconds: float) -> Row:
    """What becomes of a model."""
    with tempfile.TemporaryDirectory() as folder:
        path = model.file(folder)
        if path is None:
            return Row(model.package, model.name, told=NO_SOLID)
        out = os.path.join(folder, "out")
        words = [sys.executable, os.path.join(TOP, "staat-cad"), "pieces", os.path.basename(path)]
        words += [f"--seconds={seconds:g}", f"--out={out}"]
        used, status, text, fault = run(words, folder)
        lines = fault.replace("staat-cad: ", "").strip().split("\n") if fault.strip() else []
        overlaps = [line for line in text.split("\n") if " overlap in pieces " in line]
        good = status in (0, 1, 3) and len(lines) < 40 and (status == 3) == bool(lines)
        told = "; ".join((lines + overlaps)[:1] + [f"and {len(lines) - 1} more"] * (len(lines) > 1))
        parts = listed(out)
        if not parts:
            return Row(model.package, model.name, seconds=used, told=told, good=good)
        return Row(
            model.package,
            model.name,
            len(parts),
            sum(part["pieces"] for part in parts),
            max(part["over"] for part in parts),
            max(part["under"] for part in parts),
            extent_of(out),
            used,
            told,
            good,
        )


def run(words: List[str], folder: str) -> Tuple[float, int, str, str]:
    """The processor seconds of a command and of those that it ran, its status, out and err."""
    timed = [sys.executable, "-c", TIMER, *words]
    done = subprocess.run(timed, cwd=folder, capture_output=True, text=True, check=False)
    found = re.search(r"\nseconds ([\d.]+)\s*$", done.stdout)
    used = float(found.group(1)) if found else 0.0
    return used, done.returncode, done.stdout, done.stderr


TIMER = (
    "import resource, subprocess, sys\n"
    "done = subprocess.run(sys.argv[1:])\n"
    "used = resource.getrusage(resource.RUSAGE_CHILDREN)\n"
    "print('\\nseconds', used.ru_utime + used.ru_stime)\n"
    "sys.exit(done.returncode)\n"
)


def listed(out: str) -> List[Dict[str, Any]]:
    """The parts in a folder that `pieces` wrote; none where it wrote nothing."""
    try:
        with open(os.path.join(out, "model.json"), encoding="utf-8") as file:
            found: List[Dict[str, Any]] = json.load(file)["parts"]
            return found
    except OSError:
        return []


def extent_of(out: str) -> float:
    """The greatest coordinate of the pieces in a folder, in the unit of the model."""
    greatest = 0
    for name in os.listdir(out):
        if name.endswith(".off"):
            with open(os.path.join(out, name), encoding="ascii") as file:
                words = file.read().split()
            many = int(words[1])
            greatest = max([greatest] + [abs(int(word)) for word in words[4 : 4 + 3 * many]])
    with open(os.path.join(out, "model.json"), encoding="utf-8") as file:
        over, _, under = json.load(file)["grid"].partition("/")
    return greatest * int(over) / int(under or 1)


def rows_before() -> Dict[Tuple[str, str], str]:
    """The lines of the table as it stands, by package and model."""
    try:
        with open(TABLE, encoding="utf-8") as file:
            lines = [line.rstrip("\n") for line in file if re.match(r"\| [a-z]", line)]
    except OSError:
        return {}
    cells = {line: [cell.strip() for cell in line.split("|")] for line in lines}
    return {(row[1], row[2]): line for line, row in cells.items()}


def write(rows: List[Row], seconds: float) -> None:
    """Writes the table, with the rows that are new and those that stay."""
    lines = rows_before()
    lines.update({row.key: row.line() for row in rows})
    known = [(model.package, model.name) for model in all_models()]
    order = [key for key in known if key in lines] + [key for key in lines if key not in known]
    with open(TABLE, "w", encoding="utf-8") as file:
        file.write(HEAD.format(seconds=f"{seconds:g}"))
        file.writelines(lines[key] + "\n" for key in order)


def main(words: Optional[List[str]] = None) -> int:
    """Tries what the words name, and answers the status."""
    parser = argparse.ArgumentParser(
        description="Tries ./staat-cad on models of packages of Debian."
    )
    parser.add_argument("wanted", nargs="*", metavar="NAME", help="packages, or models")
    parser.add_argument("--check", action="store_true", help="write no table")
    parser.add_argument("--jobs", type=int, default=2, help="how many run side by side; else 2")
    parser.add_argument("--seconds", type=float, default=60.0, help="of a processor, for a solid")
    given = parser.parse_args(words)
    models = [
        model
        for model in all_models()
        if not given.wanted or {model.package, model.name} & set(given.wanted)
    ]
    rows: List[Row] = []
    began = time.monotonic()
    with ThreadPoolExecutor(given.jobs) as pool:
        for row in pool.map(lambda model: tried(model, given.seconds), models):
            rows.append(row)
            print(row.line(), flush=True)
            if not given.check:
                write(rows, given.seconds)
    for package in dict.fromkeys(row.package for row in rows):
        print(summed(package, rows))
    bad = sum(not row.good for row in rows)
    print(f"{time.monotonic() - began:.0f} seconds")
    print(f"{len(rows) - bad} passed, {bad} failed")
    return 1 if bad or not rows else 0


if __name__ == "__main__":
    sys.exit(main())
