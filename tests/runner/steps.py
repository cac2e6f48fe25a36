"""The steps of `./test` besides the proofs: what each is called, its command, and what it needs."""

from __future__ import annotations

import os
import pathlib
import re
import subprocess
import sys
import time
from collections.abc import Collection
from dataclasses import dataclass

import scratch

TOP = scratch.TOP
PYTHON = sys.executable
SECONDS = 3600  # how long a step may take, where nothing else is said
TAIL = 60  # how many lines of a step that failed are printed

_COUNTS = re.compile(r"([0-9]+) passed, ([0-9]+) failed\b")


@dataclass(frozen=True)
class Step:
    """A command that runs at the top of the repository. `{program}` in its words is the path of the built program.

    Where its last line is `N passed, M failed` these are counted; else it is one test, which its status decides.
    is_quick: it runs in `./test quick`, too; is_named: it runs only where it is named; is_late: it waits until the
    proofs have ended, since it tells times, drives a browser, or looks at what they left; seconds: how long it may take
    """

    name: str
    command: tuple[str, ...]
    needs: tuple[str, ...] = ()
    needs_program: bool = True
    is_quick: bool = True
    is_named: bool = False
    is_late: bool = False
    seconds: int = SECONDS


@dataclass(frozen=True)
class Result:
    """How a step ended: its tests, its wall time in seconds, and what it printed."""

    name: str
    passed: int
    failed: int
    seconds: float
    text: str


def _python(script: str, *words: str) -> tuple[str, ...]:
    return (PYTHON, "-B", script, *words)


MODELS = (
    "c++",
    "cgal",
    "gmsh",
    "meshio",
    "numpy",
    "openscad",
    "prlimit",
    "scipy",
    "tqdm",
)  # what ./staat-cad and its examples need
SHOW = ("chromedriver", "chromium", "numpy", "selenium", "three")  # what ./staat-cad show needs

# The longest first: they run side by side.
STEPS = (
    Step("memory", _python("tools/refuse_memory.py", "{program}"), ("cc",)),
    Step("checkers", _python("tools/compare_checkers.py", "--program={program}", "--broken=1000")),
    Step("short", _python("tools/compare_short.py", "--program={program}", "--broken=400")),
    Step("planners", _python("tools/compare_planners.py", "--program={program}", "--made=400")),
    Step(
        "shelves",  # it runs a second program, which may be built behind the first
        _python("tools/compare_shelves.py", "{program}"),
        ("cc",),
        is_quick=False,
        is_late=True,
    ),
    Step(
        "pages",
        _python("tests/runner/pages.py", "{program}"),
        (*MODELS, *SHOW, "as1"),
        is_late=True,
    ),
    Step(
        "show",
        _python("tests/runner/units.py", "workbench/tests/show"),
        (*SHOW, "assimp", "blender", "scipy"),
        is_quick=False,
        is_late=True,
    ),
    Step(
        "workbench",
        _python("tests/runner/units.py", "workbench/tests/quick"),
        (*MODELS, "geomview"),
        is_late=True,
    ),
    Step("transcripts", _python("tests/runner/transcripts.py", "{program}")),
    Step("gallery", _python("gallery/run", "{program}")),
    Step(
        "reports",
        _python("gallery/run", "--reports", "{program}"),
        (*MODELS, *SHOW, "as1"),
        is_quick=False,
        is_late=True,
    ),
    Step("readings", _python("tools/compare_readings.py", "{program}")),
    Step("large files", _python("tools/most_memory.py", "{program}")),
    Step("tools", _python("tests/runner/units.py", "tools"), ("cc",)),
    Step("runner", _python("tests/runner/units.py", "tests/runner"), needs_program=False),
    Step("bench", _python("tests/runner/units.py", "bench"), ("cc",), needs_program=False),
    Step("guards", _python("tools/guards.py", "--check"), needs_program=False),
    Step("manual", _python("tools/manual.py", "--check"), needs_program=False),
    Step("layers", _python("tools/layers.py", "--check"), needs_program=False),
    Step("copies", _python("tools/copies.py", "--check"), needs_program=False),
    Step("links", _python("tests/runner/links.py"), needs_program=False),
    Step(
        "models",
        _python("tests/runner/units.py", "workbench/tests/packaged"),
        (*MODELS, "as1", "cgal meshes", "geomview"),
        is_quick=False,
        is_late=True,
    ),
    Step(
        "more models",
        _python("tests/runner/units.py", "workbench/tests/long"),
        (*MODELS, "as1", "blender", "cgal meshes", "freecad", "geomview"),
        is_quick=False,
        is_named=True,
        is_late=True,
        seconds=3 * SECONDS,
    ),
    Step(
        "all models",
        _python("-m", "workbench.tests.tried", "--check"),
        (*MODELS, "as1", "cgal meshes", "chips", "geomview"),
        needs_program=False,
        is_quick=False,
        is_named=True,
        is_late=True,
        seconds=12 * SECONDS,
    ),
    Step(
        "stored program",
        _python("tools/compare_program.py", "{program}"),
        is_quick=False,
        is_late=True,
    ),
)


def chosen(names: Collection[str], is_quick: bool) -> list[Step]:
    """The steps that are named; where none is, all of `./test` or of `./test quick`."""
    if names:
        return [step for step in STEPS if step.name in names]
    return [step for step in STEPS if step.is_quick >= is_quick and not step.is_named]


def counts(text: str, status: int) -> tuple[int, int]:
    """How many tests passed and failed, by the last line of what was printed and by the status."""
    found = _COUNTS.match(text.rstrip("\n").rpartition("\n")[2])
    passed, failed = (int(found.group(1)), int(found.group(2))) if found else (int(status == 0), 0)
    return passed, max(failed, int(status != 0), int(passed == 0))


def run(step: Step, program: pathlib.Path | None, missing: Collection[str]) -> Result:
    """Runs a step. It counts as one that failed where there is no program, or where something it needs is missing."""
    lacking = [need for need in step.needs if need in missing] + ["the built program"] * (
        step.needs_program and not program
    )
    if lacking:
        return Result(step.name, 0, 1, 0, f"cannot run: missing {', '.join(lacking)}")
    words = [word.replace("{program}", str(program)) for word in step.command]
    setting = {**scratch.environment(), "STAAT": str(program)}
    began = time.monotonic()
    try:
        done = subprocess.run(
            words,
            cwd=TOP,
            env=setting,
            stdin=subprocess.DEVNULL,
            stdout=subprocess.PIPE,
            stderr=subprocess.STDOUT,
            encoding="utf-8",
            errors="replace",
            timeout=step.seconds,
            check=False,
        )
        status, text = done.returncode, done.stdout
    except (OSError, subprocess.TimeoutExpired) as why:
        status, text = -1, str(why)
    return Result(step.name, *counts(text, status), time.monotonic() - began, text)


def report(result: Result) -> str:
    """The line of a step that ended, behind the last lines that it printed where something failed."""
    line = f"{result.name}: {result.passed} passed, {result.failed} failed, {result.seconds:.0f} seconds"
    if not result.failed:
        return line
    tail = result.text.rstrip("\n").split("\n")[-TAIL:]
    return "\n".join([f"== {result.name}", *tail, line])


def is_older(program: pathlib.Path) -> bool:
    """Whether a source of the crates is newer than the program."""
    built = program.stat().st_mtime
    for folder, folders, files in os.walk(TOP / "crates"):
        folders[:] = [name for name in folders if name != "out"]
        if any(os.stat(os.path.join(folder, name)).st_mtime > built for name in files):
            return True
    return False
