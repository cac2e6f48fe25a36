"""How much processor time the proofs, the tests and the wrong bodies of each crate take while `rt ci` runs.

`rt ci` tells no times. Each of its checks is a process `rattle`, whose words name the crate, and whose processor time
the system tells in /proc. They are looked at once a second; what a process uses after the last look is not seen, and
counts as the rest.
"""

from __future__ import annotations

import collections
import os
import pathlib
import threading
from dataclasses import dataclass

KINDS = ("proofs", "tests", "edits")

_PROCESS = "rattle"
_SLOWEST = 5  # how many are named as the slowest
_DEAREST = 12  # how many wrong bodies are named as the dearest


@dataclass(frozen=True)
class Seen:
    """A process at one look: its crate, kind and folder, and the processor seconds that it used so far."""

    crate: str
    kind: str
    place: str
    seconds: float


@dataclass(frozen=True)
class Status:
    """What /proc/PID/stat says: the parent, the clock tick of the start, and the ticks of processor time."""

    parent: int
    start: int
    ticks: int


def _status(folder: pathlib.Path) -> Status:
    # the name of the program stands in brackets, and may hold anything
    fields = (
        (folder / "stat").read_text(encoding="utf-8", errors="replace").rpartition(")")[2].split()
    )
    return Status(int(fields[1]), int(fields[19]), int(fields[11]) + int(fields[12]))


def _kind(words: list[str], folder: str) -> str:
    if os.path.basename(folder).startswith("rt-edit"):
        return "edits"
    return "tests" if "--test" in words else "proofs"


class Sampler:
    """Looks at the processes below one process, which is named by its number."""

    def __init__(
        self,
        top: int,
        proc: pathlib.Path = pathlib.Path("/proc"),
        ticks: int = os.sysconf("SC_CLK_TCK"),
    ):
        self._top, self._proc, self._ticks = top, proc, ticks
        self._seen: dict[tuple[int, int], Seen] = {}
        self._ended = threading.Event()

    def look(self) -> None:
        """Looks once at all processes."""
        statuses: dict[int, Status] = {}
        for folder in self._proc.iterdir():
            if folder.name.isdigit():
                try:
                    statuses[int(folder.name)] = _status(folder)
                except (OSError, ValueError, IndexError):
                    continue
        for process, status in statuses.items():
            if self._is_below(process, statuses):
                self._note(process, status)

    def _is_below(self, process: int, statuses: dict[int, Status]) -> bool:
        passed: set[int] = set()
        while process in statuses and process not in passed:
            if process == self._top:
                return True
            passed.add(process)
            process = statuses[process].parent
        return False

    def _note(self, process: int, status: Status) -> None:
        folder = self._proc / str(process)
        try:
            words = (folder / "cmdline").read_bytes().decode(errors="replace").split("\0")
            place = os.readlink(folder / "cwd")
        except OSError:
            return
        if os.path.basename(words[0]) == _PROCESS and "--crate-name" in words[:-1]:
            crate = words[words.index("--crate-name") + 1]
            self._seen[process, status.start] = Seen(
                crate, _kind(words, place), place, status.ticks / self._ticks
            )

    def run(self) -> None:
        """Looks once a second until `end` is called."""
        while not self._ended.wait(1):
            self.look()

    def end(self) -> None:
        """Ends `run`."""
        self._ended.set()

    def seconds(self) -> dict[tuple[str, str], float]:
        """The processor seconds of each crate and kind."""
        sums: dict[tuple[str, str], float] = collections.defaultdict(float)
        for seen in self._seen.values():
            sums[seen.crate, seen.kind] += seen.seconds
        return dict(sums)

    def edits(self) -> dict[str, list[float]]:
        """The processor seconds of each check of a wrong body, by crate, in the order in which they began.

        Each has a folder of its own, where more than one process may be at work for it.
        """
        checks: dict[tuple[str, str], float] = collections.defaultdict(float)
        for _, seen in sorted(self._seen.items(), key=lambda it: (it[0][1], it[0][0])):
            if seen.kind == "edits":
                checks[seen.crate, seen.place] += seen.seconds
        found: dict[str, list[float]] = collections.defaultdict(list)
        for (crate, _), seconds in checks.items():
            found[crate].append(seconds)
        return dict(found)


def names_of_edits(top: pathlib.Path, crate: str) -> list[str]:
    """The names of a crate's wrong bodies, in the order in which `rt ci` tries them."""
    return sorted(it.stem for it in (top / "crates" / crate / "must-fail").glob("*.edit"))


def dearest(edits: dict[str, list[float]], top: pathlib.Path) -> list[str]:
    """A line that names the dearest wrong bodies, with their processor seconds.

    Over the check of the first of several, `rt ci` keeps the proof of the whole crate for the others: it is not named.
    A check behind that of the last, which tries the crate without any, is not named either.
    """
    tried = [
        (seconds, f"{crate}/{name}")
        for crate, taken in edits.items()
        for name, seconds in list(zip(names_of_edits(top, crate), taken))[len(taken) > 1 :]
    ]
    told = ", ".join(
        f"{name} {seconds:.0f}" for seconds, name in sorted(tried)[: -_DEAREST - 1 : -1]
    )
    return [f"dearest wrong bodies, seconds: {told}"] if told else []


def table(seconds: dict[tuple[str, str], float], total: float) -> list[str]:
    """The lines of a table of processor minutes by crate, the longest first; `total` is in seconds, with the rest."""
    crates = sorted(
        {crate for crate, _ in seconds},
        key=lambda crate: -sum(seconds.get((crate, k), 0) for k in KINDS),
    )
    width = max([len(crate) for crate in crates] + [len("processor minutes")])
    lines = [f"{'processor minutes':{width}}" + "".join(f"{kind:>8}" for kind in KINDS)]
    for crate in crates:
        lines.append(
            f"{crate:{width}}"
            + "".join(f"{seconds.get((crate, kind), 0) / 60:8.1f}" for kind in KINDS)
        )
    sums = [sum(it for (_, kind), it in seconds.items() if kind == wanted) for wanted in KINDS]
    lines.append(f"{'all':{width}}" + "".join(f"{it / 60:8.1f}" for it in sums))
    lines.append(f"{'the rest':{width}}{max(total - sum(sums), 0) / 60:8.1f}")
    slowest = sorted(seconds.items(), key=lambda it: -it[1])[:_SLOWEST]
    told = ", ".join(f"{kind} of {crate} {it / 60:.1f}" for (crate, kind), it in slowest)
    return [*lines, f"slowest: {told}"] if slowest else lines
