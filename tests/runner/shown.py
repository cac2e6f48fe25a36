"""What a page or a transcript shows of a command, against what the command printed."""

from __future__ import annotations

import difflib
import re
from collections.abc import Sequence

LEFT_OUT = "..."

_STATUS = re.compile(r"\s+# status ([0-9]{1,3})$")


def split_status(command: str) -> tuple[str, int]:
    """The command without the note `# status N` behind it, and N; 0 where there is no note."""
    note = _STATUS.search(command)
    return (command[: note.start()], int(note.group(1))) if note else (command, 0)


def lines_of(text: str) -> list[str]:
    """The lines of a printed text. A text whose last line has no newline ends in a line that says so."""
    lines = text.split("\n")
    return lines[:-1] if lines[-1] == "" else [*lines, "(no newline at the end)"]


def agrees(shown: Sequence[str], got: Sequence[str]) -> bool:
    """Whether the lines are those that are shown, where `...` stands for any number of lines."""
    runs: list[list[str]] = [[]]
    for line in shown:
        if line == LEFT_OUT:
            runs.append([])
        else:
            runs[-1].append(line)
    if len(runs) == 1:
        return list(shown) == list(got)
    first, last = runs[0], runs[-1]
    at, end = len(first), len(got) - len(last)
    if at > end or list(got[:at]) != first or list(got[end:]) != last:
        return False
    for run in runs[1:-1]:
        place = _place(run, got, at, end)
        if place is None:
            return False
        at = place + len(run)
    return True


def _place(run: list[str], got: Sequence[str], least: int, end: int) -> int | None:
    """The first place from `least` on at which the run stands and ends before `end`."""
    for place in range(least, end - len(run) + 1):
        if all(line == got[place + k] for k, line in enumerate(run)):
            return place
    return None


def difference(shown: Sequence[str], got: Sequence[str]) -> str:
    """The lines that differ, at most 40 of them: `-` is shown, `+` was printed."""
    told = list(difflib.unified_diff(list(shown), list(got), "shown", "printed", lineterm="", n=1))
    return "\n".join(told[2:42])
