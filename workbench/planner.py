"""The planner `staat`: where it is, and how it is run where the names of files in a part list hold."""
from __future__ import annotations

import json
import os
import subprocess
from dataclasses import dataclass
from typing import List, Optional, Sequence

from .solid import Refusal
from .writing import LIST

TOP = os.path.dirname(os.path.dirname(os.path.abspath(__file__)))
PLACES = ("bin/staat", "crates/staat_cli/out/staat_cli")


@dataclass(frozen=True)
class Place:
    """A part list, by its path from the folder in which its names of files hold."""

    folder: str
    listed: str = LIST

    @property
    def path(self) -> str:
        return os.path.join(self.folder, self.listed)

    @property
    def beside(self) -> str:
        """The folder in which the list stands."""
        return os.path.dirname(self.path) or "."


def place_of(given: str) -> Place:
    """The place of the list that is named, or of the one in the folder that is named.

    Its names of files hold beside the list, or else where one is. What cannot be read is told by who reads it.
    """
    listed = os.path.join(given, LIST) if os.path.isdir(given) else given
    folder, name = os.path.split(listed)
    try:
        with open(listed, encoding="utf-8") as file:
            first = json.load(file)["parts"][0]["pieces"][0]
        if os.path.exists(first) and not os.path.exists(os.path.join(folder, first)):
            return Place(".", listed)
    except (OSError, ValueError, KeyError, IndexError, TypeError):
        pass
    return Place(folder or ".", name)


def must_be(place: Place) -> None:
    """Refusal: there is no such part list."""
    if not os.path.isfile(place.path):
        raise Refusal(
            f"{place.beside} holds no {os.path.basename(place.path)}; "
            f"./staat-cad pieces MODEL.. --out={place.beside} writes one"
        )


def program() -> Optional[str]:
    """A program that is built: that of the variable STAAT, else one of the repository; nothing where there is none."""
    named = os.environ.get("STAAT")
    if named:
        return os.path.abspath(named)
    paths = [os.path.join(TOP, place) for place in PLACES]
    return next((path for path in paths if os.access(path, os.X_OK)), None)


def run(folder: str, command: str, words: List[str]) -> int:
    """Runs a command of `./staat`, which is built first if need be, on the part list of a folder. Its status.

    Refusal: there is no part list, or the command cannot be run.
    """
    place = Place(folder)
    must_be(place)
    staat = os.environ.get("STAAT") or os.path.join(TOP, "staat")
    try:
        return subprocess.run(
            words_of(os.path.abspath(staat), place, [command, *words]), cwd=folder, check=False
        ).returncode
    except OSError as fault:
        raise Refusal(f"cannot run {staat}: {fault.strerror}") from fault


def words_of(staat: str, place: Place, words: Sequence[str]) -> List[str]:
    return [staat, *words, f"--manifest={place.listed}"]


def look(folder: str) -> Optional[subprocess.CompletedProcess[str]]:
    """What a built program's `look` says of the part list of a folder; nothing where none is built."""
    built = program()
    if built is None:
        return None
    words = words_of(built, Place(folder), ["look"])
    return subprocess.run(words, cwd=folder, check=False, capture_output=True, text=True)
