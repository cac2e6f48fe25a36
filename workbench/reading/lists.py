"""Part lists of `staat`, by the rules of docs/FORMATS.md, with lines that name what is wrong."""
from __future__ import annotations

import json
import os
from dataclasses import dataclass
from typing import Any, List, Tuple

from ..solid import GREATEST, Refusal


@dataclass
class Listed:
    """A part of a list: its name, the files of its pieces, and the vector by which they are moved."""

    name: str
    files: List[str]
    at: Tuple[int, int, int]


def read_list(path: str) -> List[Listed]:
    """The parts of a list; its files are found beside it or in the working folder. Refusal names the list."""
    try:
        with open(path, encoding="utf-8") as file:
            value = json.load(file)
    except OSError as fault:
        raise Refusal(f"cannot read {path}: {fault.strerror or fault}") from fault
    except ValueError as fault:
        raise Refusal(f"{path}: not JSON ({fault})") from fault
    if (
        not isinstance(value, dict)
        or not isinstance(value.get("parts"), list)
        or not value["parts"]
    ):
        raise Refusal(
            f'{path}: no part list, which is an object with a member "parts", an array of parts'
        )
    known(path, "the list", value, ("parts",))
    return [listed(path, number, part) for number, part in enumerate(value["parts"])]


def known(path: str, where: str, value: Any, names: Tuple[str, ...]) -> None:
    for name in value:
        if name not in names:
            raise Refusal(
                f'{path}: {where} has a member "{name}"; staat knows only {", ".join(names)}'
            )


def listed(path: str, number: int, part: Any) -> Listed:
    where = f"part {number}"
    if not isinstance(part, dict):
        raise Refusal(f"{path}: {where} is no object")
    known(path, where, part, ("name", "pieces", "at"))
    name, pieces, at = part.get("name"), part.get("pieces"), part.get("at", [0, 0, 0])
    if not isinstance(name, str) or not name or any(ord(letter) < 32 for letter in name):
        raise Refusal(
            f'{path}: the "name" of {where} is no text, or has a line end or the like in it'
        )
    if (
        not isinstance(pieces, list)
        or not pieces
        or not all(isinstance(file, str) and file for file in pieces)
    ):
        raise Refusal(f'{path}: the "pieces" of {where} are no array of names of files')
    whole = (
        isinstance(at, list)
        and len(at) == 3
        and all(type(n) is int and abs(n) <= GREATEST for n in at)
    )
    if not whole:
        raise Refusal(
            f'{path}: the "at" of {where} is no array of three whole numbers up to {GREATEST}'
        )
    return Listed(name, [found(path, file) for file in pieces], (at[0], at[1], at[2]))


def found(path: str, file: str) -> str:
    """The file where it stands: beside the list, else in the working folder."""
    beside = os.path.join(os.path.dirname(path), file)
    if os.path.exists(beside) or not os.path.exists(file):
        return beside
    return file
