"""Wavefront OBJ: the lines `v` and `f`, and the names of `o` and `g`. All else is passed over."""
from __future__ import annotations

from typing import Dict, List, Tuple

from ..solid import Refusal

Named = Tuple[List[List[float]], Dict[str, List[List[int]]]]


def read_obj(data: bytes) -> Named:
    """The points, and for each name the faces that stand under it, in the order of the file.

    A corner may have the number of a normal and of a place in a picture behind it (`7/1/3`), and may be counted from
    the last point backwards (`-1`). Refusal: a number that is none, or the number of no point.
    """
    points: List[List[float]] = []
    faces: Dict[str, List[List[int]]] = {}
    name = ""
    text = data.decode("utf-8", "replace").replace("\\\r\n", " ").replace("\\\n", " ")
    for number, line in enumerate(text.split("\n"), 1):
        words = line.split("#")[0].split()
        if not words:
            continue
        try:
            if words[0] == "v":
                points.append([float(word) for word in words[1:4]])
            elif words[0] == "f":
                faces.setdefault(name, []).append(
                    [corner_of(word, len(points)) for word in words[1:]]
                )
            elif words[0] in ("o", "g"):
                name = " ".join(words[1:])
        except ValueError as fault:
            raise Refusal(f"line {number}: {fault}") from fault
    return points, faces


def corner_of(word: str, many: int) -> int:
    """The number, from 0, of the point that a corner names, of which `many` are known."""
    number = int(word.split("/")[0])
    if number == 0:
        raise ValueError("a corner has the number 0, and points count from 1")
    return number - 1 if number > 0 else many + number
