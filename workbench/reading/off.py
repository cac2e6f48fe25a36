"""Geomview's Object File Format in the variants that are met: any header or none, in braces, with colours."""
from __future__ import annotations

import os
import re
from typing import List, Tuple

from ..solid import Refusal

Rows = Tuple[List[List[float]], List[List[int]]]


def read_off(data: bytes) -> Rows:
    """The points, as rows of three numbers, and the faces, as lists of the numbers of their corners.

    Refusal: points of other than three coordinates, binary files, missing or bad numbers.
    """
    text = re.sub("#[^\n]*", "", data.decode("latin-1"))
    prefix, text = header_of(text)
    counts = re.match(r"\s*(\d+)\s+(\d+)(?:[ \t]+\d+)?", text)
    if not counts:
        raise Refusal("no counts behind the header")
    many_points, many_faces = int(counts.group(1)), int(counts.group(2))
    try:
        behind = counts.end()
        points, lines = points_of(text[behind:], prefix, many_points)
        faces = [face_of(line, number) for number, line in enumerate(lines[:many_faces])]
    except (AttributeError, ValueError, IndexError) as fault:
        raise Refusal("a number is missing or is none") from fault
    if (
        len(points) < many_points
        or len(faces) < many_faces
        or any(len(point) < 3 for point in points)
    ):
        raise Refusal("the file ends too early")
    return points, faces


def read_off_file(path: str) -> Rows:
    """The same of a file. Refusal: also where it cannot be read; it names the file."""
    try:
        with open(path, "rb") as file:
            return read_off(file.read())
    except OSError as fault:
        raise Refusal(f"cannot read {path}: {fault.strerror}") from fault
    except Refusal as fault:
        raise Refusal(f"{os.path.basename(path)}: {fault}") from fault


def header_of(text: str) -> Tuple[str, str]:
    """The prefix of the header word, and what follows."""
    header = re.search(r"(?<!\S)\{?\s*((?:ST)?C?N?)(4?)(n?)OFF(?!\S)", text)
    if not header:
        if re.match(r"\s*\d+\s+\d+\s+\d+\s", text):
            return "", text
        raise Refusal("no mesh that can be read (STEP, STL, OBJ, PLY, 3MF, OFF or a part list)")
    prefix, four, many = header.groups()
    if four or many:
        raise Refusal("points of other than three coordinates")
    behind = header.end()
    if re.match(r"\s*BINARY", text[behind:]):
        raise Refusal("binary OFF is not read; export it as text, or as STL, OBJ or PLY")
    return prefix, text[behind:]


def points_of(text: str, prefix: str, many: int) -> Tuple[List[List[float]], List[str]]:
    """The points, and the lines of the faces behind them."""
    if prefix:  # the numbers of a colour are three or four, so only lines tell points apart
        lines = [line for line in text.split("\n") if line.strip()]
        return [[float(word) for word in line.split()[:3]] for line in lines[:many]], lines[many:]
    words, points, at = re.compile(r"\s*(\S+)\s+(\S+)\s+(\S+)\s+"), [], 0
    for _ in range(many):
        found = words.match(text, at)
        if not found:
            raise ValueError
        points.append([float(word) for word in found.groups()])
        at = found.end()
    return points, [line for line in text[at:].split("\n") if line.strip()]


def face_of(line: str, number: int) -> List[int]:
    words = line.split()
    end = 1 + int(words[0])
    corners = [int(word) for word in words[1:end]]
    if len(corners) != int(words[0]):
        raise Refusal(f"face {number} has fewer corners than it says")
    return corners
