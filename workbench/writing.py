"""The files that are written: an OFF file for each piece, the part list, and what is known of the parts."""
from __future__ import annotations

import json
import os
from typing import Any, Dict, List, Sequence, Tuple

from .solid import Piece, Refusal

LIST = "parts.json"
MODEL = "model.json"


def off_text(piece: Piece) -> str:
    lines = ["OFF", f"{len(piece.points)} {len(piece.faces)} 0"]
    lines += [" ".join(str(int(number)) for number in point) for point in piece.points]
    lines += [" ".join(map(str, [len(face), *face])) for face in piece.faces]
    return "\n".join(lines) + "\n"


def file_stem(name: str) -> str:
    """The name of a part as that of a file, without folders and at most 180 bytes long."""
    stem = name.replace(os.sep, "_").replace("\0", "_").lstrip(".") or "part"
    while len(stem.encode()) > 180:
        stem = stem[:-1]
    return stem


class Output:
    """The files of a folder, with names relative to it. All are collected first, and then written together."""

    def __init__(self, folder: str, inputs: Sequence[str]) -> None:
        self.folder = folder
        self.kept = {os.path.realpath(path) for path in inputs}
        self.texts: Dict[str, str] = {}
        self.listed: List[Dict[str, Any]] = []

    def part(self, name: str, pieces: Sequence[Tuple[str, Piece]]) -> None:
        """Adds a part with its pieces, each with a tag that tells it from the others."""
        files = []
        for tag, piece in pieces:
            stem = file_stem(name if len(pieces) == 1 else f"{name}-{tag}")
            while f"{stem}.off" in self.texts:
                stem += "-again"
            self.add(f"{stem}.off", off_text(piece))
            files.append(f"{stem}.off")
        self.listed.append({"name": name, "pieces": files})

    def add(self, file: str, text: str) -> None:
        path = os.path.join(self.folder, file)
        if os.path.realpath(path) in self.kept:
            raise Refusal(f"{path} is read, so it is not written; give another --out")
        self.texts[file] = text

    def write(self, model: Dict[str, Any]) -> str:
        """Writes all of it; the path of the part list. Refusal: it cannot be written."""
        self.add(LIST, json.dumps({"parts": self.listed}, indent=1, ensure_ascii=False) + "\n")
        self.add(MODEL, json.dumps(model, indent=1, ensure_ascii=False) + "\n")
        try:
            os.makedirs(self.folder, exist_ok=True)
            for file, text in self.texts.items():
                with open(os.path.join(self.folder, file), "w", encoding="utf-8") as output:
                    output.write(text)
        except OSError as fault:
            raise Refusal(f"cannot write to {self.folder}: {fault.strerror}") from fault
        return os.path.join(self.folder, LIST)
