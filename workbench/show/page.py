"""The page: all that is shown as data, in one file with the program that draws it."""
from __future__ import annotations

import html
import json
import os
from typing import Any, Dict, List, Optional, Sequence, Tuple

import numpy

from ..certificate import Step
from ..named import FEW, Parts, listing
from ..packages import install_line
from ..solid import Refusal
from .plans import Plan, Vector
from .scene import Part

HERE = os.path.join(os.path.dirname(os.path.abspath(__file__)), "page")
THREE = "/usr/share/javascript/three"
LIBRARIES = ("build/three.min.js", "examples/js/controls/OrbitControls.js")
MOVED = 12  # parts that a step moves that are named one by one


def data_of(
    title: str,
    parts: Sequence[Part],
    named: Parts,
    plan: Plan,
    rows: Sequence[Sequence[Vector]],
    view: Sequence[float],
    model: Optional[Dict[str, Any]],
) -> Dict[str, Any]:
    """What the page's program reads. model: what `./staat-cad pieces` tells of the parts, where there is such."""
    return {
        "title": title,
        "view": list(view),
        "parts": [part_data(part, name) for part, name in zip(parts, named.short)],
        "places": [[list(place) for place in row] for row in rows],
        "steps": [step_data(step, named) for step in plan.steps],
        "groups": [
            {
                "parts": group.parts,
                "words": words_of(group.parts, named),
                "holds": [vars(hold) for hold in group.holds],
            }
            for group in plan.groups
        ],
        "checks": [check._asdict() for check in plan.checks],
        "fault": plan.fault,
        "overlap": plan.overlap and plan.overlap._asdict(),
        "model": model,
        "bounds": bounds_of(model, named) if model else [],
    }


def words_of(some: Sequence[int], named: Parts, few: int = FEW) -> str:
    """Parts by their names; where they are not few, those that are the same are counted."""
    if len(some) <= few:
        return listing([named.short[part] for part in some])
    return named.called(some)


def step_data(step: Step, named: Parts) -> Dict[str, Any]:
    is_all = len(step.moved) + len(step.rest) == len(named.names)
    others = "all others" if is_all and len(step.rest) > 3 else words_of(step.rest, named)
    words = {"moved": words_of(step.moved, named, MOVED), "rest": others}
    return {"moved": step.moved, "along": step.along, "rest": step.rest, "words": words}


def bounds_of(model: Dict[str, Any], named: Parts) -> List[Dict[str, Any]]:
    """How near the pieces are to the parts, at most: a row for those that are the same."""
    parts = model["parts"]
    rows: Dict[Tuple[int, int], List[int]] = {}
    for number, part in enumerate(parts):
        rows.setdefault((named.kind(number), part["pieces"]), []).append(number)
    return [
        {
            "name": words_of(some, named, 1),
            "names": listing([named.names[number] for number in some]),
            "pieces": pieces,
            "over": max(parts[number]["over"] for number in some),
            "under": max(parts[number]["under"] for number in some),
        }
        for (_, pieces), some in rows.items()
    ]


def part_data(part: Part, name: str) -> Dict[str, Any]:
    return {
        "name": name,
        "colour": part.colour,
        "pieces": [{"points": plain(piece.points), "faces": piece.faces} for piece in part.pieces],
        "surface": [plain(polygon) for polygon in part.surface],
        "lines": plain(part.lines.reshape(-1, 3)),
    }


def plain(points: numpy.ndarray) -> List[List[float]]:
    """Numbers as short as they may be written."""
    return [
        [int(number) if number == int(number) else round(float(number), 3) for number in point]
        for point in points
    ]


def page(data: Dict[str, Any]) -> str:
    """The text of the page. Refusal: three.js is missing."""
    scripts = [read(os.path.join(THREE, name)) for name in LIBRARIES]
    scripts += [read(os.path.join(HERE, name)) for name in ("scene.js", "strip.js", "report.js")]
    told = json.dumps(data, ensure_ascii=False, separators=(",", ":")).replace("<", "\\u003c")
    text = read(os.path.join(HERE, "report.html"))
    put = {
        "TITLE": html.escape(data["title"]),
        "STYLE": read(os.path.join(HERE, "report.css")),
        "DATA": told,
        "SCRIPTS": "\n".join(f"<script>{shielded(script)}</script>" for script in scripts),
    }
    for name, value in put.items():
        text = text.replace(f"<!--{name}-->", value)
    return text


def shielded(script: str) -> str:
    """A script that no tag within it ends."""
    return script.replace("</script", "<\\/script")


def read(path: str) -> str:
    try:
        with open(path, encoding="utf-8") as file:
            return file.read()
    except OSError as fault:
        if path.startswith(THREE):
            raise Refusal(install_line("libjs-three")) from fault
        raise
