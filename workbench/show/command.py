"""The command `show`: from a part list to the page, the glTF file, and the pictures and the page for paper."""
from __future__ import annotations

import os
import sys
from dataclasses import dataclass
from fractions import Fraction
from typing import Any, Dict, List, Optional

from ..answers import Told
from ..named import Parts, model_of, read_parts
from ..planner import Place, place_of
from ..reading.lists import read_list
from ..solid import Refusal
from ..surfaces import read_surfaces
from . import answers, browser
from .gltf import glb
from .page import data_of, page
from .plans import Plan, Vector, places
from .scene import Part, as_drawn, parts_of
from .travel import travels
from .views import looked_from

REPORT, PRODUCT, STRIP, PAPER = "report.html", "product.glb", "steps.png", "report.pdf"
SHOWN = (REPORT, PRODUCT, STRIP, PAPER)
OVERLAPPED = 1  # the status where parts overlap
REFUSED = 3  # the status where staat has no answer
METRES = {"mm": 0.001, "cm": 0.01, "dm": 0.1, "m": 1.0, "in": 0.0254, "inch": 0.0254, "ft": 0.3048}


@dataclass(frozen=True)
class Shown:
    """What the files are made from.

    rows: where the parts stand before the first step, and after each
    model: what `./staat-cad pieces` tells of the parts, where there is such
    """

    title: str
    parts: List[Part]
    plan: Plan
    rows: List[List[Vector]]
    named: Parts
    model: Optional[Dict[str, Any]] = None

    @property
    def metres(self) -> float:
        """How long a step of the grid is; where no unit is known, such that the product is a metre long."""
        if self.model and METRES.get(str(self.model["unit"]).lower()):
            return METRES[str(self.model["unit"]).lower()] * float(Fraction(self.model["grid"]))
        boxes = [part.box for part in self.parts]
        sizes = [
            max(box.high[k] for box in boxes) - min(box.low[k] for box in boxes) for k in range(3)
        ]
        return 1.0 / max(sizes)


def show(given: str, out: Optional[str], told: Optional[Told] = None, is_told: bool = False) -> int:
    """Writes the files for a folder or a part list; the status: 1 where parts overlap, 3 where there is no answer.

    The product is shown in any case. told: the answer, where it is known; is_told: why there is none was said already.
    Refusal: one of the files cannot be made.
    """
    place = place_of(given)
    folder = out or place.beside
    shown = shown_of(place, told)
    if shown.plan.fault and not is_told:
        print(f"staat-cad: {shown.plan.fault}", file=sys.stderr)
    write_files(shown, folder)
    with browser.chromium() as driver:
        browser.open_page(driver, os.path.join(folder, REPORT))
        write(folder, STRIP, browser.strip(driver))
        write(folder, PAPER, browser.paper(driver))
    if shown.plan.overlap:
        return OVERLAPPED
    return REFUSED if shown.plan.fault else 0


def write_files(shown: Shown, folder: str) -> None:
    """Writes the page and the glTF file. Refusal: three.js is missing, or they cannot be written."""
    view = looked_from([part.box for part in shown.parts], shown.rows)
    data = data_of(shown.title, shown.parts, shown.named, shown.plan, shown.rows, view, shown.model)
    write(folder, REPORT, page(data).encode())
    write(folder, PRODUCT, glb(shown.parts, shown.rows, shown.title, shown.metres))


def shown_of(place: Place, told: Optional[Told] = None) -> Shown:
    """What is shown of a part list: the answer of `staat`, which may be known already.

    Refusal: the list cannot be read, or `staat confirm` does not call the answer valid.
    """
    named = read_parts(place)
    parts = parts_of(read_list(place.path))
    plan = answers.ask_plan(place, named, told)
    rows = places(plan, travels(plan, [part.box for part in parts]), len(parts))
    model = model_of(place, named.names)
    if model:
        meshes = read_surfaces(place.beside, named.names)
        parts = as_drawn(parts, meshes, 1 / float(named.grid)) if meshes else parts
    return Shown(title_of(place, model), parts, plan, rows, named, model)


def title_of(place: Place, model: Optional[Dict[str, Any]]) -> str:
    """The name of the file of the model, where it is one; else that of the folder of the list."""
    models = (model or {}).get("models", [])
    if len(models) == 1:
        return str(os.path.splitext(models[0])[0])
    return os.path.basename(os.path.abspath(place.beside))


def write(folder: str, name: str, data: bytes) -> None:
    """Writes a file whole or not at all, and says so. Refusal: it cannot be written."""
    path = os.path.join(folder, name)
    try:
        os.makedirs(folder, exist_ok=True)
        with open(path + ".part", "wb") as file:
            file.write(data)
        os.replace(path + ".part", path)
    except OSError as fault:
        raise Refusal(f"cannot write to {folder}: {fault.strerror}") from fault
    print(f"written {path}")
