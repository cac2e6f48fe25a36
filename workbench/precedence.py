"""Which orders the steps along one direction allow, as a picture: a file of Graphviz, drawn where `dot` is there."""
from __future__ import annotations

import json
import os
import shutil
import subprocess
from typing import List, Sequence

from .ordering import Run
from .named import Parts
from .solid import Refusal

GRAPH, PICTURE = "order.dot", "order.svg"
SECONDS = 60  # that drawing may take


def graph_of(runs: Sequence[Run], parts: Parts) -> str:
    """The text of the graph, a box of Graphviz for each run; empty where no order among the steps of a run is told.

    An arrow leads from what leaves first to what leaves behind it. What follows from other arrows is left out.
    """
    boxes = [box_of(number, run, parts) for number, run in enumerate(runs)]
    if not any(boxes):
        return ""
    lines = [line for box in boxes for line in box]
    return "\n".join(["digraph order {", " rankdir=LR", " node [shape=box]", *lines, "}", ""])


def box_of(number: int, run: Run, parts: Parts) -> List[str]:
    """The lines for a run: the parts that it moves, and which of them leave before which; none where all orders do."""
    pairs = [(one, other) for one, other in run.before if run.moves(one) and run.moves(other)]
    if not pairs:
        return []
    last = run.first + len(run.steps)
    title = f"steps {run.first + 1} to {last} along {parts.direction(run.along)}"
    lines = [f" subgraph cluster_{number} {{", f"  label={json.dumps(title, ensure_ascii=False)}"]
    for unit in sorted({unit for pair in pairs for unit in pair}):
        name = json.dumps(parts.called(run.units[unit]), ensure_ascii=False)
        lines.append(f"  r{number}u{unit} [label={name}]")
    lines += [f"  r{number}u{one} -> r{number}u{other}" for one, other in pairs]
    return [*lines, " }"]


def write_graph(folder: str, text: str) -> List[str]:
    """Writes the graph, and the picture where Graphviz is there; their paths. What is there of an earlier call goes.

    Refusal: they cannot be written, or Graphviz cannot draw the graph.
    """
    graph, picture = os.path.join(folder, GRAPH), os.path.join(folder, PICTURE)
    try:
        for path in (graph, picture):
            if os.path.exists(path):
                os.remove(path)
        if not text:
            return []
        with open(graph, "w", encoding="utf-8") as file:
            file.write(text)
    except OSError as fault:
        raise Refusal(f"cannot write to {folder}: {fault.strerror}") from fault
    return [graph, picture] if drawn(graph, picture) else [graph]


def drawn(graph: str, picture: str) -> bool:
    """Whether there was a program to draw it. Refusal: it ended otherwise than it should."""
    dot = shutil.which("dot")
    if dot is None:
        return False
    try:
        done = subprocess.run(
            [dot, "-Tsvg", "-o", picture, graph],
            capture_output=True,
            text=True,
            check=False,
            timeout=SECONDS,
        )
    except (OSError, subprocess.TimeoutExpired) as fault:
        raise Refusal(f"Graphviz cannot draw {graph}: {fault}") from fault
    if done.returncode:
        raise Refusal(f"Graphviz cannot draw {graph}: {done.stderr.strip()}")
    return True
