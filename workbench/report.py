"""A checked answer in the words of the model: lines for people, and `plan.json` for programs."""
from __future__ import annotations

import json
import os
import shlex
from typing import Any, Dict, Iterator, List, Sequence, Tuple

import numpy

from .answers import ASKED
from .certificate import Answer, Group, Step, Vector
from .grids import short
from .named import Parts, counted
from .ordering import Run
from .overlapping import Clash
from .overlapping import data_of as clashes_data
from .planner import Place
from .solid import Refusal

PLAN, CERTIFICATE = "plan.json", "plan.cert"
APART, BUT, OVERLAP = "comes apart", "comes apart but for these groups", "parts overlap"
STEEP = 0.7  # a step whose unit vector has more than this upwards is lifted


def opposite(along: Vector) -> Vector:
    x, y, z = along
    return (-x, -y, -z)


def verb(along: Vector, parts: Parts) -> str:
    up = parts.unit_vector(along)[2]
    return "lift" if up > STEEP else "lower" if up < -STEEP else "slide"


def many_of(many: int, word: str) -> str:
    return f"{many} {word}" if many == 1 else f"{many} {word}s"


def verdict(answer: Answer) -> str:
    return BUT if answer.groups else APART


def clear_after(step: Step, parts: Parts) -> float:
    """How far a step leads, at most, until the boxes of the parts that it moves and of the others are apart.

    In steps of the grid, of what has not been taken apart before: of all boxes of two parts the last to part.
    """
    along = numpy.array(step.along, dtype=float)
    along /= numpy.linalg.norm(along)
    low, high = (numpy.array(rows, dtype=float) for rows in zip(*parts.boxes))
    moved, rest = list(step.moved), list(step.rest)
    # Box by box and axis by axis: from when to when the moved one is over the other.
    behind, ahead = low[rest][None] - high[moved][:, None], high[rest][None] - low[moved][:, None]
    with numpy.errstate(divide="ignore", invalid="ignore"):
        starts, ends = numpy.sort([behind / along, ahead / along], axis=0)
    still = numpy.broadcast_to(numpy.abs(along) < 1e-9, starts.shape)
    over = (behind < 0) & (ahead > 0)
    starts = numpy.where(still, numpy.where(over, -numpy.inf, numpy.inf), starts).max(axis=2)
    ends = numpy.where(still, numpy.where(over, numpy.inf, -numpy.inf), ends).min(axis=2)
    return max(0.0, float(numpy.where(starts < ends, ends, 0.0).max()))


# Lines for people


def lines_of(answer: Answer, parts: Parts) -> List[str]:
    """What comes first: the answer, and which parts are the same."""
    if not answer.steps:
        lines = ["no step takes these parts apart"] if answer.groups else ["one part"]
    else:
        changes = many_of(changes_of(answer.steps), "change")
        lines = [f"{verdict(answer)}: {many_of(len(answer.steps), 'step')}, {changes} of direction"]
    lines += [f"stuck: {parts.called(group.parts)}" for group in answer.groups]
    if parts.short != parts.names:
        number = next(n for n, name in enumerate(parts.names) if parts.short[n] != name)
        lines.append(f"names are short: {parts.short[number]} is {parts.names[number]}")
    return lines + [
        f"same: {counted(len(members), name)}" for name, members in parts.same if len(members) > 1
    ]


def changes_of(steps: Sequence[Step]) -> int:
    return sum(1 for one, other in zip(steps, steps[1:]) if one.along != other.along)


def step_lines(runs: Sequence[Run], parts: Parts) -> List[str]:
    """The steps by runs, and what leaves before what."""
    lines = []
    for run in runs:
        x, y, z = run.along
        lines.append(f"along {parts.direction(run.along)}, in whole numbers {x} {y} {z}")
        for first, some in gathered(run.first, run.steps, parts):
            lines.append(f"  {numbers(first, some)}. {step_words(some, parts)}")
        lines += order_lines(run, parts)
    return lines


def gathered(
    first: int, steps: Sequence[Step], parts: Parts
) -> Iterator[Tuple[int, Tuple[Step, ...]]]:
    """Steps that follow each other and each take one of the same parts, together, each with the first one's number."""
    start = 0
    for number in range(1, len(steps) + 1):
        if number == len(steps) or not is_like(steps[number - 1], steps[number], parts):
            yield first + start, tuple(steps[start:number])
            start = number


def is_like(one: Step, other: Step, parts: Parts) -> bool:
    """Whether a step goes on with what the one before it left, along the same direction, and takes the same part."""
    goes_on = one.along == other.along and {*one.rest} == {*other.moved, *other.rest}
    return goes_on and kind_of(one, parts) == kind_of(other, parts)


def kind_of(step: Step, parts: Parts) -> Tuple[int, ...]:
    """What is alike of steps that are told together: that they take one of the same parts; else nothing is."""
    if len(step.moved) > 1:
        return step.moved
    kind = parts.kind(step.moved[0])
    return (kind, -1) if len(parts.same[kind][1]) > 1 else step.moved


def numbers(first: int, some: Sequence[Step]) -> str:
    return str(first + 1) if len(some) == 1 else f"{first + 1}-{first + len(some)}"


def step_words(some: Sequence[Step], parts: Parts) -> str:
    """What a step does, or several that take the same parts one by one."""
    along = some[0].along
    moved = [part for step in some for part in step.moved]
    rest = [part for part in some[-1].rest if part not in moved]
    how = f"along {parts.direction(along)}, away from {parts.others(rest, moved)}"
    far = parts.length(max(clear_after(step, parts) for step in some))
    clear = f"; clear after {short(far)}{' ' + parts.unit if parts.unit else ''}" if far else ""
    together = " one by one" if len(some) > 1 else " together" if len(moved) > 1 else ""
    return f"{verb(along, parts)} {parts.called(moved, 'the ')}{together} {how}{clear}"


def order_lines(run: Run, parts: Parts) -> List[str]:
    """The table of what leaves before what, where a run takes several parts and not every order is possible."""
    pairs = [(one, other) for one, other in run.before if run.moves(one) and run.moves(other)]
    if len(run.steps) < 2 or not run.is_known:
        return []
    if not pairs:
        return ["     in any order"]
    rows = [tuple(parts.briefly(run.units[unit]) for unit in pair) for pair in pairs]
    rows.insert(0, ("leaves first", "leaves later"))
    wide = max(len(row[0]) for row in rows)
    return [f"     {row[0].ljust(wide)} | {row[1]}" for row in rows]


def assembly_lines(answer: Answer, parts: Parts) -> List[str]:
    """The way back: the steps from the last to the first."""
    lines = ["put together, from the last step to the first"] if answer.steps else []
    some = list(gathered(0, answer.steps, parts))
    for first, steps in reversed(some):
        moved = [part for step in steps for part in step.moved]
        rest = [part for part in steps[-1].rest if part not in moved]
        how = " one by one" if len(steps) > 1 else ""
        along = parts.direction(opposite(steps[0].along))
        words = f"{parts.called(moved, 'the ')}{how} along {along}"
        lines.append(f"  {numbers(first, steps)}. bring {words} to {parts.others(rest, moved)}")
    return lines


def foot_lines(place: Place, parts: Parts, verdict_told: str) -> List[str]:
    """On what the answer rests, and the commands that repeat it."""
    cert = os.path.join(os.path.dirname(place.listed), CERTIFICATE)
    listed = shlex.quote(f"--manifest={place.listed}")
    words = [f"cd {shlex.quote(place.folder)}"] if place.folder != "." else []
    words += [f"staat {' '.join(ASKED)} {listed} > {shlex.quote(cert)}"]
    words += [f"staat confirm {shlex.quote(cert)} {listed}"]
    again = "; ".join(words)
    lines = [f"{rests_on(parts, verdict_told)}", f"again: {again}"]
    return ([f"made by: {parts.command}"] if parts.command else []) + lines


def rests_on(parts: Parts, verdict_told: str) -> str:
    """On what the answer rests, in a line."""
    said = f'staat confirm says "{verdict_told}"'
    if not parts.side:
        return f"{said} of the pieces of the list"
    unit = f" {parts.unit}" if parts.unit else ""
    over, under = short(parts.over), short(parts.under)
    far = f"up to {over}{unit} over the solids and {under}{unit} under them (--side={parts.side})"
    certain = parts.under == 0 if verdict_told == "valid plan" else parts.over == 0
    return f"{said} of pieces {far}" + (": so it is of the solids" if certain else "")


# For programs


def plan_of(answer: Answer, runs: Sequence[Run], parts: Parts, told: str) -> Dict[str, Any]:
    """The answer for programs; docs/FORMATS.md describes it."""
    return {
        "answer": verdict(answer),
        **basis_of(parts),
        "verdict": told,
        "changes of direction": changes_of(answer.steps),
        "steps": [
            {
                "moved": list(step.moved),
                "away from": list(step.rest),
                "along": list(step.along),
                "unit vector": parts.unit_vector(step.along),
                "clear after": round(parts.length(clear_after(step, parts)), 6),
            }
            for step in answer.steps
        ],
        "assembly": [
            {"step": number, "along": list(opposite(answer.steps[number].along))}
            for number in reversed(range(len(answer.steps)))
        ],
        "runs": [run_data(run) for run in runs],
        "groups": [group_data(group) for group in answer.groups],
        "overlaps": [],
    }


def overlap_plan(clashes: Sequence[Clash], parts: Parts) -> Dict[str, Any]:
    """The answer for programs where parts overlap."""
    empty: Dict[str, Any] = {name: [] for name in ("steps", "assembly", "runs", "groups")}
    return {
        "answer": OVERLAP,
        **basis_of(parts),
        "verdict": "",
        "changes of direction": 0,
        **empty,
        "overlaps": clashes_data(clashes),
    }


def basis_of(parts: Parts) -> Dict[str, Any]:
    """The parts, and how near their pieces are to them."""
    return {
        "unit": parts.unit,
        "grid": str(parts.grid),
        "side": parts.side,
        "over": parts.over,
        "under": parts.under,
        "command": parts.command,
        "parts": parts.names,
        "same": [{"name": name, "parts": members} for name, members in parts.same],
    }


def run_data(run: Run) -> Dict[str, Any]:
    return {
        "first step": run.first,
        "steps": len(run.steps),
        "along": list(run.along),
        "units": [list(unit) for unit in run.units],
        "before": [list(pair) for pair in run.before] if run.is_known else None,
    }


def group_data(group: Group) -> Dict[str, Any]:
    return {
        "parts": list(group.parts),
        "holds": [
            {
                "nodes": [list(node) for node in hold.nodes],
                "pairs": [list(pair) for pair in hold.pairs],
            }
            for hold in group.holds
        ],
    }


def write_text(folder: str, name: str, text: str) -> str:
    """Writes a file whole or not at all; its path. Refusal: it cannot be written."""
    path = os.path.join(folder, name)
    try:
        with open(path + ".part", "w", encoding="utf-8") as file:
            file.write(text)
        os.replace(path + ".part", path)
    except OSError as fault:
        raise Refusal(f"cannot write to {folder}: {fault.strerror}") from fault
    return path


def write_plan(folder: str, plan: Dict[str, Any]) -> str:
    """Writes `plan.json`; its path. Refusal: it cannot be written."""
    return write_text(folder, PLAN, json.dumps(plan, indent=1, ensure_ascii=False) + "\n")
