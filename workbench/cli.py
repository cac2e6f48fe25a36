"""The words of the command `staat-cad`."""
from __future__ import annotations

import argparse
import os
import shlex
import sys
from fractions import Fraction
from typing import Iterable, List, NoReturn, Optional, Sequence, Tuple

import numpy

from . import overlapping, planner, report, summary
from .answers import OfDecide, Overlapping, Planner, Told
from .certificate import Vector
from .convex import clear
from .cut import cut
from .joining import joined
from .named import Parts, read_parts
from .ordering import Run, runs_of
from .overlaps import overlaps
from .planner import Place, place_of
from .precedence import GRAPH, PICTURE, graph_of, write_graph
from .product import Asked, Product, read_product
from .show.command import SHOWN, show
from .solid import Options, Pieces, Refusal
from .surfaces import SURFACES, surfaces_text
from .why import why as why_lines
from .writing import Output

REFUSED = 3
OVERLAPPED = 1
STUCK = 1
SHOW = "a page, a glTF file and pictures of the plan of staat: report.html, product.glb, steps.png, report.pdf"
WHOLE = "Cuts models into pieces, plans, and writes the report: pieces, plan and show, one after another."


class Words(argparse.ArgumentParser):
    def error(self, message: str) -> NoReturn:
        print(f"staat-cad: {message}; --help tells more", file=sys.stderr)
        sys.exit(2)


def length_of(text: str) -> Fraction:
    """A number above 0, as 0.01 or 1/64."""
    try:
        number = Fraction(text)
    except (ValueError, ZeroDivisionError) as fault:
        raise argparse.ArgumentTypeError(f"{text} is no number") from fault
    if number <= 0:
        raise argparse.ArgumentTypeError(f"{text} is not above 0")
    return number


def sides_of(text: str) -> int:
    if not text.isdigit() or not 3 <= int(text) <= 1000:
        raise argparse.ArgumentTypeError(f"{text} is no whole number from 3 to 1000")
    return int(text)


def clearance_of(text: str) -> Tuple[str, float]:
    """T for all parts, or PART=T for one."""
    name, _, length = text.rpartition("=")
    return name, float(length_of(length))


def along_of(text: str) -> Vector:
    """A direction, as 0,0,1."""
    try:
        x, y, z = map(int, text.split(","))
    except ValueError as fault:
        raise argparse.ArgumentTypeError(f"{text} is no three whole numbers, as 0,0,1") from fault
    if not (x or y or z):
        raise argparse.ArgumentTypeError("0,0,0 is no direction")
    return x, y, z


def names_of(text: str) -> List[str]:
    """Two names or more with commas between, as lid,pin."""
    names = text.split(",")
    if len(names) < 2 or not all(names):
        raise argparse.ArgumentTypeError(f"{text} is no two names with a comma between")
    return names


def each_of(text: str) -> str:
    if text not in ("solid", "name", "file") and not (text.isdigit() and int(text) > 0):
        raise argparse.ArgumentTypeError(
            f"{text} is none of solid, name, file, and no number of levels"
        )
    return text


def parser() -> Words:
    top = Words(
        prog="staat-cad",
        description="Leads from CAD models to the planner staat. Nothing here is proved: staat judges what is written.",
        epilog="staat-cad MODEL.. --out=FOLDER does all of it: pieces, plan and show.",
    )
    commands = top.add_subparsers(dest="command", metavar="COMMAND", required=True)
    one = commands.add_parser(
        "pieces",
        help="cut models into convex pieces with whole coordinates, and write a part list",
        description="Cuts models (STEP, STL, OBJ, PLY, 3MF, OFF, part lists) into convex pieces with whole "
        "coordinates, and writes a part list for staat.",
    )
    add_reading(one)
    add_cutting(one)
    plan = commands.add_parser(
        "plan",
        help="the steps that take what pieces wrote apart, by the names of the model",
        description="Tells by the names of the model the checked steps that take the product in a folder apart, which "
        "orders are possible, and the way back, and writes it to plan.json there.",
    )
    plan.add_argument("folder", metavar="FOLDER", help="what pieces wrote, or a part list")
    cause = commands.add_parser(
        "why",
        help="of parts that are stuck, who holds whom; of a part, what is in its way",
        description="Tells of the parts in a folder that are stuck who holds whom, and without which of them the "
        "others come apart; or what is in the way of a part along a direction.",
    )
    cause.add_argument("folder", metavar="FOLDER", help="what pieces wrote, or a part list")
    cause.add_argument("--part", metavar="NAME", help="a part, by its name or its number")
    cause.add_argument(
        "--along", type=along_of, metavar="X,Y,Z", help="a direction in whole numbers, as 0,0,1"
    )
    other = commands.add_parser(
        "run",
        help="run a command of staat on a part list, in its folder",
        description="Runs a command of staat on the part list of a folder: ./staat-cad run FOLDER plan --robust",
    )
    other.add_argument("folder", metavar="FOLDER", help="what pieces wrote")
    other.add_argument("asked", metavar="COMMAND", help="a command of staat, as look or plan")
    other.add_argument(
        "words", nargs=argparse.REMAINDER, metavar="..", help="its words, without the part list"
    )
    add_showing(commands.add_parser("show", help=SHOW, description=SHOW))
    return top


def whole_parser() -> Words:
    """For models without a command: all of it."""
    whole = Words(prog="staat-cad", description=WHOLE)
    whole.set_defaults(command="whole")
    add_reading(whole)
    add_cutting(whole)
    return whole


def read_words(words: Sequence[str]) -> argparse.Namespace:
    """What is asked: a command, or all of it for models, where the first word is no command."""
    is_command = not words or words[0] in COMMANDS or words[0] in ("-h", "--help")
    given = (parser() if is_command else whole_parser()).parse_args(list(words))
    given.said = shlex.join(["staat-cad", *words])
    return given


def add_showing(one: argparse.ArgumentParser) -> None:
    one.add_argument("folder", metavar="FOLDER", help="what pieces wrote, or a part list")
    one.add_argument(
        "--out", metavar="FOLDER", help="where they are written; else beside the part list"
    )


def add_reading(one: argparse.ArgumentParser) -> None:
    one.add_argument(
        "models", nargs="+", metavar="MODEL", help="a file, or a folder of files that are one part"
    )
    one.add_argument(
        "--out", required=True, metavar="FOLDER", help="where the pieces and parts.json are written"
    )
    one.add_argument(
        "--each",
        type=each_of,
        default="name",
        metavar="WHAT",
        help="what a part is: each name in a file (as usual), each solid, each file, or a number of levels of a "
        "STEP file's assembly",
    )
    one.add_argument(
        "--merge",
        type=length_of,
        metavar="M",
        help="points so near each other are one where a surface is open; else a millionth of the extent of the file",
    )
    one.add_argument(
        "--upright",
        action="store_true",
        help="turn a product of meshes such that most of its faces lie along the axes, where its pieces are exact; "
        "directions are told as they are in the model",
    )
    one.add_argument(
        "--grid",
        type=length_of,
        metavar="G",
        help="the step of the grid in the unit of the model, as 0.01 or 1/64; else the finest of 1, 2 or 5 times a "
        "power of ten that fits",
    )


def add_cutting(one: argparse.ArgumentParser) -> None:
    round_ones = one.add_mutually_exclusive_group()
    round_ones.add_argument(
        "--sides", type=sides_of, metavar="N", help="sides of a whole circle; else 12"
    )
    round_ones.add_argument(
        "--chord",
        type=length_of,
        metavar="T",
        help="how far a circle may lie beyond its sides, at most",
    )
    one.add_argument(
        "--side",
        choices=("near", "over", "under"),
        default="near",
        help="whether pieces come near their parts, contain them (over) or lie within them (under)",
    )
    one.add_argument(
        "--tolerance",
        type=length_of,
        metavar="T",
        help="pieces are joined while they go beyond the solid by at most this; else by no more than rounding does",
    )
    one.add_argument(
        "--clearance",
        type=clearance_of,
        action="append",
        default=[],
        metavar="[PART=]T",
        help="faces of all parts, or of one, move inwards by this where they meet other parts",
    )
    one.add_argument(
        "--join",
        type=names_of,
        action="append",
        default=[],
        metavar="A,B",
        help="parts that stay together, by name or number: they are one part. It may be given several times",
    )
    one.add_argument(
        "--seconds",
        type=length_of,
        default=Fraction(60),
        metavar="S",
        help="seconds of a processor that one solid may take; else 60",
    )


def options_of(given: argparse.Namespace) -> Options:
    return Options(
        chord=None if given.chord is None else float(given.chord),
        sides=given.sides,
        side=given.side,
        join=-1.0 if given.tolerance is None else float(given.tolerance),
        clearance=dict(given.clearance),
        seconds=float(given.seconds),
    )


def cut_product(product: Product, options: Options) -> List[summary.Cut]:
    """The parts with their pieces; those that cannot be cut go to `product.lost`."""
    solids = [solid for part in product.parts for solid in part.solids]
    answers = iter(cut(solids, options))
    kept, found = [], []
    for part in product.parts:
        some = [next(answers) for _ in part.solids]
        lines = [answer for answer in some if isinstance(answer, str)]
        if lines:
            product.lost.append((part.name, lines[0]))
        else:
            kept.append(part)
            found.append([answer for answer in some if isinstance(answer, Pieces)])
    product.parts = kept
    found = cleared(product, found, options)
    return [summary.cut_part(part, some) for part, some in zip(kept, found)]


def cleared(product: Product, found: List[List[Pieces]], options: Options) -> List[List[Pieces]]:
    """The pieces, after they were joined and gave way to each other. Refusal: --clearance names a part that is none."""
    names = {part.name for part in product.parts}
    for name in options.clearance:
        if name and name not in names:
            raise Refusal(f'no part has the name "{name}", which --clearance names')
    solids = [solid for part in product.parts for solid in part.solids]
    moved = iter(clear(solids, [pieces for some in found for pieces in some], options))
    return [[next(moved) for _ in some] for some in found]


def pieces(given: argparse.Namespace) -> int:
    return write_pieces(given)[0]


def write_pieces(given: argparse.Namespace) -> Tuple[int, bool]:
    """Cuts the models; the status, and whether a part list was written. Refusal: nothing can be cut or written."""
    options = options_of(given)
    asked = Asked(given.each, None if given.merge is None else float(given.merge), given.upright)
    product = read_product(given.models, options, asked, given.grid)
    joined(product, given.join)
    cuts = cut_product(product, options)
    if cuts:
        output = Output(given.out, product.inputs)
        for one in cuts:
            output.part(one.part.name, one.pieces)
        output.add(SURFACES, surfaces_text(product.parts))
        print("\n".join(summary.part_lines(product, cuts)))
        model = summary.model_of(product, cuts, options)
        print("written " + output.write({**model, "command": given.said}))
    for name, why in product.lost:
        left_out = f"part {name} is left out: " if cuts else ""
        print(f"staat-cad: {left_out}{why}", file=sys.stderr)
    status = told(given.out, product, cuts, options) if cuts else 0
    return REFUSED if product.lost else status, bool(cuts)


def told(folder: str, product: Product, cuts: Sequence[summary.Cut], options: Options) -> int:
    """Prints the summary; 1 where parts overlap."""
    greatest = max(float(numpy.abs(piece.points).max()) for one in cuts for piece in one.plain)
    grid = float(product.grid)
    lines = (
        summary.way_lines(cuts)
        + summary.dent_lines(cuts)
        + summary.round_lines(product, options)
        + summary.bound_lines(cuts)
    )
    found = overlaps([one.plain for one in cuts])
    overlapped = summary.overlap_lines(found, cuts, grid, greatest * grid)
    lines += overlapped or ["no two parts overlap"]
    limits = summary.limit_lines(cuts, options)
    print("\n".join(lines + limits))
    return OVERLAPPED if overlapped else 0


def plan(place: Place, asked: Planner) -> Tuple[int, Optional[Told]]:
    """Tells a checked answer and writes it: the status, 1 where parts are stuck or overlap, and the answer if any.

    What cannot be told of the orders is passed over, and the status is 3. Refusal: there is no answer.
    """
    parts = read_parts(place)
    clean(place.beside, (report.PLAN, report.CERTIFICATE, GRAPH, PICTURE))
    try:
        told = asked.told()
    except Overlapping as fault:
        return overlapped(place, parts, fault), None
    answer = told.answer
    print("\n".join(report.lines_of(answer, parts)), flush=True)
    status = STUCK if answer.groups else 0
    try:
        runs = runs_of(answer.steps, asked)
    except Refusal as fault:
        print(f"staat-cad: which orders are possible is not told: {fault}", file=sys.stderr)
        runs, status = runs_of(answer.steps, None), REFUSED
    lines = report.step_lines(runs, parts) + report.assembly_lines(answer, parts)
    print("\n".join(lines + report.foot_lines(place, parts, told.verdict)), flush=True)
    write_answer(place, told, runs, parts)
    return status, told


def write_answer(place: Place, told: Told, runs: Sequence[Run], parts: Parts) -> None:
    """Writes the answer, its certificate, and the orders as a graph. Refusal: one of them cannot be written."""
    folder = place.beside
    plan_data = report.plan_of(told.answer, runs, parts, told.verdict)
    print("written " + report.write_text(folder, report.CERTIFICATE, told.certificate))
    print("written " + report.write_plan(folder, plan_data))
    for path in write_graph(folder, graph_of(runs, parts)):
        print(f"written {path}")


def overlapped(place: Place, parts: Parts, fault: Overlapping) -> int:
    """Tells which parts overlap, and writes it; 1. Refusal: `staat` and this tool do not agree that some do."""
    clashes = overlapping.clashes_of(parts)
    if not any((clash.part, clash.by) == (fault.pair.part, fault.pair.by) for clash in clashes):
        raise fault
    print("\n".join(overlapping.lines_of(clashes, parts)))
    print("written " + report.write_plan(place.beside, report.overlap_plan(clashes, parts)))
    return OVERLAPPED


def clean(folder: str, names: Iterable[str]) -> None:
    """Takes away what there is of an earlier call. Refusal: it cannot be."""
    for name in names:
        path = os.path.join(folder, name)
        try:
            if os.path.exists(path):
                os.remove(path)
        except OSError as fault:
            raise Refusal(f"cannot write to {folder}: {fault.strerror}") from fault


def plan_alone(given: argparse.Namespace) -> int:
    place = place_of(given.folder)
    return plan(place, OfDecide(place))[0]


def whole(given: argparse.Namespace) -> int:
    """Pieces, plan and show, one after another; the greatest status.

    What there is of an earlier call goes first. The product is shown where there is no plan, too.
    """
    status, is_written = write_pieces(given)
    if not is_written:
        return status
    clean(given.out, SHOWN)
    place, told, is_told = Place(given.out), None, False
    try:
        found, told = plan(place, OfDecide(place))
        status, is_told = max(status, found), told is None
    except Refusal as fault:
        is_told, status = True, REFUSED
        print(f"staat-cad: {fault}", file=sys.stderr)
    return max(status, show(given.out, None, told, is_told))


def tell_why(given: argparse.Namespace) -> int:
    for line in why_lines(place_of(given.folder), given.part, given.along):
        print(line, flush=True)
    return 0


COMMANDS = {
    "pieces": pieces,
    "plan": plan_alone,
    "run": lambda given: planner.run(given.folder, given.asked, given.words),
    "show": lambda given: show(given.folder, given.out),
    "why": tell_why,
}


def main(words: Sequence[str]) -> int:
    """Runs the words; the status: 0, 1 where parts overlap, 2 for words that are none, 3 where something is refused."""
    given = read_words(words)
    try:
        return COMMANDS.get(given.command, whole)(given)
    except Refusal as fault:
        print(f"staat-cad: {fault}", file=sys.stderr)
        return REFUSED
    except KeyboardInterrupt:
        print("staat-cad: stopped; nothing more is written", file=sys.stderr)
        return 130
