#!/usr/bin/env python3
"""Compares `staat check` with tools/check.py on certificates of products, and on many that are broken.

    python3 tools/compare_checkers.py [--program=FILE] [--broken=N] [--seed=S] [--only=CASE] [PART_LISTS..]

The products are those of the part lists, or of all in examples/ and gallery/ where none is named, and some that are
made here. Of each the program makes all its certificates: in both versions, robust and not. Both checkers judge each
of them, and N broken ones: in each, something in one of the certificates is changed, by chance, but so that a seed and
the number of a case always give the same. It is printed how often each answer came, and each difference with its seed
and its case. The status is 0 where there is none, else 1. With --only=CASE that one case is run and its certificate
printed.
"""

import argparse
import collections
import json
import os
import pathlib
import random
import subprocess
import sys
import tempfile
import time

import check
from pieces import cross, dot, minus

TOP = pathlib.Path(__file__).resolve().parent.parent
MOST_LINES = 4000  # longer certificates are compared as they are, but not broken


# Products that are made here: each is a list of parts, and each part a list of (points, faces).

BOX_FACES = [(0, 1, 3, 2), (4, 6, 7, 5), (0, 4, 5, 1), (2, 3, 7, 6), (0, 2, 6, 4), (1, 5, 7, 3)]


def box(least, most):
    xs, ys, zs = zip(least, most)
    return [(x, y, z) for x in xs for y in ys for z in zs], BOX_FACES


def shell(inner, outer):
    """Six slabs that leave out what is between -inner and inner in each component."""
    i, o = inner, outer
    return [
        box((-o, -o, -o), (o, o, -i)),
        box((-o, -o, i), (o, o, o)),
        box((-o, -o, -i), (o, -i, i)),
        box((-o, i, -i), (o, o, i)),
        box((-o, -i, -i), (-i, i, i)),
        box((i, -i, -i), (o, i, i)),
    ]


def nested(shells):
    return [[box((-1, -1, -1), (1, 1, 1))]] + [shell(k, k + 1) for k in range(1, shells + 1)]


def jar(chance):
    """A cube in a box of which some slabs are left out."""
    slabs = shell(1, 2)
    return [[box((-1, -1, -1), (1, 1, 1))], chance.sample(slabs, chance.randint(1, 6))]


def cage(chance):
    """An octahedron or a tetrahedron in a box without a gap, or with one slab left out."""
    [[(points, faces)]] = chance.choice((octahedra, tetrahedra))(chance, 1)
    least, most = ([choose(values) for values in zip(*points)] for choose in (min, max))
    points = [
        tuple(2 * value - low - high for value, low, high in zip(point, least, most))
        for point in points
    ]
    reach = max(abs(value) for point in points for value in point) + chance.choice((0, 0, 3))
    return [[(points, faces)], chance.sample(shell(reach, reach + 2), chance.choice((5, 6, 6)))]


def colouring(chance, sizes, parts):
    """A grid of cubes, each of a part by chance."""
    owners = [[] for _ in range(parts)]
    for x in range(sizes[0]):
        for y in range(sizes[1]):
            for z in range(sizes[2]):
                chance.choice(owners).append(box((x, y, z), (x + 1, y + 1, z + 1)))
    return [owner for owner in owners if owner]


def boxes(chance, parts):
    """Boxes in cells of a grid, each of which may fill its cell."""
    places = chance.sample([(x, y, z) for x in range(3) for y in range(3) for z in range(3)], parts)
    made = []
    for place in places:
        least = [6 * p + chance.choice((0, 0, 1, 2)) for p in place]
        most = [6 * p + chance.choice((6, 6, 5, 4)) for p in place]
        made.append([box(least, most)])
    return made


def tetrahedra(chance, parts):
    """Tetrahedra in cells of a grid."""
    made = []
    for x, y, z in chance.sample(
        [(x, y, z) for x in range(3) for y in range(3) for z in range(2)], parts
    ):
        volume = 0
        while volume == 0:
            points = [
                (
                    9 * x + chance.randint(0, 9),
                    9 * y + chance.randint(0, 9),
                    9 * z + chance.randint(0, 9),
                )
                for _ in range(4)
            ]
            a, b, c = (minus(point, points[0]) for point in points[1:])
            volume = dot(a, cross(b, c))
        made.append([(points, [(0, 1, 2), (0, 1, 3), (0, 2, 3), (1, 2, 3)])])
    return made


def octahedra(chance, parts):
    """Sheared octahedra in cells of a grid."""
    faces = [(x, y, z) for x in (0, 1) for y in (2, 3) for z in (4, 5)]
    tips = [(1, 0, 0), (-1, 0, 0), (0, 1, 0), (0, -1, 0), (0, 0, 1), (0, 0, -1)]
    made = []
    for place in chance.sample(
        [(x, y, z) for x in range(3) for y in range(3) for z in range(2)], parts
    ):
        [[(points, _)]] = sheared(chance, [[(tips, faces)]])
        made.append([([tuple(7 * p + c for p, c in zip(place, point)) for point in points], faces)])
    return made


def sheared(chance, parts):
    """The product after a map of space that keeps planes."""
    rows = [[0, 0, 0]] * 3
    while dot(rows[0], cross(rows[1], rows[2])) == 0:
        rows = [[chance.randint(-3, 3) for _ in range(3)] for _ in range(3)]
    return [
        [
            ([tuple(dot(row, point) for row in rows) for point in points], faces)
            for points, faces in pieces
        ]
        for pieces in parts
    ]


def spelled(chance, value, digits):
    """One of the spellings of a number of which `digits` places stand behind the point."""
    sign, size = "-" if value < 0 else chance.choice(("", "", "+")), str(abs(value)).rjust(
        digits + 1, "0"
    )
    plain = f"{sign}{size[:len(size) - digits]}.{size[len(size) - digits:]}"
    return chance.choice(
        [plain, plain + "000", f"{value}e-{digits}", f"{sign}{abs(value)}00E-{digits + 2}"]
    )


def off_text(chance, points, faces, digits):
    """An OFF file of the piece, with what may stand in one besides."""
    points, faces = list(points), [list(face) for face in faces]
    if chance.random() < 0.3:
        points.append((chance.randint(-99, 99), 0, 999))  # used by no face
    lines = [
        chance.choice(["OFF", "# a piece\nOFF", "OFF # a piece"]),
        f"{len(points)} {len(faces)} 0",
    ]
    lines += [" ".join(spelled(chance, value, digits) for value in point) for point in points]
    for face in faces:
        if chance.random() < 0.5:
            face.reverse()
        behind = chance.choice(["", "", " 255 0 0", " # 1 2 3", "\r", "\t"])
        lines.append(" ".join(map(str, [len(face), *face])) + behind)
    return "\n".join(lines) + chance.choice(["", "\n", "\n# the end"])


def made_products(chance):
    """Products by chance, some stuck and some not."""
    yield from (nested(1), nested(2), sheared(chance, nested(1)))
    for _ in range(4):
        yield jar(chance)
        yield sheared(chance, jar(chance))
        yield cage(chance)
        yield sheared(chance, cage(chance))
    for parts in (2, 2, 3, 4):
        yield colouring(chance, (2, 2, 2), parts)
        yield colouring(chance, (3, 2, 2), parts)
        yield sheared(chance, colouring(chance, (3, 2, 2), parts))
    yield colouring(chance, (3, 3, 3), 2)
    for parts in (1, 2, 3, 5, 8, 12):
        yield boxes(chance, parts)
        yield sheared(chance, boxes(chance, parts))
    for parts in (2, 3, 4, 5):
        yield tetrahedra(chance, parts)
        yield octahedra(chance, parts)


# Cases: a product with its folder, its words and what check.py read; and a certificate of one.

Subject = collections.namedtuple("Subject", "name folder words product")


def subject_of(name, folder, files, manifest, digits):
    os.chdir(folder)
    words = ([f"--manifest={manifest}"] if manifest else files) + (
        [f"--digits={digits}"] if digits else []
    )
    return Subject(name, folder, words, check.read_product(files, manifest, digits))


def written_subject(chance, folder, number, parts):
    """The product number so and so that was made here, written into the folder."""
    digits = chance.choice((0, 0, 1, 3))
    listed, files = [], []
    for p, pieces in enumerate(parts):
        at = [chance.randint(-50, 50) for _ in range(3)] if chance.random() < 0.3 else None
        names = []
        for i, (points, faces) in enumerate(pieces):
            if at:
                points = [minus(point, at) for point in points]
            names.append(f"{number}-{p}-{i}.off")
            pathlib.Path(folder, names[-1]).write_text(
                off_text(chance, points, faces, digits), newline=""
            )
        listed.append({"name": f"part {p}", "pieces": names, **({"at": at} if at else {})})
        files += names
    if all(len(part["pieces"]) == 1 and "at" not in part for part in listed):
        return subject_of(f"made {number}", folder, files, None, digits)
    pathlib.Path(folder, f"{number}.json").write_text(json.dumps({"parts": listed}))
    return subject_of(f"made {number}", folder, [], f"{number}.json", digits)


def listed_subject(program, path):
    """The product of a part list with the least digits that it takes, or None.

    Its files are named from the top folder of the repository, or else from the list's own folder.
    """
    first = json.loads(path.read_text())["parts"][0]["pieces"][0]
    folder = TOP if (TOP / first).exists() else path.parent
    for digits in range(7):
        look = [program, "look", f"--manifest={path}", f"--digits={digits}"]
        if subprocess.run(look, cwd=folder, capture_output=True, check=False).returncode == 0:
            return subject_of(str(path), folder, [], str(path), digits)
    print(f"refused: {path}")
    return None


def certificates_of(program, subject):
    """The texts of all certificates that the program makes of the product, each once."""
    texts = []
    for options in ([], ["--format=1"], ["--robust"], ["--robust", "--format=1"]):
        run = subprocess.run(
            [program, "plan", "--cert", *options, *subject.words],
            cwd=subject.folder,
            capture_output=True,
            check=False,
        )
        if run.returncode in (0, 1) and run.stdout not in texts:
            texts.append(run.stdout)
    return texts


# Ways to break a certificate. Each takes its lines, without line ends, and changes the list.

KEYWORDS = "STAAT parts plan stuck leaf split sep witness out in dir end".split()
STRANGE = [
    0,
    31,
    32,
    63,
    64,
    2**25 - 2,
    2**39,
    2**39 + 1,
    -(2**39),
    2**81,
    2**81 + 1,
    -(2**81),
    -(2**81) - 1,
]


def lines_with(lines, *words):
    return [k for k, line in enumerate(lines) if line.split(" ")[0] in words]


def number_after(chance, number):
    """Another number in the place of this one."""
    return chance.choice(
        [
            number + 1,
            number - 1,
            -number,
            2 * number,
            0,
            chance.randint(-3, 3),
            chance.randint(0, 70),
            chance.choice((31, 32, 63, 64)),
            chance.choice(STRANGE),
        ]
    )


def change_place(chance, lines, k, least, most):
    """Changes one of the numbers of line k at the places from the least to the most."""
    words = lines[k].split(" ")
    places = [p for p in range(least, min(most + 1, len(words))) if words[p].lstrip("-").isdigit()]
    if places:
        place = chance.choice(places)
        words[place] = str(number_after(chance, int(words[place])))
        lines[k] = " ".join(words)


def number_changed(chance, lines):
    change_place(chance, lines, chance.randrange(len(lines)), 1, 40)


def line_left_out(chance, lines):
    del lines[chance.randrange(len(lines))]


def lines_exchanged(chance, lines):
    k = chance.randrange(len(lines))
    other = chance.choice([k - 1, chance.randrange(len(lines))])
    lines[k], lines[other] = lines[other], lines[k]


def line_doubled(chance, lines):
    k = chance.randrange(len(lines))
    lines.insert(chance.choice([k, chance.randrange(len(lines) + 1)]), lines[k])


def word_changed(chance, lines):
    k = chance.randrange(len(lines))
    words = lines[k].split(" ")
    place = chance.randrange(len(words))
    word = words[place]
    words[place] = chance.choice(
        [
            chance.choice(KEYWORDS),
            "",
            "x",
            "0" + word,
            "+" + word,
            "-" + word,
            "\t" + word,
            word + " ",
            word + "\r",
            word + ".0",
            word + "\0",
            word[:-1],
            word.upper(),
        ]
    )
    lines[k] = " ".join(words)


def line_too_long(chance, lines):
    k = chance.randrange(len(lines))
    lines[k] = lines[k].ljust(chance.choice([126, 127, 128, 129, 300]), chance.choice("0 1"))


def line_put_in(chance, lines):
    line = " ".join([chance.choice(KEYWORDS)] + ["0"] * chance.randint(0, 8))
    lines.insert(chance.randrange(len(lines) + 1), chance.choice(["", "# note", line]))


def in_order(lines):
    """Puts the `dir` lines into their order, and drops all but one of those with the same direction."""
    places = lines_with(lines, "dir")
    sorted_lines = {}
    for k in places:
        try:
            sorted_lines[tuple(map(int, lines[k].split(" ")[1:4]))] = lines[k]
        except ValueError:
            return
    if places:
        lines[places[0] : places[-1] + 1] = [line for _, line in sorted(sorted_lines.items())]


def direction_changed(chance, lines):
    places = lines_with(lines, "split", "dir")
    if places:
        change_place(chance, lines, chance.choice(places), 1, 3)
    if chance.random() < 0.7:
        in_order(lines)


def multiplied(chance, lines, k, first):
    """Multiplies the three numbers of line k that begin at the first place, if they are numbers."""
    words = lines[k].split(" ")
    factor = chance.choice([-1, 0, 2, 3, 2**38, 2**60])
    try:
        words[first : first + 3] = [str(factor * int(word)) for word in words[first : first + 3]]
    except ValueError:
        return
    lines[k] = " ".join(words)


def direction_multiplied(chance, lines):
    places = lines_with(lines, "split", "dir")
    if places:
        multiplied(chance, lines, chance.choice(places), 1)
        in_order(lines)


def wall_multiplied(chance, lines):
    places = lines_with(lines, "sep")
    if places:
        multiplied(chance, lines, chance.choice(places), 5)


def direction_put_in(chance, lines):
    places = lines_with(lines, "dir")
    if places:
        witness = lines[chance.choice(places)].split(" ")[-1]
        direction = " ".join(str(chance.randint(-4, 4)) for _ in range(3))
        lines.insert(places[-1], f"dir {direction} {witness}")
        in_order(lines)


def direction_left_out(chance, lines):
    places = lines_with(lines, "dir")
    if places:
        del lines[chance.choice(places)]


def wall_changed(chance, lines):
    places = lines_with(lines, "sep")
    if places:
        change_place(chance, lines, chance.choice(places), 5, 7)


def wall_left_out(chance, lines):
    places = lines_with(lines, "sep")
    if places:
        del lines[chance.choice(places)]


def arc_changed(chance, lines):
    places = lines_with(lines, "sep", "out", "in")
    if places:
        change_place(chance, lines, chance.choice(places), 1, 4)


def witness_changed(chance, lines):
    places = lines_with(lines, "dir")
    if places:
        k, other = chance.choice(places), chance.choice(places)
        lines[k] = " ".join(lines[k].split(" ")[:-1] + lines[other].split(" ")[-1:])


def leaves_exchanged(chance, lines):
    places = lines_with(lines, "leaf")
    if len(places) > 1:
        k, other = chance.sample(places, 2)
        lines[k], lines[other] = lines[other], lines[k]


def leaf_changed(chance, lines):
    places = lines_with(lines, "leaf")
    if places:
        lines[chance.choice(places)] = f"leaf {chance.randint(0, len(places) + 1)}"


def arcs_exchanged(chance, lines):
    places = lines_with(lines, *chance.choice([("out",), ("in",), ("out", "in"), ("sep",)]))
    if len(places) > 1:
        k = chance.randrange(len(places) - 1)
        lines[places[k]], lines[places[k + 1]] = lines[places[k + 1]], lines[places[k]]


def arcs_repeated(chance, lines):
    """A witness has at most 31 arcs of each kind."""
    places = lines_with(lines, "out", "in")
    if places:
        k = chance.choice(places)
        lines[k:k] = [lines[k]] * chance.randint(1, 33)


def members_changed(chance, lines):
    for k in lines_with(lines, "stuck"):
        members = set(lines[k].split(" ")[1:]) ^ {str(chance.randint(0, 6))}
        lines[k] = " ".join(["stuck", *sorted(members, key=lambda word: (len(word), word))])


def count_changed(chance, lines):
    for k in lines_with(lines, "parts"):
        lines[k] = f"parts {chance.randint(0, 33)}"


def version_changed(chance, lines):
    if lines:
        lines[0] = f"STAAT {chance.choice((1, 2, 2, 1, 3, 0))}"


WAYS = [
    number_changed,
    number_changed,
    line_left_out,
    line_left_out,
    lines_exchanged,
    lines_exchanged,
    line_doubled,
    word_changed,
    line_too_long,
    line_put_in,
    direction_changed,
    direction_changed,
    direction_multiplied,
    direction_put_in,
    direction_left_out,
    wall_changed,
    wall_changed,
    wall_multiplied,
    wall_left_out,
    arc_changed,
    arc_changed,
    witness_changed,
    leaves_exchanged,
    leaf_changed,
    arcs_exchanged,
    arcs_repeated,
    members_changed,
    count_changed,
    version_changed,
]


def changed_by(chance, text, ways, counts):
    """The names of some of the ways, as many as one of the counts, that change the text, and what they make of it."""
    lines, names = text.decode("ascii").split("\n")[:-1], []
    for _ in range(chance.choice(counts)):
        way = chance.choice(ways)
        before = list(lines)
        if lines:
            way(chance, lines)
        if lines != before:
            names.append(way.__name__)
    return names, "".join(line + "\n" for line in lines).encode("ascii")


def broken(chance, text):
    """The text with one to three things changed, so that it is another text, and the names of these."""
    changed, names = text, []
    while changed == text:
        names, changed = changed_by(chance, text, WAYS, (1, 1, 1, 1, 2, 3))
        if chance.random() < 0.08:
            names.append("text_cut_off")
            changed = changed[: chance.choice([-1, chance.randrange(len(changed) + 1)])]
            if chance.random() < 0.5:  # at the end of a line, where so many bytes may follow
                changed = changed[: changed.rfind(b"\n") + 1] + b"0" * chance.choice(
                    (0, 0, 126, 127, 128, 129)
                )
        if chance.random() < 0.04:
            names.append("bytes_added")
            changed += chance.choice(
                [b"\n", b"x", b"end\n", b"0" * 127, b"0" * 128, b"0" * 129, b"\xff"]
            )
    return names, changed


# The comparison.


class Comparison:
    """Both checkers asked the same, and what came of it."""

    def __init__(self, program, file):
        self.program, self.file = program, str(file)
        self.said, self.differences, self.count = collections.Counter(), 0, 0

    def ask(self, label, subject, text):
        """Asks both; tells a difference with the label."""
        pathlib.Path(self.file).write_bytes(text)
        run = subprocess.run(
            [self.program, "check", self.file, *subject.words],
            cwd=subject.folder,
            capture_output=True,
            check=False,
        )
        status, line = check.verdict(subject.product, self.file, text)
        self.count += 1
        words = line.replace(self.file, "FILE").split(" ")
        self.said[" ".join(word for word in words if not word.lstrip("-").isdigit())] += 1
        line = line.encode() + b"\n"
        expected = (status, line, b"") if status < 2 else (status, b"", line)
        if (run.returncode, run.stdout, run.stderr) != expected:
            self.differences += 1
            print(
                f"difference: {label}, {subject.name}: the program says {run.returncode} {run.stdout + run.stderr}, "
                f"check.py says {status} {line}"
            )


def main(words):
    parser = argparse.ArgumentParser(description="Compares staat check with tools/check.py.")
    parser.add_argument("--program", default=str(TOP / "staat"))
    parser.add_argument("--broken", type=int, default=10_000)
    parser.add_argument("--seed", type=int, default=1)
    parser.add_argument("--only", type=int)
    parser.add_argument("part_lists", nargs="*")
    given = parser.parse_args(words)
    paths = [pathlib.Path(name).resolve() for name in given.part_lists]
    paths = paths or sorted([*TOP.glob("examples/*/parts.json"), *TOP.glob("gallery/*/parts.json")])
    program = str(pathlib.Path(given.program).resolve())
    began = time.monotonic()
    with tempfile.TemporaryDirectory() as folder:
        chance = random.Random(f"products {given.seed}")
        subjects = list(filter(None, (listed_subject(program, path) for path in paths)))
        subjects += [
            written_subject(chance, folder, k, parts)
            for k, parts in enumerate(made_products(chance))
        ]
        comparison = Comparison(program, pathlib.Path(folder, "certificate"))
        texts = {True: [], False: []}  # of plans, and of refusals
        for subject in subjects:
            found = certificates_of(program, subject)
            if not found:
                print(f"no certificate of {subject.name}")
            for text in found:
                if given.only is None:
                    comparison.ask(f"seed {given.seed}, whole", subject, text)
                if text.count(b"\n") <= MOST_LINES:
                    texts[b"\nplan\n" in text].append((subject, text))
        print(
            f"{len(subjects)} products, {comparison.count} certificates as the program makes them, "
            f"{comparison.differences} differences"
        )
        ways = collections.Counter()
        for case in range(given.broken) if given.only is None else [given.only]:
            chance = random.Random(f"case {given.seed} {case}")
            subject, text = chance.choice(texts[chance.random() < 0.5])
            if chance.random() < 0.03:
                subject, names = chance.choice(subjects), ["another_product"]
            else:
                names, text = broken(chance, text)
            ways.update(names)
            comparison.ask(f"seed {given.seed}, case {case}, {' '.join(names)}", subject, text)
            if given.only is not None:
                sys.stdout.write(text.decode("latin-1"))
        os.chdir(TOP)
    for title, counter in ("changes", ways), ("answers", comparison.said):
        print(
            title + ":", ", ".join(f"{name} {number}" for name, number in sorted(counter.items()))
        )
    print(
        f"{comparison.count} certificates judged by both, {comparison.differences} differences, "
        f"{time.monotonic() - began:.0f} seconds"
    )
    return 1 if comparison.differences else 0


if __name__ == "__main__":
    sys.exit(main(sys.argv[1:]))
