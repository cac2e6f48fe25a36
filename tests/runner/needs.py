"""What the tests need of the system: how each thing is found, and the Debian package that has it."""

from __future__ import annotations

import importlib.util
import os
import shutil
import subprocess
import sys
from collections.abc import Callable, Iterable
from dataclasses import dataclass


@dataclass(frozen=True)
class Need:
    """Something of the system; the package is empty where none has it."""

    package: str
    is_there: Callable[[], bool]


def _command(name: str) -> Callable[[], bool]:
    return lambda: shutil.which(name) is not None


def _module(name: str) -> Callable[[], bool]:
    return lambda: importlib.util.find_spec(name) is not None


def _file(name: str) -> Callable[[], bool]:
    return lambda: os.path.isfile(name)


def _folder(name: str) -> Callable[[], bool]:
    return lambda: os.path.isdir(name)


NEEDS = {
    "rt": Need("", _command("rt")),
    "assimp": Need("assimp-utils", _command("assimp")),
    "as1": Need("gmsh-doc", _folder("/usr/share/doc/gmsh-doc/doc/gmsh/demos/boolean")),
    "blender": Need("blender", _command("blender")),
    "c++": Need("g++", _command("g++")),
    "cc": Need("gcc", _command("cc")),
    "cgal": Need("libcgal-dev", _folder("/usr/include/CGAL")),
    "cgal meshes": Need("libcgal-demo", _file("/usr/share/doc/libcgal-dev/data.tar.gz")),
    "chips": Need("freecad-common", _folder("/usr/share/freecad/Mod/Idf/Idflibs")),
    "chromedriver": Need("chromium-driver", _command("chromedriver")),
    "chromium": Need("chromium", _command("chromium")),
    "freecad": Need("freecad", _command("freecadcmd")),
    "geomview": Need("geomview", _folder("/usr/share/geomview/geom")),
    "gmsh": Need("python3-gmsh", _module("gmsh")),
    "mcad": Need(
        "openscad-mcad", _file("/usr/share/openscad/libraries/MCAD/lego_compatibility.scad")
    ),
    "meshio": Need("python3-meshio", _module("meshio")),
    "numpy": Need("python3-numpy", _module("numpy")),
    "occt": Need("occt-misc", _folder("/usr/share/opencascade/data/occ")),
    "openscad": Need("openscad", _command("openscad")),
    "prlimit": Need("util-linux", _command("prlimit")),
    "scipy": Need("python3-scipy", _module("scipy")),
    "selenium": Need("python3-selenium", _module("selenium")),
    "three": Need("libjs-three", _folder("/usr/share/javascript/three")),
    "tqdm": Need("python3-tqdm", _module("tqdm")),
}


def missing(names: Iterable[str]) -> list[str]:
    """Those of the names that the system lacks, in alphabetical order, each once."""
    importlib.invalidate_caches()
    return sorted({name for name in names if not NEEDS[name].is_there()})


def install_line(names: Iterable[str]) -> list[str]:
    """The words of the command that installs what is missing; none where no package has it."""
    packages = sorted({NEEDS[name].package for name in names} - {""})
    return ["apt-get", "install", "-y", *packages] if packages else []


def told(names: list[str]) -> list[str]:
    """What is said of things that are missing."""
    lines = [f"test: missing: {', '.join(names)}"] if names else []
    words = install_line(names)
    if words:
        lines.append("test: to install: " + " ".join(words))
    if "rt" in names:
        lines.append(
            "test: rt is the command of Rattle, of the kit that README.md names; without it nothing is proved"
        )
    return lines


def provide(names: Iterable[str]) -> list[str]:
    """Says what is missing, installs it where this runs as root without a terminal, and answers what still is."""
    lacking = missing(names)
    for line in told(lacking):
        print(line, file=sys.stderr)
    words = install_line(lacking)
    if words and os.geteuid() == 0 and not sys.stdin.isatty():
        setting = {**os.environ, "DEBIAN_FRONTEND": "noninteractive"}
        for command in (["apt-get", "update"], words):
            subprocess.run(
                command, env=setting, stdin=subprocess.DEVNULL, stdout=sys.stderr, check=False
            )
        lacking = missing(lacking)
        if lacking:
            print(f"test: still missing: {', '.join(lacking)}", file=sys.stderr)
    return lacking
