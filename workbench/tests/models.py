"""Models that nobody here made, of packages of Debian: where each lies, and how it becomes a file that can be read."""
from __future__ import annotations

import gzip
import os
import shutil
import subprocess
import tarfile
from dataclasses import dataclass
from typing import Callable, List, Optional

GMSH = "/usr/share/doc/gmsh-doc/doc/gmsh"
CGAL = "/usr/share/doc/libcgal-dev/data.tar.gz"
OPENSCAD = "/usr/share/openscad/examples"
GEOMVIEW = "/usr/share/geomview/geom"
FREECAD = "/usr/share/freecad/Mod/Idf/Idflibs"
GZIPPED = (
    "demos/boolean/as1-tu-203.stp.gz",
    "demos/boolean/component8.step.gz",
    "demos/api/step_boundary_colors.stp.gz",
    "tutorial/t20_data.step.gz",
    "demos/api/object.stl.gz",
    "converters/stl_to_cartesian/lever.stl.gz",
)
READ = (".off", ".stl", ".ply", ".stp")
EXPORT_SECONDS = 120.0  # of a processor, that OpenSCAD may take for a model


@dataclass(frozen=True)
class Model:
    """A model of a package.

    path: of the file in the package, or in the archive that it has
    make: what writes the file that is read, of the path and the path to write to; whether it could
    """

    package: str
    name: str
    path: str
    make: Callable[[str, str], bool]

    def file(self, folder: str) -> Optional[str]:
        """The path of the file that is read, which is made in a folder; nothing where the model has no solid."""
        suffix = os.path.splitext(self.path.replace(".gz", ""))[1].replace(".scad", ".stl")
        path = os.path.join(folder, os.path.basename(self.name).replace(suffix, "") + suffix)
        return path if self.make(self.path, path) else None


def copied(source: str, target: str) -> bool:
    shutil.copyfile(source, target)
    return True


def unzipped(source: str, target: str) -> bool:
    with gzip.open(source) as text, open(target, "wb") as file:
        shutil.copyfileobj(text, file)
    return True


def from_archive(member: str, target: str) -> bool:
    with tarfile.open(CGAL) as archive:
        found = archive.extractfile(member)
        assert found is not None
        with open(target, "wb") as file:
            shutil.copyfileobj(found, file)
    return True


def exported(source: str, target: str) -> bool:
    """Whether OpenSCAD wrote the model as STL. Not for plane drawings, nor for what takes it too long."""
    setting = {**os.environ, "QT_QPA_PLATFORM": "offscreen"}
    limit = round(EXPORT_SECONDS)
    words = ["prlimit", f"--cpu={limit}:{limit}", "openscad", "-q", "-o", target, source]
    made = subprocess.run(words, capture_output=True, check=False, env=setting)
    return made.returncode == 0


def below(folder: str, suffixes: tuple[str, ...]) -> List[str]:
    found = [
        os.path.join(place, file)
        for place, _, files in os.walk(folder)
        for file in files
        if file.endswith(suffixes)
    ]
    return sorted(found)


def stem(path: str) -> str:
    return os.path.basename(path).split(".")[0]


def gmsh_models() -> List[Model]:
    paths = [os.path.join(GMSH, name) for name in GZIPPED]
    return [Model("gmsh-doc", stem(path), path, unzipped) for path in paths if os.path.isfile(path)]


def freecad_models() -> List[Model]:
    return [Model("freecad-common", stem(path), path, copied) for path in below(FREECAD, READ)]


def openscad_models() -> List[Model]:
    return [Model("openscad", stem(path), path, exported) for path in below(OPENSCAD, (".scad",))]


def geomview_models() -> List[Model]:
    return [
        Model("geomview", os.path.splitext(os.path.relpath(path, GEOMVIEW))[0], path, copied)
        for path in below(GEOMVIEW, (".off",))
    ]


def cgal_models() -> List[Model]:
    if not os.path.isfile(CGAL):
        return []
    with tarfile.open(CGAL) as archive:
        names = sorted(name for name in archive.getnames() if name.endswith(READ))
    names = [name for name in names if name.startswith("data/meshes/")]
    return [Model("libcgal-demo", os.path.basename(name), name, from_archive) for name in names]


def all_models() -> List[Model]:
    """The models of all packages that are installed."""
    return gmsh_models() + freecad_models() + openscad_models() + geomview_models() + cgal_models()
