"""Packages of Debian that are wanted, and the line that installs what is missing."""
from __future__ import annotations

import importlib
import shutil
from types import ModuleType

from .solid import Refusal

PACKAGES = {
    "numpy": "python3-numpy",
    "scipy": "python3-scipy",
    "meshio": "python3-meshio",
    "gmsh": "python3-gmsh",
    "tqdm": "python3-tqdm",
}


def install_line(package: str) -> str:
    return f"{package} is missing; install it by: sudo apt-get install -y {package}"


def module(name: str) -> ModuleType:
    """The module of that name. Refusal: its package is missing."""
    try:
        return importlib.import_module(name)
    except (ImportError, OSError) as fault:
        raise Refusal(install_line(PACKAGES.get(name, name))) from fault


def program(name: str, package: str) -> str:
    """The path of a program. Refusal: its package is missing."""
    path = shutil.which(name)
    if path is None:
        raise Refusal(install_line(package))
    return path
