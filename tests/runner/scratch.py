"""Scratch copies of the repository, in which a command may write what it likes."""

from __future__ import annotations

import os
import pathlib
import shutil
import stat
import subprocess

TOP = pathlib.Path(__file__).resolve().parents[2]
SECONDS = 300  # how long one command may run

_NOT_COPIED = {
    ".git",
    "crates",
}  # the crates are linked: pages read them, and no command writes there


def environment() -> dict[str, str]:
    """The variables for a command: the Python of the system first, and no window is opened."""
    return {
        **os.environ,
        "PATH": f"/usr/bin:{os.environ['PATH']}",
        "LC_ALL": "C.UTF-8",
        "QT_QPA_PLATFORM": "offscreen",
    }


def put_program(path: pathlib.Path, program: pathlib.Path) -> None:
    """Writes a command that runs the built program."""
    path.unlink(missing_ok=True)
    path.write_text(f'#!/bin/sh\nexec "{program}" "$@"\n', encoding="utf-8")
    path.chmod(path.stat().st_mode | stat.S_IXUSR | stat.S_IXGRP | stat.S_IXOTH)


def copy_repository(to: pathlib.Path, program: pathlib.Path) -> None:
    """Copies what stands in the repository to a folder, with `./staat` as the built program."""
    to.mkdir()
    for entry in TOP.iterdir():
        if entry.name in _NOT_COPIED:
            continue
        if entry.is_dir():
            shutil.copytree(
                entry, to / entry.name, symlinks=True, ignore=shutil.ignore_patterns("__pycache__")
            )
        else:
            shutil.copy2(entry, to / entry.name)
    (to / "crates").symlink_to(TOP / "crates")
    put_program(to / "staat", program)


def run(command: str, folder: pathlib.Path, path: str | None = None) -> tuple[int, str, str]:
    """The status, out and err of a shell's command in a folder. The status is -1 where it did not end in time."""
    setting = environment()
    if path:
        setting["PATH"] = f"{path}:{setting['PATH']}"
    try:
        done = subprocess.run(
            ["sh", "-c", command],
            cwd=folder,
            env=setting,
            stdin=subprocess.DEVNULL,
            capture_output=True,
            encoding="utf-8",
            errors="surrogateescape",
            timeout=SECONDS,
            check=False,
        )
    except subprocess.TimeoutExpired:
        return -1, "", f"no end after {SECONDS} seconds\n"
    return done.returncode, done.stdout, done.stderr
