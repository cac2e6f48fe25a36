"""Runs a program and tells what each of its openings read, and changes a file between two of its reads.

A small library, built with cc and loaded before the C library, writes each call of `open` and `read` down. After the
read of a number that it is told, it writes other bytes over a file, in place, as another program would.
"""

from __future__ import annotations

import os
import subprocess
from collections.abc import Sequence
from dataclasses import dataclass
from pathlib import Path

SECONDS = 300  # how long a run may take

SOURCE = r"""
#define _GNU_SOURCE
#include <dlfcn.h>
#include <errno.h>
#include <fcntl.h>
#include <stdarg.h>
#include <stdio.h>
#include <stdlib.h>
#include <string.h>
#include <sys/types.h>
#include <unistd.h>

#define FILES 4096

static int (*true_open)(const char *, int, ...);
static ssize_t (*true_read)(int, void *, size_t);
static int note = -1;            /* where the calls are written down */
static const char *name, *other; /* the file that changes, and the file of what it holds then */
static long due;                 /* the reads of it that are left until it does */
static long opening[FILES], openings;
static char changes[FILES];

__attribute__((constructor)) static void begin(void) {
    const char *path = getenv("WATCH_NOTES"), *count = getenv("WATCH_READS");
    true_open = (int (*)(const char *, int, ...))dlsym(RTLD_NEXT, "open");
    true_read = (ssize_t (*)(int, void *, size_t))dlsym(RTLD_NEXT, "read");
    name = getenv("WATCH_NAME");
    other = getenv("WATCH_OTHER");
    due = count ? strtol(count, 0, 10) : 0;
    note = path ? true_open(path, O_WRONLY | O_CREAT | O_TRUNC | O_CLOEXEC, 0600) : -1;
}

static void all(int file, const void *bytes, size_t length) {
    const char *at = bytes;
    while (length > 0) {
        ssize_t done = write(file, at, length);
        if (done <= 0) _exit(99);
        at += done;
        length -= done;
    }
}

/* A line of what was called, a number and a length, and behind it so many bytes. */
static void put(const char *what, long number, const void *bytes, size_t length) {
    char line[80];
    if (note < 0) return;
    all(note, line, snprintf(line, sizeof line, "%s %ld %zu\n", what, number, length));
    all(note, bytes, length);
}

static void change(void) {
    char bytes[65536];
    ssize_t count;
    int from = true_open(other, O_RDONLY | O_CLOEXEC), to = true_open(name, O_WRONLY | O_TRUNC | O_CLOEXEC);
    if (from < 0 || to < 0) _exit(98);
    while ((count = true_read(from, bytes, sizeof bytes)) > 0) all(to, bytes, count);
    close(from);
    close(to);
}

int open(const char *path, int flags, ...) {
    va_list rest;
    va_start(rest, flags);
    int mode = flags & (O_CREAT | O_TMPFILE) ? va_arg(rest, int) : 0;
    va_end(rest);
    int file = true_open(path, flags, mode), why = errno;
    put(file < 0 ? "refused" : "open", file < 0 ? -1 : openings, path, strlen(path));
    if (file >= 0 && file < FILES) {
        opening[file] = ++openings;
        changes[file] = name && strcmp(path, name) == 0;
    }
    errno = why;
    return file;
}

int open64(const char *path, int flags, ...) __attribute__((alias("open")));

ssize_t read(int file, void *bytes, size_t length) {
    ssize_t count = true_read(file, bytes, length);
    int why = errno;
    if (file >= 0 && file < FILES && opening[file]) {
        put(count < 0 ? "failed" : "read", opening[file] - 1, bytes, count < 0 ? 0 : count);
        if (changes[file] && due > 0 && --due == 0) change();
    }
    errno = why;
    return count;
}
"""


@dataclass
class Opening:
    """A file that was opened, and the bytes that each read of it gave."""

    name: str
    reads: list[bytes]

    @property
    def gave(self) -> bytes:
        """All bytes that its reads gave."""
        return b"".join(self.reads)


@dataclass(frozen=True)
class Change:
    """After so many reads of the file of that name it holds these bytes."""

    name: str
    reads: int
    bytes: bytes


@dataclass(frozen=True)
class Run:
    """What a program answered, the files that it opened, in their order, and the names that it could not open."""

    status: int
    out: bytes
    err: bytes
    openings: list[Opening]
    refused: list[str]


def build(folder: Path) -> Path:
    """Builds the library in the folder."""
    source, library = folder / "watched.c", folder / "watched.so"
    source.write_text(SOURCE, encoding="ascii")
    subprocess.run(["cc", "-O1", "-shared", "-fPIC", "-o", library, source], check=True)
    return library


def _openings(notes: bytes) -> tuple[list[Opening], list[str]]:
    """What the library wrote down: the openings, and the names that were refused."""
    found: list[Opening] = []
    refused: list[str] = []
    at = 0
    while at < len(notes):
        end = notes.index(b"\n", at)
        what, number, length = notes[at:end].split(b" ")
        at = end + 1 + int(length)
        told = notes[end + 1 : at]
        if what == b"open":
            found.append(Opening(os.fsdecode(told), []))
        elif what == b"refused":
            refused.append(os.fsdecode(told))
        else:
            found[int(number)].reads.append(told)
    return found, refused


def run(
    library: Path,
    command: Sequence[str | Path],
    folder: Path,
    room: Path,
    change: Change | None = None,
) -> Run:
    """Runs the command in the folder. What the library needs stands in `room`, a folder of its own."""
    notes = room / "notes"
    setting = {**os.environ, "LD_PRELOAD": str(library), "WATCH_NOTES": str(notes)}
    if change:
        other = room / "other"
        other.write_bytes(change.bytes)
        setting |= {"WATCH_NAME": change.name, "WATCH_OTHER": str(other)}
        setting["WATCH_READS"] = str(change.reads)
    done = subprocess.run(
        command,
        cwd=folder,
        env=setting,
        stdin=subprocess.DEVNULL,
        capture_output=True,
        check=False,
        timeout=SECONDS,
    )
    openings, refused = _openings(notes.read_bytes())
    return Run(done.returncode, done.stdout, done.stderr, openings, refused)
