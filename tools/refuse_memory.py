#!/usr/bin/python3
"""Runs the built planner with each of its allocations refused in turn, and judges each reply.

    tools/refuse_memory.py PROGRAM [--only=WORD]

A run is right where it ends with status 7, nothing on out and the line `staat: out of memory` on err, or with the reply
that comes where nothing is refused. A small library, built with cc and loaded before the C library, counts the calls of
malloc, calloc and realloc and refuses one of them. For each command a line tells how many allocations there are and how
the runs ended. The last line sums up, and the status is 1 if any run was wrong.
"""
import argparse
import collections
import os
import subprocess
import sys
import tempfile

TOP = os.path.dirname(os.path.dirname(os.path.abspath(__file__)))
WANT = (7, b"", b"staat: out of memory\n")
CUBES = ["examples/touching-cubes/a.off", "examples/touching-cubes/b.off"]
CLOSED = ["--manifest=examples/closed-box/parts.json"]
LIDDED = ["--manifest=examples/box-with-lid/parts.json"]

REFUSER = r"""
#define _GNU_SOURCE
#include <dlfcn.h>
#include <stdio.h>
#include <stdlib.h>

static unsigned long calls, refused;

__attribute__((constructor)) static void begin(void) {
    const char *word = getenv("REFUSE");
    refused = word ? strtoul(word, 0, 10) : 0;
}

__attribute__((destructor)) static void end(void) {
    const char *name = getenv("COUNT_FILE");
    FILE *file = name ? fopen(name, "w") : 0;
    if (file) {
        fprintf(file, "%lu", calls);
        fclose(file);
    }
}

static int refuses(void) { return ++calls == refused; }

extern void *__libc_malloc(size_t), *__libc_calloc(size_t, size_t), *__libc_realloc(void *, size_t);

void *malloc(size_t size) { return refuses() ? 0 : __libc_malloc(size); }
void *calloc(size_t count, size_t size) { return refuses() ? 0 : __libc_calloc(count, size); }
void *realloc(void *old, size_t size) { return refuses() ? 0 : __libc_realloc(old, size); }
"""


def build(folder):
    """The library that refuses an allocation."""
    source, library = os.path.join(folder, "refuser.c"), os.path.join(folder, "refuser.so")
    with open(source, "w", encoding="ascii") as file:
        file.write(REFUSER)
    subprocess.run(
        ["cc", "-O1", "-fno-builtin", "-shared", "-fPIC", "-o", library, source], check=True
    )
    return library


def run(program, words, library, refused, count_file=None):
    """The status, out and err of the program, with this allocation refused; 0 refuses none."""
    setting = {**os.environ, "LD_PRELOAD": library, "REFUSE": str(refused)}
    if count_file:
        setting["COUNT_FILE"] = count_file
    done = subprocess.run([program, *words], cwd=TOP, env=setting, capture_output=True, check=False)
    return done.returncode, done.stdout, done.stderr


def commands(program, folder):
    """The words of each command that is tried; the certificates that `check` reads are made first."""
    made = {}
    for name, words in (("plan", CUBES), ("refusal", CLOSED)):
        made[name] = os.path.join(folder, name + ".txt")
        with open(made[name], "wb") as file:
            subprocess.run([program, "plan", "--cert", *words], cwd=TOP, stdout=file, check=False)
    return [
        ["look", *LIDDED],
        ["graph", "--along=0,0,1", *LIDDED],
        ["plan", "--cert", *CUBES],
        ["plan", "--cert", *CLOSED],
        ["plan", "--robust", *LIDDED],
        ["check", made["plan"], *CUBES],
        ["check", made["refusal"], *CLOSED],
        ["cells", *CUBES],
        ["explode", "--off", *CUBES],
        ["decide", *CUBES],
        ["blocks", "--along=0,0,1", *CUBES],
        ["drill", "row", "2"],
    ]


def shown(words):
    """The words of a command, without the folder of a certificate."""
    return " ".join(os.path.basename(word) if word.startswith("/") else word for word in words)


def tried(program, words, library, folder):
    """How many allocations a command makes, how its runs ended, and the runs that were wrong."""
    count_file = os.path.join(folder, "count")
    usual = run(program, words, library, 0, count_file)
    with open(count_file, encoding="ascii") as file:
        count = int(file.read())
    ends, wrong = collections.Counter(), []
    for refused in range(1, count + 1):
        got = run(program, words, library, refused)
        if got in (WANT, usual):
            ends["out of memory" if got == WANT else "the ordinary reply"] += 1
        else:
            wrong.append((refused, got))
    return count, ends, wrong


def main():
    parser = argparse.ArgumentParser(description="Refuses each allocation of the planner in turn.")
    parser.add_argument("program", help="the built program, crates/staat_cli/out/staat_cli")
    parser.add_argument("--only", default="", help="only commands with this word")
    given = parser.parse_args()
    program = os.path.abspath(given.program)
    total, faults = 0, 0
    with tempfile.TemporaryDirectory() as folder:
        library = build(folder)
        for words in commands(program, folder):
            if given.only and given.only not in words:
                continue
            count, ends, wrong = tried(program, words, library, folder)
            told = ", ".join(f"{number} end with {end}" for end, number in sorted(ends.items()))
            print(f"{shown(words)}: {count} allocations; {told}; {len(wrong)} wrong", flush=True)
            for refused, (status, out, err) in wrong[:10]:
                print(
                    f"  allocation {refused} refused: status {status}, out {out[:60]!r}, err {err[:60]!r}"
                )
            total, faults = total + count, faults + len(wrong)
    print(f"{total} allocations refused, {faults} wrong replies")
    return 1 if faults else 0


if __name__ == "__main__":
    sys.exit(main())
