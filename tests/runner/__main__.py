"""Proves everything and runs every test.

    ./test                  `rt ci`, which proves all and builds the program, and the steps below: most of them as
                            soon as the program is built, the others behind `rt ci`
    ./test quick [STEP..]   the steps alone, or those that are named, with the program that is built

The last line is `N passed, M failed` over all of it, and the status is 1 where something failed.
"""

from __future__ import annotations

import filecmp
import os
import pathlib
import re
import shutil
import subprocess
import sys
import tempfile
import threading
import time
from collections.abc import Callable
from concurrent.futures import Future, ThreadPoolExecutor

import needs
import steps
import times
from turns import Turns

BUILT = steps.TOP / "crates" / "staat_cli" / "out" / "staat_cli"
STORED = steps.TOP / "bin" / "staat"  # the program that comes with the repository
_IS_BUILT = re.compile(
    r"rt: staat_cli (proved$|is kept:)"
)  # what `rt ci` says once the program is there
OLDER = "test: the program is older than the sources of the crates; ./test builds it anew"
MEMORY = 3 << 30  # bytes for each check of `rt ci`: most take 1 to 2 GB, the greatest seen took 3.4


def is_of_these_sources() -> bool:
    """Whether the stored program was built from the sources that stand here, by what bin/BUILT_FROM says."""
    try:
        told = (STORED.parent / "BUILT_FROM").read_text(encoding="utf-8")
        made = subprocess.run(
            [steps.TOP / "tools" / "sources"], capture_output=True, text=True, check=True
        )
    except (OSError, subprocess.CalledProcessError):
        return False
    return f"sources {made.stdout.strip()}" in told.split("\n")


def find_program() -> pathlib.Path | None:
    """The program that was built here, or the stored one of these sources."""
    if BUILT.exists():
        return BUILT
    return STORED if STORED.exists() and is_of_these_sources() else None


def lanes() -> int:
    """How many checks `rt ci` runs side by side: one for each processor, as far as the free memory goes.

    Left to itself it would keep processors idle, since it thinks that a check of a high crate takes 6 GB, and give a
    crate beside which no other is ready four jobs, which take twice the processor time of one.
    """
    processors = len(os.sched_getaffinity(0))
    told = pathlib.Path("/proc/meminfo").read_text(encoding="ascii")
    free = re.search(r"MemAvailable:\s+(\d+) kB", told)
    return max(1, min(processors, 1024 * int(free.group(1)) // MEMORY if free else processors))


def prove(begin: Callable[[], object]) -> tuple[steps.Result, list[str]]:
    """Runs `rt ci`, printing what it prints, and answers its result and the table of its times.

    `begin` is called once the program is built.
    """
    began = time.monotonic()
    lines: list[str] = []
    with subprocess.Popen(
        ["rt", "ci"],
        cwd=steps.TOP,
        env={"RT_JOBS": str(lanes()), **os.environ},
        stdin=subprocess.DEVNULL,
        stdout=subprocess.PIPE,
        stderr=subprocess.STDOUT,
        encoding="utf-8",
        errors="replace",
    ) as process:
        sampler = times.Sampler(process.pid)
        looking = threading.Thread(target=sampler.run, daemon=True)
        looking.start()
        assert process.stdout
        for line in process.stdout:
            print(line, end="", flush=True)
            lines.append(line)
            if _IS_BUILT.match(line):
                begin()
        _, ended, usage = os.wait4(process.pid, 0)
        status = process.returncode = os.waitstatus_to_exitcode(ended)
        sampler.end()
        looking.join()
    passed, failed = steps.counts("".join(lines[-1:]), status)
    result = steps.Result("proofs", passed, failed, time.monotonic() - began, "")
    table = times.table(sampler.seconds(), usage.ru_utime + usage.ru_stime)
    return result, table + times.dearest(sampler.edits(), steps.TOP)


def prove_and_run(
    chosen: list[steps.Step], providing: Future[list[str]]
) -> tuple[list[steps.Result], list[str]]:
    """Runs `rt ci` and the steps, and answers all results and the table of times.

    Once the program is built, one step after another runs beside the wrong bodies, with a copy of the program. The
    late steps, and those that are left, run side by side when `rt ci` has ended. Where it has left another program
    than that one, all steps run again.
    """
    turns = Turns(chosen)
    early: list[Future[None]] = []
    with tempfile.TemporaryDirectory() as room, ThreadPoolExecutor(1) as pool:
        copy = pathlib.Path(room) / "staat"

        def begin() -> None:
            if BUILT.exists() and not early:
                shutil.copy2(BUILT, copy)
                early.append(
                    pool.submit(lambda: turns.take(copy, providing.result(), is_early=True))
                )

        proofs, table = prove(begin)
        program = BUILT if BUILT.exists() else None
        if early and not (program and filecmp.cmp(copy, program, shallow=False)):
            early.pop().result()
            turns = Turns(chosen)
        run_steps(turns, program, providing.result())
        for job in early:
            job.result()
    return [proofs, *turns.results], table


def run_steps(turns: Turns, program: pathlib.Path | None, missing: list[str]) -> None:
    """Runs the steps that are left side by side."""
    lanes_of_steps = os.cpu_count() or 1
    with ThreadPoolExecutor(lanes_of_steps) as pool:
        for job in [pool.submit(turns.take, program, missing) for _ in range(lanes_of_steps)]:
            job.result()


def main(words: list[str]) -> int:
    """Reads the words, runs what they ask for, and answers the status."""
    is_quick = words[:1] == ["quick"]
    names = words[1:] if is_quick else words
    if (names and not is_quick) or not set(names) <= {step.name for step in steps.STEPS}:
        print(f"{__doc__}\nSteps: {', '.join(step.name for step in steps.STEPS)}", file=sys.stderr)
        return 2
    chosen = steps.chosen(names, is_quick)
    wanted = {need for step in chosen for need in step.needs} | (set() if is_quick else {"rt"})
    results: list[steps.Result] = []
    table: list[str] = []
    with ThreadPoolExecutor(1) as pool:  # what the proofs do not need is installed beside them
        providing = pool.submit(needs.provide, wanted)
        if is_quick or needs.missing(["rt"]):
            turns = Turns(chosen)
            program = find_program() if is_quick else (BUILT if BUILT.exists() else None)
            if is_quick and program == BUILT and steps.is_older(BUILT):
                print(OLDER, file=sys.stderr)
            run_steps(turns, program, providing.result())
            results = [steps.Result("proofs", 0, 1, 0, "")] * (not is_quick) + turns.results
        else:
            results, table = prove_and_run(chosen, providing)
    print("\n".join(["", *table, *(f"{it.name}: {it.seconds:.0f} seconds" for it in results)]))
    passed, failed = sum(it.passed for it in results), sum(it.failed for it in results)
    print(f"{passed} passed, {failed} failed", flush=True)
    return 1 if failed else 0


if __name__ == "__main__":
    sys.exit(main(sys.argv[1:]))
