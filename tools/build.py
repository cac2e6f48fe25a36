#!/usr/bin/env python3
"""Proves the crates that the program stands on, side by side, and builds it: tools/build.py

Each crate is proved from nothing by `rattle build`, with the words of `rt verdict`, as soon as those below it are: the
first are those behind which the longest chain of others stands, by lines of sources. A crate has one job, and the first
of them, if it is large, also those that would stand idle: more jobs make a proof shorter and dearer. A library leaves
what the crates above cite of it, its statements. The program is `crates/staat_cli/out/staat_cli`, and `sources` beside
it holds the checksum of what it was built from (tools/sources).

What is proved stays, in `out/proved` of the crate's folder, so a run that is cut off goes on from there. Status 0 if
the program is built, 1 if a crate was refused, 2 if something else was in the way.
"""

from __future__ import annotations

import fcntl
import hashlib
import os
import re
import shutil
import signal
import subprocess
import sys
import time
from collections.abc import Iterator
from dataclasses import dataclass, field
from functools import cached_property
from pathlib import Path
from typing import TextIO

TOP = Path(__file__).resolve().parent.parent
PROGRAM = "staat_cli"
SOURCES = ("src", "specs", "proofs")
MEMORY = 2 << 30  # bytes that a job may take
LINES = 1000  # lines of sources for each of which a crate gains by one more job
TICK = 0.05  # seconds from one look at what is at work to the next
TAIL = 20  # lines that are shown of a refusal


class Kit:
    """The prover of the kit that `rt` is part of."""

    def __init__(self) -> None:
        page = subprocess.run(["rt", "doc"], check=True, capture_output=True, text=True).stdout
        self.folder = Path(page.strip()).parent
        self.version = subprocess.run(["rt", "version"], check=True, capture_output=True).stdout

    def _words(self, verb: str, crate: Crate, jobs: int) -> list[str]:
        """The words for a crate over the libraries below it, as they were proved."""
        libraries = self.folder / "rlibs"
        words = [str(self.folder / "bin" / "rattle"), verb, "--crate-name", crate.name]
        words += [crate.root, "-L", f"dependency={libraries}"]
        for name in ("std", *crate.of_kit):
            words += ["--extern", f"{name}={libraries / name}.rlib"]
        for below in crate.below:
            words += ["--extern", f"{below.name}={below.library}"]
        for below in crate.all_below():
            words += ["-L", f"dependency={below.library.parent}"]
        words += ["--antt-project", str(self.folder / "rattle" / "logic" / "antt-project.json")]
        words += ["--logic-built", str(self.folder / "logic_built"), "--jobs", str(jobs)]
        return [*words, "--links", f"{crate.name}="]

    def build(self, crate: Crate, jobs: int, to: Path) -> list[str]:
        """The words that prove a crate, and write what it is for those above it, or the program's code."""
        words = [*self._words("build", crate, jobs), "-o", str(to)]
        if crate.is_program:
            return [*words, "--toolchain", str(self.folder / "toolchain"), "--backend", "llvm"]
        return [*words, "--statements"]

    def check(self, crate: Crate, kept: Path) -> list[str]:
        """The words that prove a crate by one job, and leave a file in `kept` for each module that was proved."""
        words = [*self._words("check", crate, 1), "--incremental", str(kept)]
        return [*words, "--test"] if crate.name.endswith("_tests") else words

    def link(self, code: Path, to: Path) -> list[str]:
        """The words that make the program of its code."""
        words = [str(self.folder / "bin" / "rattle-link"), "--target", "x86_64-unknown-linux-gnu"]
        words += ["--toolchain", str(self.folder / "toolchain"), "-o", str(to), str(code)]
        return words + [str(self.folder / "c" / name) for name in ("libos_c.a", "liblibc_c.a")]


@dataclass(eq=False)
class Crate:
    """A crate of crates.txt: those right below it, the lines of its sources, and of the longest chain from it up."""

    name: str
    folder: Path
    row: str
    below: list[Crate] = field(default_factory=list)
    of_kit: list[str] = field(default_factory=list)
    lines: int = 0
    chain: int = 0

    def all_below(self) -> list[Crate]:
        """Every crate that this one stands on, in the order of their names."""
        found = set(self.below).union(*(crate.all_below() for crate in self.below))
        return sorted(found, key=lambda crate: crate.name)

    def files(self) -> list[Path]:
        """The files that its proof reads, in the order of their names."""
        found = (self.folder / part for part in SOURCES)
        return sorted(file for part in found for file in part.rglob("*") if file.is_file())

    @property
    def is_program(self) -> bool:
        """Whether it has a `main`."""
        return (self.folder / "src" / "main.rt").exists()

    @property
    def root(self) -> str:
        """The file that names all others of `src`."""
        return "src/main.rt" if self.is_program else "src/lib.rt"

    @property
    def proved(self) -> Path:
        """The folder of what was made of it when it was proved."""
        return self.folder / "out" / "proved"

    @property
    def library(self) -> Path:
        """What those above it are proved over."""
        return self.proved / f"{self.name}.rlib"

    @property
    def log(self) -> Path:
        """The file of what was said of its last proof."""
        return self.folder / "out" / "build.log"

    @cached_property
    def key(self) -> str:
        """A checksum of all that its proof reads beside the kit, as it stood when this was first asked."""
        found = hashlib.sha256(self.row.encode())
        for file in self.files():
            name = str(file.relative_to(self.folder)).encode()
            for text in (name, file.read_bytes()):
                found.update(b"%d:" % len(text) + text)
        for crate in self.below:
            found.update(crate.key.encode())
        return found.hexdigest()


def crates_of(top: Path, program: str) -> list[Crate]:
    """The program's crate and all below it, each after those that it stands on."""
    rows = [
        row.partition("#")[0].strip()
        for row in (top / "crates.txt").read_text(encoding="utf-8").splitlines()
    ]
    crates = {
        name: Crate(name, top / "crates" / name, row)
        for row in rows
        for name in re.findall(r"^[\w-]+", row)
    }
    for crate in crates.values():
        uses = crate.row.partition(":")[2].split()
        crate.below = [crates[name] for name in uses if name in crates]
        crate.of_kit = [name for name in uses if name not in crates]
    found = sorted(
        {crates[program], *crates[program].all_below()}, key=lambda crate: len(crate.all_below())
    )
    for crate in found:
        crate.lines = sum(file.read_bytes().count(b"\n") for file in crate.files())
    for crate in reversed(found):
        crate.chain = crate.lines + max((it.chain for it in found if crate in it.below), default=0)
    return found


def slots() -> int:
    """How many jobs may be at work: one for each processor that there is to use, as far as the free memory goes."""
    processors = len(os.sched_getaffinity(0))
    free = re.search(r"MemAvailable:\s+(\d+) kB", Path("/proc/meminfo").read_text(encoding="ascii"))
    return max(1, min(processors, 1024 * int(free.group(1)) // MEMORY if free else processors))


class Job:
    """The prover at work on one crate. The files of the lock stay open in it, so that it holds as long as this runs."""

    def __init__(self, kit: Kit, crate: Crate, jobs: int, locks: list[int]) -> None:
        self.crate, self.jobs, self._began = crate, jobs, time.monotonic()
        self.seconds = self.used = 0.0
        self._kit, self._locks = kit, locks
        self._key = f"{kit.version.decode()}{crate.key}\n"
        self._to = crate.proved / f"{crate.name}.o" if crate.is_program else crate.library
        self._process: subprocess.Popen[bytes] | None = None
        self.is_proved_here = not self._was_proved()
        if self.is_proved_here:
            shutil.rmtree(crate.proved, ignore_errors=True)
            crate.proved.mkdir(parents=True)
            self._process = self._run(kit.build(crate, jobs, self._to), "wb")

    def _was_proved(self) -> bool:
        stamp = self.crate.proved / "key"
        return stamp.exists() and stamp.read_text(encoding="utf-8") == self._key

    def _run(self, words: list[str], mode: str) -> subprocess.Popen[bytes]:
        with self.crate.log.open(mode) as log:
            return subprocess.Popen(
                words,
                cwd=self.crate.folder,
                stdin=subprocess.DEVNULL,
                stdout=log,
                stderr=subprocess.STDOUT,
                pass_fds=self._locks,
                start_new_session=True,
            )

    def _finish(self, status: int) -> int:
        if status == 0 and self.crate.is_program:
            program = self.crate.folder / "out" / self.crate.name
            status = self._run(self._kit.link(self._to, program), "ab").wait()
        if status == 0:
            (self.crate.proved / "key").write_text(self._key, encoding="utf-8")
        return status

    def status(self) -> int | None:
        """The status with which it ended, or none if it is still at work."""
        if not self._process:
            return 0
        if self._process.returncode is None:
            number, status, usage = os.wait4(self._process.pid, os.WNOHANG)
            if number:
                self.seconds = time.monotonic() - self._began
                self.used = usage.ru_utime + usage.ru_stime
                self._process.returncode = self._finish(os.waitstatus_to_exitcode(status))
        return self._process.returncode

    def stop(self) -> None:
        """Ends it, with the copies of itself that it works by, if it is at work."""
        if self._process and self._process.returncode is None:
            os.killpg(self._process.pid, signal.SIGKILL)
            self._process.wait()


class Progress:
    """Tells how far the run is: on a terminal in one line that is rewritten, elsewhere in a line for each crate."""

    def __init__(self, crates: list[Crate], at_once: int, to: TextIO) -> None:
        self._at_once, self._to = at_once, to
        self._blank = "\r\033[K" if to.isatty() else ""
        self._began, self._shown = time.monotonic(), 0.0
        self._all, self._left = len(crates), list(crates)
        self._here: list[Job] = []

    def say(self, text: str) -> None:
        """A line that stays."""
        print(f"{self._blank}staat: {text}", file=self._to, flush=True)

    def _so_far(self) -> str:
        return f"{self._all - len(self._left)} of {self._all} crates proved"

    def _minutes(self) -> str:
        return f"{(time.monotonic() - self._began) / 60:.1f} minutes"

    def ended(self, job: Job) -> None:
        """Takes note that a crate is proved."""
        self._left.remove(job.crate)
        if job.is_proved_here:
            self._here.append(job)
            how = f"{job.seconds:.0f} seconds, {job.used:.0f} of a processor, {job.jobs} jobs"
        else:
            how = "was so"
        if not self._blank:
            self.say(f"{self._so_far()}: {job.crate.name} ({how})")

    def estimate(self) -> float | None:
        """The seconds left by what was proved here, once that is a fifth of the lines to prove.

        The processors share what is left, but the longest chain of crates goes one after another.
        """
        here, lines = (
            sum(crate.lines for crate in it)
            for it in ([job.crate for job in self._here], self._left)
        )
        if not here or 4 * here < lines:
            return None
        busy = sum(job.jobs * job.seconds for job in self._here) / self._at_once
        walked = sum(job.seconds for job in self._here)
        chain = max((crate.chain for crate in self._left), default=0)
        return max(lines * busy, chain * walked) / here

    def show(self, working: list[Job]) -> None:
        """Rewrites the line, once a second."""
        if not self._blank or time.monotonic() - self._shown < 1:
            return
        self._shown, left = time.monotonic(), self.estimate()
        text = f"staat: {self._so_far()}, {self._minutes()}"
        text += f", about {left / 60:.0f} more" if left is not None else ""
        text += f": {', '.join(job.crate.name for job in working)}"
        columns = os.get_terminal_size(self._to.fileno()).columns or 80
        print(self._blank + text[: columns - 1], end="", file=self._to, flush=True)

    def refused(self, job: Job) -> None:
        """Tells of a crate that was refused: its last lines, and where all of them are."""
        last = job.crate.log.read_text(encoding="utf-8", errors="replace").splitlines()[-TAIL:]
        self.say(f"{job.crate.name} was refused, with these last lines of {job.crate.log}:")
        print("\n".join(last), file=self._to, flush=True)

    def built(self) -> None:
        """Tells that the program is built."""
        used = sum(job.used for job in self._here) / 60
        self.say(f"built in {self._minutes()}, with {used:.1f} of a processor")


class Builder:
    """Proves crates, each once those below it are proved, by so many jobs."""

    def __init__(self, crates: list[Crate], at_once: int, to: TextIO) -> None:
        self._left = sorted(crates, key=lambda crate: -crate.chain)
        self._kit, self._at_once = Kit(), at_once
        self._done: set[Crate] = set()
        self._working: list[Job] = []
        self._progress = Progress(crates, at_once, to)

    def _start(self, locks: list[int]) -> None:
        """Starts the crates that can be proved now, the longest chain first, which has all idle jobs."""
        idle = self._at_once - sum(job.jobs for job in self._working)
        ready = [crate for crate in self._left if self._done.issuperset(crate.below)]
        for crate in ready[: max(0, idle)]:
            spare = idle - len(ready) + 1 if crate is ready[0] else 1
            jobs = max(1, min(spare, crate.lines // LINES))
            self._left.remove(crate)
            self._working.append(Job(self._kit, crate, jobs, locks))

    def _ended(self) -> Iterator[Job]:
        for job in list(self._working):
            if job.status() is not None:
                self._working.remove(job)
                yield job

    def run(self, locks: list[int]) -> bool:
        """Whether all crates are proved and the program is built. At the first refusal the others are stopped too."""
        try:
            while self._left or self._working:
                self._start(locks)
                self._progress.show(self._working)
                time.sleep(TICK)
                for job in self._ended():
                    if job.status():
                        self._progress.refused(job)
                        return False
                    self._done.add(job.crate)
                    self._progress.ended(job)
        finally:
            for job in self._working:
                job.stop()
        self._progress.built()
        return True


def lock(crates: list[Crate], to: TextIO) -> list[int]:
    """Keeps every other build, and every `rt`, out of the crates until the files that it answers are closed."""
    held = []
    for folder in sorted(str(crate.folder.resolve()) for crate in crates):
        held.append(os.open(folder, os.O_RDONLY))
        try:
            fcntl.flock(held[-1], fcntl.LOCK_EX | fcntl.LOCK_NB)
        except BlockingIOError:
            print(
                f"staat: waiting for another build, or another rt, to end in {folder}",
                file=to,
                flush=True,
            )
            fcntl.flock(held[-1], fcntl.LOCK_EX)
        except OSError:  # a file system without locks
            pass
    return held


def checksum(top: Path) -> str:
    """The checksum of the sources, as they stand now."""
    return subprocess.run(
        [top / "tools" / "sources"], check=True, capture_output=True, text=True
    ).stdout.strip()


def build(top: Path, at_once: int, to: TextIO) -> bool:
    """Whether the program is proved and built of the sources that stand there."""
    crates = crates_of(top, PROGRAM)
    locks = lock(crates, to)
    out = top / "crates" / PROGRAM / "out"
    try:
        before = checksum(top)
        stamp = out / "sources"
        if (
            stamp.exists()
            and stamp.read_text(encoding="ascii") == before + "\n"
            and (out / PROGRAM).exists()
        ):
            return True
        stamp.unlink(missing_ok=True)
        if not Builder(crates, at_once, to).run(locks):
            return False
        if checksum(top) != before:
            print("staat: a source was changed during the build: build again", file=to)
            return False
        stamp.write_text(before + "\n", encoding="ascii")
        return True
    finally:
        for held in locks:
            os.close(held)


def main() -> int:
    for number in (signal.SIGTERM, signal.SIGHUP):
        signal.signal(number, lambda number, _: sys.exit(128 + number))
    try:
        return 0 if build(TOP, slots(), sys.stderr) else 1
    except KeyboardInterrupt:
        print("\nstaat: cut off; the next build goes on from here", file=sys.stderr)
        return 130
    except OSError as error:
        print(f"staat: {error.strerror}: {error.filename}", file=sys.stderr)
        return 2


if __name__ == "__main__":
    sys.exit(main())
