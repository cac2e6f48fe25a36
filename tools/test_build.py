"""Tests of ./staat, build.py, release and compare_program.py, in small repositories with a stand-in for rt."""

from __future__ import annotations

import io
import os
import pathlib
import pty
import shutil
import signal
import subprocess
import sys
import tempfile
import time
import unittest
import unittest.mock
from typing import TextIO

import build

TOP = pathlib.Path(__file__).resolve().parent.parent
TOOLS = ("build.py", "compare_program.py", "release", "sources")
PLAIN_PATH = "/usr/bin:/bin"

# The kit: RT_KIT is its version.
RT = """#!/bin/sh
case $1 in
version) echo "${RT_KIT-kit 1}" ;;
doc) echo "$(dirname "$0")/START-HERE.md" ;;
esac
"""

# Proves a crate in RT_SLEEP seconds, but for the crate RT_REFUSES, and builds the program. RT_LOG has what it did.
RATTLE = """#!/bin/sh
while [ $# -gt 0 ]; do
    case $1 in
    --crate-name) name=$2 ;;
    --jobs) jobs=$2 ;;
    --extern | -L) [ -e "${2#*=}" ] || exit 3 ;;
    -o) to=$2 ;;
    esac
    shift
done
echo "begin $name $jobs" >>"$RT_LOG"
sleep "${RT_SLEEP-0.01}"
[ "$name" = "${RT_REFUSES-}" ] && { echo "src/lib.rt:1:1: error: it is false"; exit 1; }
case $to in
*.o) printf '#!/bin/sh\\n%s\\n' "$(cat src/main.rt)" >"$to" ;;
*) mkdir -p "$to" ;;
esac
echo logic=proved
echo "end $name" >>"$RT_LOG"
"""

# Makes the program of the code that is named after it.
LINK = """#!/bin/sh
while [ "$1" != -o ]; do shift; done
cp "$3" "$2" && chmod +x "$2"
"""

# From the bottom up: low, then two chains, of which left is the longer; the program stands on both.
CRATES = "low:\nleft: low std_crate\nright: low\nmiddle: left\nalone:\nstaat_cli: middle right\n"
LINES = {"low": 3, "left": 20, "right": 9, "middle": 5, "alone": 1}


class InRepository(unittest.TestCase):
    """Tests in a repository of a few crates, committed, with the stand-in in the folder `kit` beside it."""

    has_program = False  # whether bin/ is in it
    kept: dict[bool, tempfile.TemporaryDirectory[str]] = {}  # what is copied for each test

    def setUp(self) -> None:
        room = tempfile.TemporaryDirectory()
        self.addCleanup(room.cleanup)
        self.room = pathlib.Path(room.name).resolve()
        self.top = self.room / "repository"
        self.log = self.room / "rt.log"
        kept = self.kept.get(self.has_program)
        if kept:
            shutil.copytree(kept.name, self.room, symlinks=True, dirs_exist_ok=True)
            return
        self.make()
        self.kept[self.has_program] = tempfile.TemporaryDirectory()
        unittest.addModuleCleanup(self.kept[self.has_program].cleanup)
        shutil.copytree(
            self.room, self.kept[self.has_program].name, symlinks=True, dirs_exist_ok=True
        )

    def make(self) -> None:
        """Makes the repository and the stand-in."""
        for name, lines in LINES.items():
            self.write(f"crates/{name}/src/lib.rt", "fn f()\n" * lines)
        self.write("crates/staat_cli/src/main.rt", 'echo "ran $*"')
        self.write("crates.txt", CRATES)
        (self.top / "tools").mkdir()
        for name in TOOLS:
            shutil.copy2(TOP / "tools" / name, self.top / "tools")
        for name in ("staat", ".gitignore", ".gitattributes"):
            shutil.copy2(TOP / name, self.top)
        for name, text in (("rt", RT), ("bin/rattle", RATTLE), ("bin/rattle-link", LINK)):
            self.write(f"../kit/{name}", text)
            (self.room / "kit" / name).chmod(0o755)
        for folder in ("rlibs/std.rlib", "rlibs/std_crate.rlib"):
            (self.room / "kit" / folder).mkdir(parents=True)
        self.git("init", "-q")
        self.commit()
        if self.has_program:
            self.release()

    def write(self, name: str, text: str) -> None:
        path = self.top / name
        path.parent.mkdir(parents=True, exist_ok=True)
        path.write_text(text, encoding="utf-8")

    def run_in(
        self, *words: str | pathlib.Path, kit: bool = True, **setting: str
    ) -> subprocess.CompletedProcess[str]:
        path = f"{self.room}/kit:{PLAIN_PATH}" if kit else PLAIN_PATH
        setting = {"PATH": path, "HOME": str(self.room), "RT_LOG": str(self.log), **setting}
        folder = setting.pop("PWD", str(self.top))
        return subprocess.run(
            [str(word) for word in words],
            cwd=folder,
            env=setting,
            stdin=subprocess.DEVNULL,
            capture_output=True,
            text=True,
            check=False,
        )

    def git(self, *words: str) -> str:
        name = ("-c", "user.name=a", "-c", "user.email=a@b")
        done = self.run_in("git", *name, *words)
        self.assertEqual(done.returncode, 0, done.stderr)
        return done.stdout

    def commit(self) -> None:
        self.git("add", "-A")
        self.git("commit", "-q", "--allow-empty", "-m", "change")

    def release(self) -> None:
        done = self.run_in("tools/release")
        self.assertEqual(done.returncode, 0, done.stderr)
        self.commit()
        self.git("clean", "-dfXq")
        self.log.unlink()

    def staat(self, *words: str, kit: bool = False, **setting: str) -> tuple[int, str, str]:
        done = self.run_in(self.top / "staat", *words, kit=kit, **setting)
        return done.returncode, done.stdout, done.stderr

    def told(self) -> list[str]:
        return self.log.read_text(encoding="utf-8").splitlines() if self.log.exists() else []


class OrderTest(InRepository):
    def build(self, at_once: int, to: TextIO, **setting: str) -> bool:
        """Builds with so many jobs at once."""
        before = dict(os.environ)
        os.environ.update(
            {"PATH": f"{self.room}/kit:{PLAIN_PATH}", "RT_LOG": str(self.log), **setting}
        )
        try:
            return build.build(self.top, at_once, to)
        finally:
            os.environ.clear()
            os.environ.update(before)

    def built(self, at_once: int, **setting: str) -> str:
        """What is said, where it is no terminal, of a build that is refused exactly where RT_REFUSES is set."""
        said = io.StringIO()
        self.assertEqual(self.build(at_once, said, **setting), "RT_REFUSES" not in setting)
        return said.getvalue()

    def test_chains(self) -> None:
        crates = {crate.name: crate for crate in build.crates_of(self.top, "staat_cli")}
        chains = {name: crate.chain for name, crate in crates.items()}
        self.assertEqual(chains, {"low": 28, "left": 25, "right": 9, "middle": 5, "staat_cli": 0})

    def test_one_at_a_time_goes_by_the_longest_chain(self) -> None:
        self.built(1)
        begun = [line.split()[1] for line in self.told() if line.startswith("begin")]
        self.assertEqual(begun, ["low", "left", "right", "middle", "staat_cli"])

    def jobs(self, at_once: int, lines: int = 1) -> dict[str, int]:
        """How many jobs each crate is given, where it gains by one more for each so many lines."""
        with unittest.mock.patch.object(build, "LINES", lines):
            self.built(at_once)
        begun = [line.split() for line in self.told() if line.startswith("begin")]
        return {words[1]: int(words[2]) for words in begun}

    def test_the_longest_chain_has_the_idle_processors(self) -> None:
        jobs = self.jobs(4)
        self.assertEqual(
            [jobs[name] for name in ("low", "left", "right", "staat_cli")], [3, 3, 1, 1]
        )

    def test_a_small_crate_has_one_job(self) -> None:
        jobs = self.jobs(4, lines=10)
        self.assertEqual((jobs["low"], jobs["left"]), (1, 2))

    def test_one_job_each_where_no_processor_is_idle(self) -> None:
        self.assertEqual(self.jobs(2)["left"], 1)

    def test_no_crate_before_those_below_it(self) -> None:
        self.built(4)
        told = self.told()
        for above, below in (
            ("left", "low"),
            ("right", "low"),
            ("middle", "left"),
            ("staat_cli", "right"),
        ):
            begun = next(at for at, line in enumerate(told) if line.startswith(f"begin {above} "))
            self.assertLess(told.index(f"end {below}"), begun)

    def test_a_line_for_each_crate(self) -> None:
        lines = self.built(1).splitlines()
        self.assertEqual(
            [line.split()[6] for line in lines[:-1]],
            ["low", "left", "right", "middle", "staat_cli"],
        )
        self.assertRegex(lines[0], r"^staat: 1 of 5 crates proved: low \(\d+ seconds, ")
        self.assertRegex(lines[-1], r"^staat: built in \d")

    def test_one_line_on_a_terminal(self) -> None:
        main, side = pty.openpty()
        with os.fdopen(main, "rb", buffering=0) as terminal, os.fdopen(side, "w") as to:
            self.assertTrue(self.build(2, to))
            lines = terminal.read(4096).decode().split("\n")
        self.assertRegex(lines[0], r"\r\033\[Kstaat: \d of 5 crates proved, 0.0 minutes: low\r")
        self.assertRegex(
            lines[0], r"\r\033\[Kstaat: built in 0.\d minutes, with 0.0 of a processor\r$"
        )
        self.assertEqual(lines[1:], [""])

    def test_what_is_built_is_not_built_again(self) -> None:
        self.built(2)
        self.log.unlink()
        self.assertEqual(self.built(2), "")
        self.assertEqual(self.told(), [])

    def test_only_what_changed_is_proved_again(self) -> None:
        self.built(1)
        self.log.unlink()
        self.write("crates/right/src/lib.rt", "fn g()\n")
        self.assertIn("crates proved: low (was so)", self.built(1))
        self.assertEqual(
            [line.split()[1] for line in self.told() if line.startswith("begin")],
            ["right", "staat_cli"],
        )

    def test_refusal(self) -> None:
        said = self.built(2, RT_REFUSES="left")
        log = self.top / "crates" / "left" / "out" / "build.log"
        self.assertIn(f"staat: left was refused, with these last lines of {log}:\n", said)
        self.assertTrue(said.endswith(":\nsrc/lib.rt:1:1: error: it is false\n"))
        self.assertIn("it is false", log.read_text(encoding="utf-8"))
        self.assertNotIn("begin middle", "\n".join(self.told()))
        self.assertIn("crates proved: low (was so)", self.built(2))

    def test_cut_off_and_going_on(self) -> None:
        setting = {
            "PATH": f"{self.room}/kit:{PLAIN_PATH}",
            "RT_LOG": str(self.log),
            "RT_SLEEP": "0.3",
        }
        words = [sys.executable, str(self.top / "tools" / "build.py")]
        for number in (signal.SIGTERM, signal.SIGKILL):
            with subprocess.Popen(words, env=setting, stderr=subprocess.DEVNULL) as cut:
                end = time.monotonic() + 20
                while (
                    not any(line.startswith("begin left") for line in self.told())
                    and time.monotonic() < end
                ):
                    time.sleep(0.01)
                cut.send_signal(number)
            self.assertIn("end low", self.told())
            self.assertNotIn("begin staat_cli", "\n".join(self.told()))
        self.assertIn("crates proved: low (was so)", self.built(1))
        self.assertEqual(len([line for line in self.told() if line.startswith("begin low ")]), 1)

    def test_another_kit_proves_all_again(self) -> None:
        self.built(1)
        self.log.unlink()
        (self.top / "crates/staat_cli/out/sources").unlink()
        self.built(1, RT_KIT="kit 2")
        self.assertEqual(len([line for line in self.told() if line.startswith("begin")]), 5)


class StartTest(InRepository):
    has_program = True

    def test_a_fresh_clone_answers_at_once_without_rt(self) -> None:
        self.git("clone", "-q", str(self.top), str(self.room / "clone"))
        done = self.run_in(self.room / "clone" / "staat", "plan", "x", kit=False, PWD="/")
        self.assertEqual((done.returncode, done.stdout, done.stderr), (0, "ran plan x\n", ""))

    def test_through_a_link_and_beside_another_repository(self) -> None:
        (self.room / "command").symlink_to(self.top / "staat")
        other = {"GIT_DIR": "/nowhere", "GIT_INDEX_FILE": "/nowhere/index"}
        done = self.run_in(self.room / "command", "a  b", kit=False, PWD=str(self.room), **other)
        self.assertEqual((done.returncode, done.stdout, done.stderr), (0, "ran a  b\n", ""))

    def test_an_archive_without_git(self) -> None:
        shutil.rmtree(self.top / ".git")
        self.assertEqual(self.staat("x"), (0, "ran x\n", ""))
        self.write("crates/low/src/lib.rt", "fn g()\n")
        status, out, err = self.staat("x")
        self.assertEqual((status, out), (70, ""))
        self.assertRegex(
            err, r"^staat: something under crates/ or in crates.txt is not as it was .*\n$"
        )

    def test_line_ends_stay(self) -> None:
        self.git("clone", "-q", "-c", "core.autocrlf=true", str(self.top), str(self.room / "clone"))
        done = self.run_in(self.room / "clone" / "staat", "x", kit=False)
        self.assertEqual((done.returncode, done.stdout, done.stderr), (0, "ran x\n", ""))

    def test_one_changed_byte_without_rt(self) -> None:
        self.write("crates/low/src/lib.rt", "Fn f()\nfn f()\nfn f()\n")
        said = "staat: crates/low/src/lib.rt is not as it was when bin/staat was built, and there is no rt "
        for _ in ("changed", "committed"):
            status, out, err = self.staat("x")
            self.assertEqual((status, out, err[: len(said)], err.count("\n")), (70, "", said, 1))
            self.commit()

    def test_what_counts_as_a_change(self) -> None:
        for name in ("crates/low/proofs/New.antt", "crates/low/notes", "crates.txt"):
            self.write(name, "new: \n")
            self.assertEqual(self.staat("x")[0], 70, name)
            self.git("stash", "-q", "-u")
        for name in ("crates/low/out/new", "crates/low/src/__pycache__/new", "README.md"):
            self.write(name, "new\n")
            self.assertEqual(self.staat("x"), (0, "ran x\n", ""), name)

    def test_a_changed_source_is_built_once(self) -> None:
        self.write("crates/staat_cli/src/main.rt", 'echo "anew $*"')
        status, out, err = self.staat("x", kit=True)
        self.assertEqual((status, out), (0, "anew x\n"))
        self.assertRegex(
            err, r"^staat: crates/staat_cli/src/main.rt is not .*: all is proved and built now\n"
        )
        self.assertIn("5 of 5 crates proved", err)
        self.assertEqual(self.staat("x"), (0, "anew x\n", ""))
        self.git("checkout", "-q", "crates")
        self.assertEqual(self.staat("x"), (0, "ran x\n", ""))

    def test_a_refused_source_is_status_70(self) -> None:
        self.write("crates/low/src/lib.rt", "fn g()\n")
        status, out, err = self.staat("x", kit=True, RT_REFUSES="low")
        self.assertEqual((status, out), (70, ""))
        self.assertIn("low was refused", err)

    def test_from_source(self) -> None:
        status, _, err = self.staat("--from-source", "x")
        self.assertEqual((status, err.count("\n")), (70, 1))
        status, out, _ = self.staat("--from-source", "x", kit=True)
        self.assertEqual((status, out), (0, "ran x\n"))
        self.assertIn("begin staat_cli", "\n".join(self.told()))
        self.assertEqual(self.staat("--from-source", "x"), (0, "ran x\n", ""))


class ComparisonTest(InRepository):
    has_program = True

    def setUp(self) -> None:
        super().setUp()
        self.assertEqual(self.staat("--from-source", kit=True)[0], 0)

    def compared(self, kit: str = "kit 1") -> tuple[int, str]:
        words = (sys.executable, "tools/compare_program.py", "crates/staat_cli/out/staat_cli")
        done = self.run_in(*words, RT_KIT=kit)
        return done.returncode, done.stdout

    def test_the_same(self) -> None:
        self.assertEqual(self.compared()[0], 0)

    def test_a_changed_byte_in_the_program(self) -> None:
        path = self.top / "bin" / "staat"
        path.write_bytes(path.read_bytes().replace(b"ran", b"run"))
        status, out = self.compared()
        self.assertEqual(status, 1)
        self.assertIn("bin/staat is not the program that bin/BUILT_FROM names\n", out)
        self.assertIn("byte 18 is the first that differs\n", out)

    def test_other_sources(self) -> None:
        self.write("crates/low/src/lib.rt", "fn g()\n")
        status, out = self.compared()
        self.assertEqual(status, 1)
        self.assertIn("run tools/release\n", out)
        self.commit()
        self.assertIn("has other names for the sources than git", self.compared()[1])

    def test_another_kit(self) -> None:
        for name in ("tests/runner/transcripts.py", "gallery/run"):
            self.write(
                name,
                "import subprocess, sys\nsys.exit(b'ran' not in subprocess.check_output(sys.argv[1:]))\n",
            )
        status, out = self.compared("kit 2")
        self.assertEqual(status, 0)
        self.assertIn("bin/staat is of kit 1, and here is kit 2", out)
        self.write("crates/staat_cli/out/staat_cli", "#!/bin/sh\necho other\n")
        self.assertEqual(self.compared("kit 2")[0], 1)


class ReleaseTest(InRepository):
    def test_names(self) -> None:
        self.release()
        said = (self.top / "bin" / "BUILT_FROM").read_text(encoding="utf-8").splitlines()
        names = self.git("rev-parse", "HEAD:crates", "HEAD:crates.txt").split()
        self.assertEqual(said[:2], [f"crates {names[0]}", f"crates.txt {names[1]}"])
        self.assertEqual(said[3], "kit kit 1")

    def test_a_file_that_would_not_be_committed(self) -> None:
        self.write("crates/low/src/new.rt", "fn g()\n")
        done = self.run_in("tools/release")
        self.assertEqual((done.returncode, done.stderr.count("\n")), (1, 1))
        self.assertFalse((self.top / "bin").exists())


if __name__ == "__main__":
    unittest.main()
