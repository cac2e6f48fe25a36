"""Tests of compare_shelves.py and of the modules that it has to itself, with small programs that read wrongly."""

from __future__ import annotations

import subprocess
import tempfile
import unittest
from pathlib import Path

import watched
from compare_shelves import faults_of, in_order
from in_memory import call, files_of
from shelf_cases import Case, others

# It prints a checksum of each file behind its first word; as the program in memory it passes over all before `--`.
SOURCE = r"""
#include <fcntl.h>
#include <stdio.h>
#include <string.h>
#include <unistd.h>

int main(int count, char **words) {
    static unsigned char bytes[4096];
    int first = 2;
#ifdef MEMORY
    while (strcmp(words[first - 2], "--")) first++;
#endif
    for (int k = first; k < count; k++) {
        unsigned long sum = 0;
#ifdef BACKWARDS
        int file = open(words[count - 1 - (k - first)], O_RDONLY);
#else
        int file = open(words[k], O_RDONLY);
#endif
        if (file < 0) return 5;
        for (long got; (got = read(file, bytes, sizeof bytes)) > 0;) {
            for (long i = 0; i < got; i++) sum = sum * 31 + bytes[i];
#ifdef LOSES
            sum -= got == 904 ? bytes[got - 1] : 0;
#endif
#ifdef HASTY
            if (got < (long)sizeof bytes) break;
#endif
        }
        close(file);
#ifdef TWICE
        close(open(words[k], O_RDONLY));
#endif
        printf("%lu\n", sum);
    }
    return 0;
}
"""
OLD = b"a" * 5000
FILES = {"a": OLD, "b": b"second"}
CASE = Case("two files", ("look", "a", "b"), FILES)
# What is told of each program that is wrong: how each line begins.
WRONG = {
    "BACKWARDS": ["answers", "opens"],
    "LOSES": ["answers"],
    "HASTY": ["reads a not to its end", "reads b not to its end"],
    "TWICE": ["opens", "reads a not to its end", "a gives", "reads b not", "b gives"],
}


class Shelves(unittest.TestCase):
    """Which programs are told to be wrong."""

    room: tempfile.TemporaryDirectory[str]
    library: Path

    @classmethod
    def setUpClass(cls) -> None:
        cls.room = tempfile.TemporaryDirectory()
        folder = Path(cls.room.name)
        source = folder / "program.c"
        source.write_text(SOURCE, encoding="ascii")
        for kind in ("MEMORY", "RIGHT", *WRONG):
            subprocess.run(["cc", f"-D{kind}", "-o", folder / kind, source], check=True)
        cls.library = watched.build(folder)

    @classmethod
    def tearDownClass(cls) -> None:
        cls.room.cleanup()

    def faults(self, kind: str, case: Case = CASE) -> list[str]:
        """What is wrong about a program of this kind, held against one that is right."""
        folder = Path(self.room.name)
        return faults_of(folder / kind, folder / "MEMORY", self.library, case)

    def test_right(self) -> None:
        self.assertEqual(self.faults("RIGHT"), [])

    def test_wrong(self) -> None:
        for kind, told in WRONG.items():
            with self.subTest(kind):
                faults = self.faults(kind)
                self.assertEqual(len(faults), len(told), faults)
                for fault, begin in zip(faults, told):
                    self.assertTrue(fault.startswith(begin), fault)

    def test_changes(self) -> None:
        for new in (b"b" * 5000, OLD + b"c" * 9000, b"d" * 4100, b""):
            with self.subTest(len(new)):
                case = Case("changes", CASE.words, FILES, watched.Change("a", 1, new))
                self.assertEqual(self.faults("RIGHT", case), [])
        grows = Case("grows", CASE.words, FILES, watched.Change("a", 2, OLD + b"e"))
        self.assertEqual(self.faults("RIGHT", grows), [])
        self.assertIn("the change is not seen", self.faults("HASTY", grows))

    def test_missing(self) -> None:
        case = Case("a file that is not there", ("look", "a", "c", "b"), FILES)
        self.assertEqual(self.faults("RIGHT", case), [])
        faults = self.faults("BACKWARDS", case)
        self.assertTrue(faults[-1].startswith("opens ['c'] behind ['b']"), faults)


class Words(unittest.TestCase):
    """Which files a request can name, and in which order."""

    def test_files_of(self) -> None:
        with tempfile.TemporaryDirectory() as name:
            folder = Path(name)
            for file in ("x", "y", "z z"):
                (folder / file).write_bytes(b"")
            (folder / "l").write_bytes(b'{"parts":["x", "\\u0079", "z z", "w", "\xff", "x", ')
            names = ["l", "x", "y", "z z"]
            self.assertEqual(files_of(["look", "--manifest=l"], folder), names)
            self.assertEqual(files_of(["look", "--along=0", "", "v", "y", "y"], folder), ["y"])
            self.assertEqual(files_of(["look", "/dev/stdin"], folder, b'"x'), ["/dev/stdin"])
            words = ["look", "y"]
            self.assertEqual(call(Path("p"), words, folder), ["p", "y", "--", "look", "y"])

    def test_in_order(self) -> None:
        words = ("confirm", "c", "--manifest=l")
        gave = {"l": b'{"parts":[{"pieces":["x","y"]},{"pieces":["x"]}]}'}
        self.assertEqual(in_order(words, gave), ["l", "x", "y", "x", "c"])
        broken_lists: list[dict[str, bytes]] = [{}, {"l": b"{"}, {"l": b"[]"}]
        for broken in broken_lists:
            self.assertEqual(in_order(words, broken), ["l"])
        self.assertEqual(in_order(("look", "b", "a"), {}), ["b", "a"])

    def test_others(self) -> None:
        found = list(others(OLD, b"t" * 5000, b"!", 6000, 4096))
        self.assertEqual([read for _, read, _ in found], [1, 1, 1, 1, 1, 2, 2])
        self.assertEqual([len(new) for *_, new in found], [5000, 4103, 10, 5001, 6001, 5001, 6001])


if __name__ == "__main__":
    unittest.main()
