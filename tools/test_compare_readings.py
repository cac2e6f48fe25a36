"""Tests of compare_readings.py and pipes.py, with programs that read wrongly."""

from __future__ import annotations

import os
import sys
import tempfile
import unittest
from pathlib import Path

from compare_readings import Case, faults_of, named

READS = """#!{python}
import sys
for word in sys.argv[2:]:
    {body}
"""
# More bytes than a pipe holds, so that no read gives them all.
TEXTS = {"a": [b"first" * 20_000], "b": [b"second" * 20_000]}
CASE = Case("two files", ("look", "a", "b"), TEXTS, piece=1000)


def faults(body: str) -> list[str]:
    """What is wrong about a program that does this for each file that it is given."""
    with tempfile.TemporaryDirectory() as name:
        program = Path(name) / "program"
        program.write_text(READS.format(python=sys.executable, body=body), encoding="utf-8")
        os.chmod(program, 0o700)
        return faults_of(program, CASE)


class Readings(unittest.TestCase):
    """Which programs are told to be wrong."""

    def test_reads_each_file_once(self) -> None:
        self.assertEqual(faults("print(len(open(word).read()))"), [])

    def test_reads_a_file_twice(self) -> None:
        self.assertEqual(len(faults("print(len(open(word).read())); open(word).read()")), 1)

    def test_believes_that_one_read_gives_all(self) -> None:
        self.assertEqual(len(faults("print(len(open(word, 'rb', 0).read(1000000)))")), 1)


class Names(unittest.TestCase):
    """Which files a request names."""

    def test_order(self) -> None:
        texts = {"l": [b'{"parts":[{"name":"p","pieces":["x","y"]},{"name":"q","pieces":["x"]}]}']}
        self.assertEqual(named(("look", "a", "b", "a"), texts), ["a", "b", "a"])
        self.assertEqual(named(("check", "c", "a", "b"), texts), ["a", "b", "c"])
        self.assertEqual(named(("check", "c", "--manifest=l"), texts), ["l", "x", "y", "x", "c"])


if __name__ == "__main__":
    unittest.main()
