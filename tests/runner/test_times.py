"""Unit tests of the sampler, over a folder that looks like /proc."""

from __future__ import annotations

import os
import pathlib
import tempfile
import unittest

import times

TOP = 100


class Tests(unittest.TestCase):
    """Which processes count, as what, and what the table says."""

    def setUp(self) -> None:
        room = tempfile.TemporaryDirectory()
        self.addCleanup(room.cleanup)
        self.proc = pathlib.Path(room.name)
        (self.proc / "uptime").write_text("1 1\n", encoding="utf-8")
        self.put(TOP, 1, 0, "python3 rt ci", "/repository")
        self.sampler = times.Sampler(TOP, self.proc, ticks=100)

    def put(
        self, process: int, parent: int, ticks: int, words: str, place: str, start: int = 7
    ) -> None:
        """Writes what the system tells of a process."""
        folder = self.proc / str(process)
        folder.mkdir(exist_ok=True)
        fields = [
            "S",
            str(parent),
            *["0"] * 9,
            str(ticks - ticks // 3),
            str(ticks // 3),
            *["0"] * 6,
            str(start),
        ]
        (folder / "stat").write_text(
            f"{process} (a name) of) {' '.join(fields)}\n", encoding="utf-8"
        )
        (folder / "cmdline").write_bytes(b"".join(word.encode() + b"\0" for word in words.split()))
        (folder / "cwd").unlink(missing_ok=True)
        os.symlink(place, folder / "cwd")

    def test_kinds(self) -> None:
        rattle = "/kit/bin/rattle check --crate-name"
        self.put(101, TOP, 200, f"{rattle} staat_cone src/lib.rt", "/repository/crates/staat_cone")
        self.put(
            102, 103, 300, f"{rattle} staat_cone src/lib.rt --test", "/repository/crates/staat_cone"
        )
        self.put(103, TOP, 50, "sh -c something", "/repository")
        self.put(104, TOP, 400, f"{rattle} staat_top src/lib.rt", "/tmp/rt-edit-100-abc")
        self.put(105, 1, 500, f"{rattle} staat_plan src/lib.rt", "/elsewhere")
        self.sampler.look()
        self.assertEqual(
            self.sampler.seconds(),
            {
                ("staat_cone", "proofs"): 2.0,
                ("staat_cone", "tests"): 3.0,
                ("staat_top", "edits"): 4.0,
            },
        )

    def test_growth(self) -> None:
        words = "rattle build --crate-name staat_cone"
        self.put(101, TOP, 200, words, "/repository")
        self.sampler.look()
        self.put(101, TOP, 300, words, "/repository")
        self.sampler.look()
        self.assertEqual(self.sampler.seconds(), {("staat_cone", "proofs"): 3.0})
        # another process of the same number
        self.put(101, TOP, 100, words, "/repository", start=9)
        self.sampler.look()
        self.assertEqual(self.sampler.seconds(), {("staat_cone", "proofs"): 4.0})

    def test_edits(self) -> None:
        rattle = "rattle check --crate-name"
        self.put(101, TOP, 900, f"{rattle} staat_top src/lib.rt", "/tmp/rt-edit-1", start=8)
        self.put(99, TOP, 400, f"{rattle} staat_top src/lib.rt", "/tmp/rt-edit-2", start=9)
        self.put(105, TOP, 100, f"{rattle} staat_top src/lib.rt", "/tmp/rt-edit-3", start=10)
        self.put(102, TOP, 300, f"{rattle} staat_cone src/lib.rt", "/tmp/rt-edit-4", start=7)
        self.put(104, 102, 200, f"{rattle} staat_cone src/lib.rt", "/tmp/rt-edit-4", start=7)
        self.put(103, TOP, 600, f"{rattle} staat_cone src/lib.rt", "/repository", start=7)
        self.sampler.look()
        edits = self.sampler.edits()
        self.assertEqual(edits, {"staat_top": [9.0, 4.0, 1.0], "staat_cone": [5.0]})
        for name in (
            "staat_top/must-fail/second",
            "staat_top/must-fail/first",
            "staat_cone/must-fail/one",
        ):
            file = self.proc / "crates" / f"{name}.edit"
            file.parent.mkdir(parents=True, exist_ok=True)
            file.touch()
        self.assertEqual(
            times.dearest(edits, self.proc),
            ["dearest wrong bodies, seconds: staat_cone/one 5, staat_top/second 4"],
        )
        self.assertEqual(times.dearest({}, self.proc), [])

    def test_table(self) -> None:
        seconds = {
            ("staat_cone", "proofs"): 60.0,
            ("staat_top", "edits"): 180.0,
            ("staat_top", "tests"): 6.0,
        }
        self.assertEqual(
            times.table(seconds, 306),
            [
                "processor minutes  proofs   tests   edits",
                "staat_top             0.0     0.1     3.0",
                "staat_cone            1.0     0.0     0.0",
                "all                   1.0     0.1     3.0",
                "the rest              1.0",
                "slowest: edits of staat_top 3.0, proofs of staat_cone 1.0, tests of staat_top 0.1",
            ],
        )


if __name__ == "__main__":
    unittest.main()
