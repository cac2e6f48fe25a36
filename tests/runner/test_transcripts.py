"""Unit tests of transcripts, with a small program in the place of the planner."""

from __future__ import annotations

import pathlib
import tempfile
import unittest

import scratch
import transcripts

TEXT = """# A remark.

for N in 2..3
file x.off = 'ab\\n' * {N} + cube.off[:3]
file {N}.txt
    one {N}
$ staat x.off {N}.txt
...
! err {N}

$ staat  # status 1
    nothing
"""


class Tests(unittest.TestCase):
    """Reading, the content of files, and what is told where a case does not hold."""

    def test_blocks(self) -> None:
        first, second = transcripts.blocks_of(TEXT.replace("...", "    ..."))
        self.assertEqual((first.name, first.values), ("N", ["2", "3"]))
        self.assertEqual(
            [(made.name, made.lines) for made in first.files],
            [("x.off", []), ("{N}.txt", ["one {N}"])],
        )
        self.assertEqual((first.cases[0].out, first.cases[0].err), (["..."], ["err {N}"]))
        self.assertEqual((second.values, second.cases[0].out), ([""], ["nothing"]))

    def test_mistakes(self) -> None:
        for text in ("staat\n", "$ staat\nfile x\n", "! err\n", "    out\n", TEXT):
            with self.subTest(text), self.assertRaises(transcripts.Mistake):
                list(transcripts.blocks_of(text))

    def test_content(self) -> None:
        with tempfile.TemporaryDirectory() as room:
            folder = pathlib.Path(room)
            (folder / "cube.off").write_bytes(b"OFF\n8 6")
            for expression, wanted in (
                ("cube.off", b"OFF\n8 6"),
                ("cube.off[:3] * 2", b"OFFOFF"),
                ("'a + b\\n' + cube.off[:1] + ''", b"a + b\nO"),
                ("'\\'' * 3", b"'''"),
            ):
                with self.subTest(expression):
                    self.assertEqual(transcripts.content(expression, folder), wanted)
            for expression in ("", "'a", "cube.off +", "cube.off * n"):
                with self.subTest(expression), self.assertRaises(transcripts.Mistake):
                    transcripts.content(expression, folder)

    def test_failures(self) -> None:
        with tempfile.TemporaryDirectory() as room:
            program = pathlib.Path(room, "program")
            program.write_text(
                '#!/bin/sh\necho "out $*"\necho "err" >&2\nexit 3\n', encoding="utf-8"
            )
            program.chmod(0o755)
            text = "$ staat a  # status 3\n    out a\n! err\n\n$ staat b\n    out a\n! err\n\n$ staat c  # status 3\n"
            transcript = scratch.TOP / "tests" / "of-the-runner"
            try:
                transcript.write_text(text, encoding="utf-8")
                count, failures = transcripts.run_transcript(transcript, program)
            finally:
                transcript.unlink()
            self.assertEqual((count, len(failures)), (3, 2))
            self.assertIn(
                "tests/of-the-runner:5: $ staat b\nstatus 3 in the place of 0\n", failures[0]
            )
            self.assertIn("-out a\n+out b", failures[0])
            self.assertIn("+err", failures[1])


if __name__ == "__main__":
    unittest.main()
