"""Tests of bench/commands.py: what counts as slower, what is stored, and a run over one product."""

from __future__ import annotations

import contextlib
import io
import pathlib
import tempfile
import unittest
from unittest import mock

import commands
import solids
from commands import Figure

# A program that writes its words, and ends with status 1 where the first is `plan`.
PROGRAM = '#!/bin/sh\necho "$@"\n[ "$1" != plan ]\n'


class Slower(unittest.TestCase):
    """What counts as slower."""

    def test_within(self) -> None:
        self.assertFalse(Figure(0.03, 0).is_slower(Figure(0.01, 0)))
        self.assertFalse(Figure(1.2, 0).is_slower(Figure(1.0, 0)))

    def test_beyond(self) -> None:
        self.assertTrue(Figure(1.4, 0).is_slower(Figure(1.0, 0)))

    def test_lines(self) -> None:
        now = {"plan": Figure(2.0, 0), "look": Figure(1.0, 5), "cells": Figure(9.0, 0)}
        stored = {"plan": Figure(1.0, 0), "look": Figure(1.0, 0)}
        self.assertEqual(
            list(commands.slower("box", now, stored)),
            [
                "box: plan: 2.000 yardsticks, stored 1.000",
                "box: look: status 5, stored 0",
            ],
        )


class Stored(unittest.TestCase):
    """The file of figures."""

    def test_round(self) -> None:
        figures = {"box": {"plan": Figure(0.5, 1)}, 'a "quoted" name': {"look": Figure(0.25, 0)}}
        with tempfile.TemporaryDirectory() as name:
            path = pathlib.Path(name) / "times.json"
            self.assertEqual(commands.read(path), {})
            commands.write(path, figures)
            self.assertEqual(commands.read(path), figures)

    def test_products(self) -> None:
        names = {name for name, _ in commands.listed()}
        names |= {name for name, _, _ in commands.large()}
        self.assertEqual(set(commands.read(commands.TIMES)), names)


class Runs(unittest.TestCase):
    """A run over one product, with a program that does nothing."""

    def setUp(self) -> None:
        self._folder = tempfile.TemporaryDirectory()
        self.addCleanup(self._folder.cleanup)
        self.program = pathlib.Path(self._folder.name) / "program"
        self.program.write_text(PROGRAM, encoding="utf-8")
        self.program.chmod(0o755)
        self.times = pathlib.Path(self._folder.name) / "times.json"

    def ask(self, *words: str) -> tuple[int, str]:
        """The status of bench/commands.py and what it prints, with a file of figures of its own."""
        out = io.StringIO()
        with (
            mock.patch.object(commands, "TIMES", self.times),
            mock.patch.object(commands, "large", lambda: iter(())),
            contextlib.redirect_stdout(out),
            contextlib.redirect_stderr(out),
        ):
            return commands.main([str(self.program), "--runs=1", *words]), out.getvalue()

    def test_status(self) -> None:
        self.assertEqual(self.ask("--only=dovetail", "--store")[0], 0)
        self.program.write_text("#!/bin/sh\nexit 3\n", encoding="utf-8")
        status, text = self.ask("--only=dovetail")
        self.assertEqual(status, 1)
        self.assertIn("slower: dovetail: look: status 3, stored 0\n", text)
        self.assertTrue(text.endswith("12 times, 12 slower\n"))

    def test_unread(self) -> None:
        self.program.write_text("#!/bin/sh\nexit 5\n", encoding="utf-8")
        with self.assertRaises(SystemExit):
            self.ask("--only=dovetail")

    def test_unknown(self) -> None:
        self.assertEqual(self.ask("--only=nothing"), (2, "bench: no product nothing\n"))


class Solids(unittest.TestCase):
    """The balls that are made."""

    def test_ball(self) -> None:
        points, faces = solids.shape(12, 0)
        self.assertEqual(len(points), 12)
        self.assertTrue(solids.is_closed(12, faces))
        self.assertFalse(solids.is_closed(12, faces[1:]))


if __name__ == "__main__":
    unittest.main()
