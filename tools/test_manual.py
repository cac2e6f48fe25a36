#!/usr/bin/env python3
"""Tests of manual.py: python3 -m unittest discover tools"""

from __future__ import annotations

import os
import sys
import unittest
from pathlib import Path

sys.path.insert(0, os.path.dirname(os.path.abspath(__file__)))
import manual  # noqa: E402

TABLE = """
        CommandRow {
            name: "sort",
            arguments: &[
                ("digits", Optional),
                ("manifest", Optional),
                ("along", Required),
                ("files", Words),
            ],
        },
        CommandRow {
            name: "toss",
            arguments: &[("kind", Word), ("off", Flag)],
        },
"""
PAGE = """# Commands

What each *command* asks, by `--words`.

| Command | Answer |
|---|---|
| [`sort`](#sort) | an order; with `--digits` of scaled parts |

## Input

.A file.

## `sort`

    staat sort --along=X [--digits=K] INPUT

It sorts:

    $ ./staat sort --along=1 a.off
    'a' before b

![A heap](heap.png)

### More: `--digits`

Text.

## `toss`

    staat toss row [--off]
"""
README = "\n| `sort` | an order |\n| `toss` | a heap |\n"
COMMANDS = [
    manual.Command("sort", ("digits", "manifest", "along")),
    manual.Command("toss", ("off",)),
]
MANUAL = (
    manual.HEAD
    + """staat sort \\-\\-along=X [\\-\\-digits=K] INPUT
staat toss row [\\-\\-off]
.fi
.SH DESCRIPTION
What each \\fIcommand\\fR asks, by \\fB\\-\\-words\\fR.
.TP
\\fBsort\\fR
an order; with \\fB\\-\\-digits\\fR of scaled parts
.SH INPUT
\\&.A file.
.SH COMMANDS
.SS sort
.RS 4
.EX
staat sort \\-\\-along=X [\\-\\-digits=K] INPUT
.EE
.RE
.PP
It sorts:
.PP
.RS 4
.EX
$ ./staat sort \\-\\-along=1 a.off
\\&'a' before b
.EE
.RE
.PP
.B More: \\-\\-digits
.PP
Text.
.SS toss
.RS 4
.EX
staat toss row [\\-\\-off]
.EE
.RE
"""
)


class Tests(unittest.TestCase):
    """The manual page of a page, and what is missing on pages."""

    def test_commands(self) -> None:
        self.assertEqual(manual.commands_of(TABLE), COMMANDS)
        found = manual.commands_of((manual.TOP / manual.TABLE).read_text(encoding="utf-8"))
        self.assertIn("plan", [it.name for it in found])

    def test_page(self) -> None:
        self.assertEqual(manual.manual(PAGE), MANUAL)

    def test_no_faults(self) -> None:
        self.assertEqual(manual.faults(COMMANDS, PAGE, README), [])

    def test_faults(self) -> None:
        lacking = PAGE.replace(" [--off]", "").replace("[--digits=K] ", "")
        for page, readme, wanted in (
            (PAGE, README.replace("`toss`", "toss"), "README.md: no row of toss"),
            (PAGE + "\n## `lift`\n", README, "docs/COMMANDS.md: lift is no command"),
            (PAGE.replace("## `toss`", "## Toss"), README, "no section with the words of toss"),
            (lacking, README, "the words of sort lack --digits"),
            (lacking, README, "the words of toss lack --off"),
        ):
            with self.subTest(wanted):
                told = manual.faults(COMMANDS, page, readme)
                self.assertTrue(any(line.endswith(wanted) for line in told), told)

    def test_pages_stand(self) -> None:
        self.assertEqual(manual.main(["--check"]), 0)
        self.assertTrue(Path(manual.TOP / manual.PAGE).is_file())


if __name__ == "__main__":
    unittest.main()
