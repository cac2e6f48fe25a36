#!/usr/bin/env python3
"""Makes the manual page docs/staat.1 of docs/COMMANDS.md.

    python3 tools/manual.py            writes docs/staat.1
    python3 tools/manual.py --check    says whether it is what would be written; status 1 where it is not

Either way the status is 1, and a line says why, where a command that the program takes has no section with its words
in docs/COMMANDS.md or no row in README.md, or where a section is of no command. The commands and their words are those
of crates/staat_words/src/command.rt.
"""

from __future__ import annotations

import argparse
import re
import sys
from dataclasses import dataclass
from pathlib import Path

TOP = Path(__file__).resolve().parent.parent
SOURCE = "docs/COMMANDS.md"
PAGE = "docs/staat.1"
TABLE = "crates/staat_words/src/command.rt"
INDENT = "    "
HEAD = """.\\" Made by tools/manual.py of docs/COMMANDS.md; do not edit.
.TH STAAT 1 "" "" "staat"
.SH NAME
staat \\- assembly planner with proof
.SH SYNOPSIS
.nf
"""
# The words that INPUT stands for; plain words have names of their own in a section.
IN_INPUT = {"manifest"}

_ROW = re.compile(r'CommandRow \{\s*name: "(\w+)",\s*arguments: &\[(.*?)\],\s*\}', re.S)
_ARGUMENT = re.compile(r'\("(\w+)", (Optional|Required|Flag)\)')
_COMMAND = re.compile(r"## `(\w+)`")
_INLINE = re.compile(r"`([^`]+)`|\*([^*]+)\*|\[([^\]]*)\]\([^)]*\)")


@dataclass(frozen=True)
class Command:
    """A command of the program, and the options that it takes, without `--`."""

    name: str
    options: tuple[str, ...]


def commands_of(source: str) -> list[Command]:
    """The commands that the table of the program's words has, in its order."""
    return [
        Command(name, tuple(it for it, _ in _ARGUMENT.findall(arguments)))
        for name, arguments in _ROW.findall(source)
    ]


def synopses_of(page: str) -> dict[str, list[str]]:
    """For each command that has a section, the lines that show its words."""
    found: dict[str, list[str]] = {}
    name = ""
    for line in page.split("\n"):
        if line.startswith("## "):
            section = _COMMAND.fullmatch(line)
            name = section.group(1) if section else ""
            if name:
                found[name] = []
        elif name and line.startswith(f"{INDENT}staat {name}"):
            found[name].append(line.removeprefix(INDENT))
    return found


def faults(commands: list[Command], page: str, readme: str) -> list[str]:
    """What the pages do not tell of the commands, or tell of commands that are not there; a line for each."""
    told = synopses_of(page)
    names = {it.name for it in commands}
    lines = [f"{SOURCE}: {name} is no command" for name in told if name not in names]
    for command in commands:
        words = " ".join(told.get(command.name, []))
        if not words:
            lines.append(f"{SOURCE}: no section with the words of {command.name}")
            continue
        lines += [
            f"{SOURCE}: the words of {command.name} lack --{it}"
            for it in command.options
            if it not in IN_INPUT and not re.search(rf"--{it}\b", words)
        ]
        if f"\n| `{command.name}` |" not in readme:
            lines.append(f"README.md: no row of {command.name}")
    return lines


def escaped(text: str) -> str:
    """A text as troff shows it."""
    return text.replace("\\", "\\e").replace("-", "\\-")


def inline(text: str) -> str:
    """Words with code in bold, emphasis in italics, and links as their text."""
    out, at = [], 0
    for found in _INLINE.finditer(text):
        out.append(escaped(text[at : found.start()]))
        code, emphasis, link = found.groups()
        if code is not None:
            out.append(f"\\fB{escaped(code)}\\fR")
        elif emphasis is not None:
            out.append(f"\\fI{escaped(emphasis)}\\fR")
        else:
            out.append(inline(link))
        at = found.end()
    return "".join(out) + escaped(text[at:])


def guarded(line: str) -> str:
    """A line of text or of code that troff takes for no request."""
    return f"\\&{line}" if line[:1] in (".", "'") else line


def row(line: str) -> list[str]:
    """A row of a table as an entry: its first cell hangs before the others."""
    cells = [cell.strip() for cell in line.strip("|").split(" | ")]
    return [".TP", guarded(inline(cells[0])), guarded(inline("; ".join(cells[1:])))]


class Writer:
    """Writes the manual page, a line of the source at a time."""

    def __init__(self) -> None:
        self.lines: list[str] = []
        self.in_code = False
        self.in_table = False
        self.has_commands = False

    def add(self, line: str) -> None:
        """Takes a line that stands behind those before it."""
        is_code = line.startswith(INDENT)
        if self.in_code and not is_code:
            self.lines += [".EE", ".RE"]
            self.in_code = False
        if is_code:
            self.code(line.removeprefix(INDENT))
        elif line.startswith("|"):
            self.table(line)
        elif line.startswith("#"):
            self.heading(line)
        elif line == "":
            self.lines.append(".PP")
        elif not line.startswith("!["):
            self.lines.append(guarded(inline(line)))
        self.in_table = line.startswith("|")

    def code(self, line: str) -> None:
        """A line that is shown as it stands."""
        if not self.in_code:
            self.lines += [".RS 4", ".EX"]
            self.in_code = True
        self.lines.append(guarded(escaped(line)))

    def table(self, line: str) -> None:
        """A row of a table; its head and the line below that say nothing here."""
        if self.in_table and not line.startswith("|---"):
            self.lines += row(line)

    def heading(self, line: str) -> None:
        """The head of a section; those of commands stand below one head."""
        command = _COMMAND.fullmatch(line)
        if command:
            self.lines += [] if self.has_commands else [".SH COMMANDS"]
            self.has_commands = True
            self.lines.append(f".SS {command.group(1)}")
        elif line.startswith("### "):
            self.lines += [".PP", f".B {escaped(line[4:].replace('`', ''))}"]
        elif line.startswith("## "):
            self.lines.append(f".SH {inline(line[3:]).upper()}")
        else:
            self.lines.append(".SH DESCRIPTION")


def spaced(lines: list[str]) -> list[str]:
    """The lines with no request for a paragraph where one begins anyway."""
    kept: list[str] = []
    for line in lines:
        begins = line.startswith((".SH", ".SS", ".TP", ".PP"))
        if begins and kept and kept[-1] == ".PP":
            kept.pop()
        if line == ".PP" and kept and kept[-1].startswith((".SH", ".SS")):
            continue
        kept.append(line)
    return kept[:-1] if kept[-1:] == [".PP"] else kept


def manual(page: str) -> str:
    """The whole text of the manual page."""
    writer = Writer()
    for line in page.rstrip("\n").split("\n") + [""]:
        writer.add(line)
    words = [escaped(line) for lines in synopses_of(page).values() for line in lines]
    return HEAD + "\n".join([*words, ".fi", *spaced(writer.lines)]) + "\n"


def main(words: list[str]) -> int:
    """Writes the manual page, or with --check compares it. Returns the exit status."""
    parser = argparse.ArgumentParser(
        description="Makes the manual page docs/staat.1 of docs/COMMANDS.md."
    )
    parser.add_argument(
        "--check", action="store_true", help="write nothing; fail where it is not up to date"
    )
    asked = parser.parse_args(words)
    page = (TOP / SOURCE).read_text(encoding="utf-8")
    readme = (TOP / "README.md").read_text(encoding="utf-8")
    told = faults(commands_of((TOP / TABLE).read_text(encoding="utf-8")), page, readme)
    text = manual(page)
    if not asked.check:
        (TOP / PAGE).write_text(text, encoding="utf-8")
    elif not (TOP / PAGE).is_file() or (TOP / PAGE).read_text(encoding="utf-8") != text:
        told.append(f"{PAGE} is not what {SOURCE} says: run python3 tools/manual.py")
    for line in told:
        print(f"manual: {line}", file=sys.stderr)
    return 1 if told else 0


if __name__ == "__main__":
    sys.exit(main(sys.argv[1:]))
