"""What the helps of a command say: its options and its subcommands. Manual pages and completions are made from that."""
from __future__ import annotations

import os
import re
import subprocess
from typing import Iterator, List, NamedTuple, Tuple

# argparse folds its lines at the width of the terminal; so wide that it folds none.
WIDE = {"COLUMNS": "1000", "LC_ALL": "C.UTF-8"}
# How far the meaning of a term is set in where it stands below the term.
BELOW = re.compile(r" {10,}[^ ]")
OPTION = re.compile(r" +((?:-\w, )?--[a-z][a-z-]*)(?: ([^ ].*?))?(?:  +(.*))?")
COMMAND = re.compile(r"(?:  |    )([a-z][a-z-]*)(?:  +(.*))?")
CHOICES = re.compile(r"\{([^}]*)\}")
# What a help calls the part that lists options, or subcommands.
OPTIONS, COMMANDS = ("Options:", "options:", "optional arguments:"), ("Commands:", "positional arguments:")


class Option(NamedTuple):
    """An option: its names, what stands for its value if it takes one, and what it does."""

    names: Tuple[str, ...]
    value: str
    text: str

    def choices(self) -> List[str]:
        """The values that it may have, where the help lists them."""
        listed = CHOICES.fullmatch(self.value)
        return listed[1].split(",") if listed else []


class Command(NamedTuple):
    """A command or a subcommand: its name, what it does in a line, the lines of its help, and its subcommands."""

    name: str
    about: str
    lines: List[str]
    commands: List["Command"]

    def options(self) -> List[Option]:
        """Its options, in the order of the help."""
        found = (OPTION.fullmatch(line) for line in part_of(self.lines, OPTIONS))
        return [Option(tuple(one[1].split(", ")), one[2] or "", one[3] or "") for one in found if one]

    def takes_words(self) -> bool:
        """Whether it takes words that are neither options nor a subcommand."""
        return not self.commands and "positional arguments:" in self.lines


def said_by(program: str, *words: str) -> str:
    """What the program prints."""
    how = {"stdout": subprocess.PIPE, "text": True, "timeout": 60, "check": True, "env": {**os.environ, **WIDE}}
    return subprocess.run([program, *words], **how).stdout


def unfolded(text: str) -> List[str]:
    """The lines of a help, each term in one line with its meaning."""
    lines: List[str] = []
    for line in text.splitlines():
        if BELOW.match(line) and lines and lines[-1].startswith("  "):
            has_meaning = "  " in lines[-1].strip()
            lines[-1] += f"{' ' if has_meaning else '  '}{line.strip()}"
        else:
            lines.append(line)
    return lines


def part_of(lines: List[str], headings: Tuple[str, ...]) -> Iterator[str]:
    """The lines of the part below the first of these headings that is there."""
    inside = False
    for line in lines:
        if inside and not line.strip():
            return
        if inside:
            yield line
        inside = inside or line in headings


def command_of(program: str, name: str, words: Tuple[str, ...] = (), about: str = "") -> Command:
    """The command that a program is, or its subcommand of these words, with all subcommands below."""
    lines = unfolded(said_by(program, *words, "--help"))
    listed = [COMMAND.fullmatch(line) for line in part_of(lines, COMMANDS)]
    # (argparse lists subcommands as the values of an argument that is called COMMAND)
    has_commands = "Commands:" in lines or "  COMMAND" in lines
    below = [(one[1], one[2] or "") for one in listed if one and one[1] != "help"] if has_commands else []
    return Command(name, about, lines, [command_of(program, one, (*words, one), what) for one, what in below])
