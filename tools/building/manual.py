"""The manual page of a command, made from the helps that it prints."""
from __future__ import annotations

import re
from typing import Iterator, List

from building.helps import Command

TERM = re.compile(r" +([^ ].*?[^ ])  +(?=[^ ])(.*)")
HEADING = re.compile(r"[A-Z][A-Za-z ]*:|[a-z].*:")
USAGE = re.compile(r"[Uu]sage: (.*)")


def safe(text: str) -> str:
    """A text as roff takes it for plain words."""
    text = text.replace("\\", "\\e").replace("-", "\\-")
    return f"\\&{text}" if text.startswith((".", "'")) else text


def roff_of(line: str, after: str) -> str:
    """A line of a help, before another: a heading, a term with what it means, an example as it is, or words of a paragraph."""
    if not line.strip():
        return ".PP"
    if HEADING.fullmatch(line) and after.startswith("  "):
        return f".SS {safe(line[:1].upper() + line[1:-1])}"
    term = TERM.fullmatch(line)
    if term:
        return f".TP\n.B {safe(term[1])}\n{safe(term[2])}"
    return f".EX\n{safe(line)}\n.EE" if line.startswith(" ") else safe(line)


def roff_lines(lines: List[str]) -> Iterator[str]:
    """The lines of a help, without blank ones at its start and end, and without the heading of a list of subcommands."""
    lines = [line for line in "\n".join(lines).strip("\n").split("\n") if line != "  COMMAND"]
    yield from map(roff_of, lines, [*lines[1:], ""])


def lines_of_manual(command: Command, version: str) -> Iterator[str]:
    """The lines of the page."""
    usage = next((USAGE.fullmatch(line) for line in command.lines if USAGE.fullmatch(line)), None)
    rest = [line for line in command.lines if not USAGE.fullmatch(line)]
    about = next((line for line in rest if line), "")
    yield f'.TH {safe(command.name.upper())} 1 "" "lostd {safe(version)}" "User Commands"'
    yield f".SH NAME\n{safe(command.name)} \\- {safe(about)}"
    if usage:
        yield f".SH SYNOPSIS\n{safe(usage[1])}"
    yield ".SH DESCRIPTION"
    yield from roff_lines(rest)
    for below in command.commands:
        yield f'.SH "{safe(f"{command.name} {below.name}".upper())}"'
        yield from roff_lines(below.lines)


def manual_of(command: Command, version: str) -> str:
    """The page of a command, of this version of lostd."""
    return "".join(f"{line}\n" for line in lines_of_manual(command, version))
