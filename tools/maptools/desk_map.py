"""What a file of desk lines leaves: the mappings that a server holds which reads it from the start."""
from __future__ import annotations

import re
from typing import Any, Dict, Iterable, List, NamedTuple, Optional

from maptools.desk_reading import geojson_hint
from maptools.desk_rules import (
    EDITS, Fault, Identity, apply_edit, book_fault, empty_book, identity_of, mapping_fault, withdrawal_fault,
)  # fmt: skip
from maptools.lines import read_line
from maptools.outlines import outline_of
from maptools.refusals import REFUSALS

COMMIT = "commit"
# How a commit line says that what changed may be stamped when it is sent; servers ignore it.
STAMP, NOW = "stamp", "now"
NAME_OF_LINE = re.compile(rb'\s*\{\s*"[^"]*"')


class Given(NamedTuple):
    """The line that gave a mapping, and its number in the file."""

    number: int
    line: bytes


class Parsed(NamedTuple):
    """What a line says, with the outline of its mapping; or what is wrong with the line alone."""

    kind: str
    value: Any
    fault: Optional[Fault]


class DeskMap:
    """The book after some lines, the line that gave each mapping, and what was wrong with the lines.

    The noun says what the numbers of the lines count.
    """

    def __init__(self, path: str, noun: str = "line") -> None:
        self.path, self.noun, self.book = path, noun, empty_book()
        self.given: Dict[Identity, Given] = {}
        self.complaints: List[str] = []
        self.is_committed, self.stamp, self.edition = True, "", ""

    def take(self, number: int, line: bytes, parsed: Parsed) -> None:
        """Does what a line says."""
        kind, value, fault = parsed
        fault = fault or (book_fault(self.book, kind, value) if kind in EDITS else None)
        if fault:
            self.complaints.append(f"{self.path}, line {number}: {fault_text(fault)}")
            return
        self.is_committed = kind == COMMIT
        if kind == COMMIT:
            self.stamp = str(value.get(STAMP) or "")
            return
        apply_edit(self.book, kind, value)
        if kind != "withdraw":
            self.given[identity_of(value)] = Given(number, line)


def fault_text(fault: Fault) -> str:
    """The refusal of a line as a sentence."""
    return f"refused with code {fault.code}, {REFUSALS[fault.code].name}: {fault.what}"


def parsed_line(line: bytes) -> Parsed:
    """What a line says."""
    member = read_line(line)
    if member is None or member[0] not in (*EDITS, COMMIT):
        return Parsed("", None, Fault(1, f"this is not a desk line{geojson_hint(line)}"))
    kind, value = member
    if kind == COMMIT:
        return Parsed(kind, value, None if isinstance(value, dict) else Fault(1, "the value is not an object"))
    if kind == "withdraw":
        return Parsed(kind, value, withdrawal_fault(value))
    fault = mapping_fault(value)
    return Parsed(kind, None if fault else outline_of(value), fault)


def as_kind(kind: str, line: bytes) -> bytes:
    """A line of a mapping as one of another kind."""
    return b'{"' + kind.encode() + b'"' + line[NAME_OF_LINE.match(line).end() :]


class Reader:
    """Reads files of desk lines; a line that stands in more than one is parsed once."""

    def __init__(self) -> None:
        self.known: Dict[bytes, Parsed] = {}

    def read_lines(self, path: str, lines: Iterable[bytes]) -> DeskMap:
        """What lines leave; the last one must be a commit, lest a file that was cut off be taken for a whole one."""
        result = DeskMap(path)
        result.is_committed = False
        for number, line in enumerate(lines, 1):
            line = line.rstrip(b"\n")
            parsed = self.known.get(line) or self.known.setdefault(line, parsed_line(line))
            result.take(number, line, parsed)
        if not result.is_committed:
            result.complaints.append(f"{path}: its last line is not a commit; add one, to show that the file is whole")
        return result

    def read(self, path: str) -> DeskMap:
        """What a file leaves."""
        with open(path, "rb") as file:
            return self.read_lines(path, file)
