"""Reads desk lines as a server does: what is staged, and what is published after the last commit."""
from __future__ import annotations

from typing import Any, Callable, Dict, Iterator, List, NamedTuple, Optional, Tuple

from maptools.desk_rules import EDITS, Book, apply_edit, edit_fault, empty_book
from maptools.flat_rings import read_flat
from maptools.refusals import REFUSALS

REQUESTS = ("findService", "listServices", "listServicesByLocation", "getServiceBoundary")

# What is done with a request, and what is wrong with it, if anything is.
TakeRequest = Callable[[str, Any], Optional[str]]


class Reading(NamedTuple):
    """What was read: the book with all edits, that of the published ones, the edits between, and what was wrong."""

    staged: Book
    published: Book
    pending: List[Tuple[str, Dict[str, Any]]]
    complaints: List[str]


def pass_over(_name: str, _value: Any) -> None:
    """Takes no notice of a request."""


def lines_of(paths: List[str]) -> Iterator[Tuple[str, bytes]]:
    """The lines of files, each with where it stands."""
    for path in paths:
        with open(0 if path == "-" else path, "rb", closefd=path != "-") as file:
            for number, line in enumerate(file, 1):
                yield f"{'standard input' if path == '-' else path}, line {number}", line.rstrip(b"\n")


def geojson_hint(line: bytes) -> str:
    """What to do with a line that is of GeoJSON, as it seems; empty for any other line."""
    return ": if this is GeoJSON, geojson-to-desk makes desk lines of it" if b'"Feature' in line[:4096] else ""


def take_edit(reading: Reading, kind: str, value: Any) -> Optional[str]:
    """Stages an edit; what is wrong with it, if anything is."""
    fault = edit_fault(reading.staged, kind, value)
    if fault:
        return f"refused with code {fault.code}, {REFUSALS[fault.code].name}: {fault.what}"
    apply_edit(reading.staged, kind, value)
    reading.pending.append((kind, value))
    return None


def take_line(reading: Reading, line: bytes, take_request: TakeRequest) -> Optional[str]:
    """Does what a line says; what is wrong with it, if anything is."""
    member = read_flat(line)
    if member is None or member[0] not in (*EDITS, "commit", *REQUESTS):
        return f"not a line that the server knows{geojson_hint(line)}"
    name, value = member
    if name in EDITS:
        return take_edit(reading, name, value)
    if name != "commit":
        return take_request(name, value)
    if not isinstance(value, dict):
        return "refused with code 1, BadLine: the value is not an object"
    for kind, edit in reading.pending:
        apply_edit(reading.published, kind, edit)
    reading.pending.clear()
    return None


def read(paths: List[str], take_request: TakeRequest = pass_over) -> Reading:
    """Reads all lines; `-` is standard input. Each ring of a mapping is flat, as maptools.flat_rings says."""
    reading = Reading(empty_book(), empty_book(), [], [])
    for where, line in lines_of(paths):
        complaint = take_line(reading, line, take_request)
        if complaint:
            reading.complaints.append(f"{where}: {complaint}")
    return reading
