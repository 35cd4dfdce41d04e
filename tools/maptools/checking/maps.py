"""Reads a map to check: desk lines, as a server would that starts with them, or GeoJSON, by tools/geojson-to-desk."""
from __future__ import annotations

import os
import re
import subprocess
import sys
from typing import Any, BinaryIO, Dict, Iterable, List, NamedTuple, Optional, Tuple

from maptools.checking.fast_lines import rings_of, shortened
from maptools.checking.findings import ERROR, Finding
from maptools.checking.progress import Progress
from maptools.checking.subjects import Subject, entry_of, names_of, ring_of, subject_of
from maptools.desk_map import COMMIT, NAME_OF_LINE, fault_text
from maptools.desk_rules import (
    EDITS, GEODETIC, Fault, Identity, apply_edit, book_fault, contents_of, empty_book, identity_of, mapping_fault, withdrawal_fault,
)  # fmt: skip
from maptools.lines import LONGEST_LINE, line_of, read_line
from maptools.texts import is_id, is_source

TOOL = f"{os.path.dirname(os.path.dirname(os.path.dirname(os.path.realpath(__file__))))}/geojson-to-desk"
REQUESTS = ("findService", "listServices", "listServicesByLocation", "getServiceBoundary")
DESK_NAMES = (*EDITS, COMMIT, *REQUESTS)
COMMIT_LINE = b'{"commit":{}}\n'
ENDINGS = (".geojson", ".json", ".geojsonl", ".geojsons", ".ndjson", ".geojsonseq")
# What geojson-to-desk says beside why something is left out: how much it made, and notes.
NO_FAULT = re.compile(r"[0-9]+ of [0-9]+ |note: ")
SPEAKER = "geojson-to-desk: "
# What stands in a mapping for what a GeoJSON file does not say, where the command line says nothing of it.
STAND_INS = {
    "--source": "map.example", "--service": "urn:service:sos", "--uri": "sip:centre@map.example", "--updated": "2000-01-01T00:00:00Z",
}  # fmt: skip


class NoMap(Exception):
    """What keeps a map from being read at all."""


class Checked(NamedTuple):
    """A map: its mappings in order, what was wrong with its lines, and the path of its desk lines."""

    subjects: List[Subject]
    refused: List[Finding]
    path: str

    def feed(self, target: BinaryIO) -> int:
        """Writes the edits into a file, and a commit; how many lines that are."""
        count = 1
        with open(self.path, "rb") as file:
            for line in file:
                name = NAME_OF_LINE.match(line)
                if name and name[0].split(b'"')[1].decode(errors="replace") in EDITS and len(line) <= LONGEST_LINE:
                    target.write(line if line.endswith(b"\n") else line + b"\n")
                    count += 1
        target.write(COMMIT_LINE)
        return count


def read_mapping(line: bytes) -> Tuple[str, Any, Optional[List[Any]]]:
    """The kind and the value of a line, with the polygons of its mapping where these were read apart."""
    short = shortened(line) if len(line) <= LONGEST_LINE else None
    member = read_line(short.line) if short is not None else None
    rings = rings_of(member[1], short.rings) if member is not None and short is not None else None
    if rings is None:
        member = read_line(line)
    return ("", None, None) if member is None else (*member, rings)


def identities_in(value: Any) -> Tuple[Identity, ...]:
    """The identity that an edit names, if it is one."""
    source, source_id = (value.get("source"), value.get("sourceId")) if isinstance(value, dict) else (None, None)
    has_texts = isinstance(source, str) and isinstance(source_id, str)
    return (identity_of(value),) if has_texts and is_source(source) and is_id(source_id) else ()


class MapReader:
    """Takes the lines of a map one after another, as a server does."""

    def __init__(self, path: str) -> None:
        self.path, self.book = path, empty_book()
        self.subjects: Dict[Identity, Subject] = {}
        self.refused: List[Finding] = []

    def refuse(self, number: int, fault: Fault, value: Any = None) -> None:
        """Takes note of a line that changes nothing; the value is that of its edit."""
        identities = identities_in(value)
        whose = f"{names_of(identities)}: " if identities else ""
        self.refused.append(Finding("refused", ERROR, None, identities, f"{self.path}, line {number}: {whose}{fault_text(fault)}"))

    def take(self, number: int, line: bytes) -> None:
        """Does what a line says."""
        kind, value, rings = read_mapping(line)
        if kind in REQUESTS or (kind == COMMIT and isinstance(value, dict)):
            return
        if kind not in EDITS:
            self.refuse(number, Fault(1, "this is not a desk line"))
        elif kind == "withdraw":
            self.withdraw(number, value)
        else:
            self.give(number, kind, value, rings)

    def withdraw(self, number: int, value: Any) -> None:
        """Takes a mapping away."""
        fault = withdrawal_fault(value) or book_fault(self.book, "withdraw", value)
        if fault:
            self.refuse(number, fault, value)
            return
        apply_edit(self.book, "withdraw", value)
        del self.subjects[identity_of(value)]

    def give(self, number: int, kind: str, value: Any, rings: Optional[List[Any]]) -> None:
        """Adds a mapping, or puts it in the place of another."""
        fault = mapping_fault(value)
        if fault:
            self.refuse(number, fault, value)
            return
        subject = subject_of(value, rings if rings is not None else list(map(ring_of, contents_of(value, GEODETIC))))
        entry = entry_of(subject)
        fault = book_fault(self.book, kind, entry)
        if fault:
            self.refuse(number, fault, value)
            return
        apply_edit(self.book, kind, entry)
        self.subjects[subject.identity] = subject


def read_desk_lines(path: str, progress: Progress) -> Checked:
    """The map that desk lines leave, whether or not they end with a commit."""
    reader = MapReader(path)
    with open(path, "rb") as file:
        for number, line in enumerate(file, 1):
            reader.take(number, line.rstrip(b"\n"))
            progress.tell("lines read", number, 0)
    return Checked(list(reader.subjects.values()), reader.refused, path)


def with_stand_ins(words: List[str]) -> List[str]:
    """The options of geojson-to-desk, with values for those that it must have."""
    given = {word.partition("=")[0] for word in words}
    return words + [word for name, value in STAND_INS.items() if name not in given for word in (name, value)]


def read_geojson(path: str, words: List[str], folder: str, progress: Progress) -> Checked:
    """The map that GeoJSON makes, and what makes no line."""
    lines = f"{folder}/map.jsonl"
    with open(lines, "wb") as file:
        command = [sys.executable, TOOL, path, *with_stand_ins(words)]
        ran = subprocess.run(command, stdout=file, stderr=subprocess.PIPE)
    said = ran.stderr.decode(errors="replace").strip().splitlines()
    if ran.returncode not in (0, 3):
        raise NoMap("; ".join(said[-2:]) or f"geojson-to-desk ended with status {ran.returncode}")
    texts = [line[len(SPEAKER) :] for line in said if line.startswith(SPEAKER)]
    left_out = [text for text in texts if not NO_FAULT.match(text)]
    result = read_desk_lines(lines, progress)
    return result._replace(refused=[Finding("refused", ERROR, None, (), text) for text in left_out] + result.refused)


def is_geojson(path: str) -> bool:
    """Whether a file has GeoJSON, by its name or by how it begins."""
    if path.lower().endswith(ENDINGS):
        return True
    with open(path, "rb") as file:
        head = file.read(65536)
    name = NAME_OF_LINE.match(head)
    return b'"Feature' in head and (name is None or name[0].split(b'"')[1].decode(errors="replace") not in DESK_NAMES)


def kept(source: BinaryIO, folder: str) -> str:
    """The path of a file with what standard input has."""
    path = f"{folder}/standard-input"
    with open(path, "wb") as file:
        for piece in iter(lambda: source.read(1 << 20), b""):
            file.write(piece)
    return path


def read_map(path: str, words: List[str], folder: str, progress: Progress) -> Checked:
    """The map of a file, or of standard input for -; a folder takes what must be kept meanwhile."""
    file = kept(sys.stdin.buffer, folder) if path == "-" else path
    if is_geojson(file):
        return read_geojson(file, words, folder, progress)
    if words:
        raise NoMap(f"{path} has desk lines, and options after -- are for GeoJSON")
    return read_desk_lines(file, progress)


def map_of(subjects: List[Subject], mappings: Iterable[Dict[str, Any]], folder: str) -> Checked:
    """A map of mappings at hand."""
    path = f"{folder}/map.jsonl"
    with open(path, "wb") as file:
        file.writelines(line_of({"publish": mapping}).encode() + b"\n" for mapping in mappings)
    return Checked(subjects, [], path)
