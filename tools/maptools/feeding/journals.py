"""Journals of servers, as `lostd serve --journal` writes and reads them: each edit as it was sent, and a line for each commit."""
from __future__ import annotations

import re
from typing import BinaryIO, Iterator, List, NamedTuple

from maptools.feeding.standing import EMPTY, Standing
from maptools.lines import line_of
from maptools.sip_hash import sip_hash

# How a commit's line begins, and the two bytes that end it: behind a closed gate nothing counts, behind an open one the next commit.
COMMIT_START = b'{"commit":'
CLOSED, OPEN = b" \n", b"\t\n"
# The time of the commit of nothing with which a journal begins: at any time before its first commit, nothing was published.
BEGINNING = "1970-01-01T00:00:00Z"
SAYS = re.compile(rb'\{"commit":\{"edition":([0-9]+),"map":"([0-9a-f]{32})"')


class Kept(NamedTuple):
    """A commit of a journal: its edits, and where a server stands after them."""

    lines: List[bytes]
    standing: Standing


def commit_line(standing: Standing, edits: bytes, time: str) -> bytes:
    """The line of a commit, up to its gate."""
    members = {"edition": standing.edition, "map": standing.map, "sum": f"{sip_hash(edits):016x}", "time": time}
    return line_of({"commit": members}).encode()


def begin(file: BinaryIO) -> None:
    """Writes how a journal begins, up to its gate."""
    file.write(commit_line(EMPTY, b"", BEGINNING))


def add(file: BinaryIO, kept: Kept, time: str) -> None:
    """Writes a commit behind one whose gate is not written yet, up to its own gate."""
    edits = b"".join(line + b"\n" for line in kept.lines)
    file.write(OPEN + edits + commit_line(kept.standing, edits, time))


def end(file: BinaryIO) -> None:
    """Writes the gate of the last commit. A file without it is no journal, and a server refuses it."""
    file.write(CLOSED)


def standing_in(line: bytes) -> Standing:
    """Where a server stands after a commit, by the commit's line; ValueError where it does not say."""
    found = SAYS.match(line)
    if found is None:
        raise ValueError(f"this is no journal: a commit's line says no edition and no map: {line[:60]!r}")
    return Standing(int(found[1]), found[2].decode())


def commits_in(file: BinaryIO) -> Iterator[Kept]:
    """The commits of a journal that have edits, up to the last one that counts; nothing is judged. ValueError where it is none."""
    lines: List[bytes] = []
    for line in file:
        if not line.startswith(COMMIT_START):
            lines.append(line.rstrip(b"\n"))
            continue
        if lines:
            yield Kept(lines, standing_in(line))
        if line.endswith(CLOSED):
            return
        lines = []
