"""Keeps the XML of replies that came before: between two commits many calls find the same centre.

Replies to the same question differ in the location used alone, which every client names as it likes. So what is kept is the
XML before that name and the XML after it. It is found by all other bytes of the line.
"""
from __future__ import annotations

from json.encoder import encode_basestring
from typing import Dict, Hashable, NamedTuple, Optional, Tuple

MOST_KEPT, LONGEST_KEPT = 1024, 4096
MARK, USED = b',"locationUsed":', b'<locationUsed id="'
# What stands in an attribute as a reference, as lxml writes it.
ESCAPES = {ord(mark): f"&{name};" for mark, name in zip("&<>\"\t\n\r", ("amp", "lt", "gt", "quot", "#9", "#10", "#13"))}


class Written(NamedTuple):
    """The XML of a reply, and what is counted of it."""

    xml: bytes
    outcome: str
    edition: Optional[int]


class Kept(NamedTuple):
    """A reply around the name of the location used; where it names none, all of it is in front."""

    front: bytes
    back: Optional[bytes]
    outcome: str
    edition: Optional[int]

    def written(self, used: Optional[str]) -> Written:
        """The reply to a request whose location used has this name."""
        if self.back is None or used is None:
            return Written(self.front, self.outcome, self.edition)
        return Written(b"%b%b%b" % (self.front, in_attribute(used), self.back), self.outcome, self.edition)


def in_attribute(text: str) -> bytes:
    """A text as it stands in an attribute."""
    return (text if text.isalnum() else text.translate(ESCAPES)).encode()


def kept_of(written: Written) -> Kept:
    """What is kept of a reply. (In XML neither texts nor attributes have the first mark, and no attribute has the second.)"""
    found = written.xml.rfind(USED)
    if found < 0:
        return Kept(written.xml, None, written.outcome, written.edition)
    place = found + len(USED)
    return Kept(written.xml[:place], written.xml[written.xml.index(b'"', place) :], written.outcome, written.edition)


def key_of(line: bytes, used: Optional[str]) -> Optional[Tuple[bytes, ...]]:
    """All bytes of a line but the name of the location used; None where it is too long to be kept, or names another location."""
    return key_around(line, encode_basestring(used).encode() if used is not None else b"")


def key_around(line: bytes, name: bytes) -> Optional[Tuple[bytes, ...]]:
    """The same, where the name is as JSON has it; empty where there is none."""
    if len(line) > LONGEST_KEPT:
        return None
    front, mark, back = line.partition(MARK)
    if not mark:
        return (line,)
    return (front, back[len(name) :]) if name and back.startswith(name) else None


class KeptReplies:
    """A table that is emptied when it is full."""

    def __init__(self) -> None:
        self.table: Dict[Hashable, Kept] = {}

    def find(self, key: Hashable) -> Optional[Kept]:
        """The reply of a key; None where it is not kept."""
        return self.table.get(key)

    def keep(self, key: Hashable, kept: Kept) -> None:
        """Keeps a reply."""
        if len(self.table) >= MOST_KEPT:
            self.table.clear()
        self.table[key] = kept
