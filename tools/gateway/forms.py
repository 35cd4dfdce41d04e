"""A short way to read the requests that come most often: a findService or listServicesByLocation at a point.

A client writes its requests in one form, in which the name of the location and the position alone are others each time. A form
that came twice is learned: with a name and a position that nobody sends in their places it is read as any other request, and
where these came out in the line just once, each as what it is, the line of another request in this form is made by putting in
its own. (A name that needs no reference in XML and no escape in JSON, and a position of plain numbers, change nothing else.)
"""
from __future__ import annotations

import re
from typing import Callable, Dict, Hashable, NamedTuple, Optional, Pattern, Set, Tuple

from gateway.documents import NoDocument
from gateway.positions import units_of
from gateway.requests import NoRequest, Request

MOST_FORMS, LONGEST_FORM = 256, 4096
NUMBER = rb"(-?[0-9]{1,3}(?:\.[0-9]{1,30})?)"
GIVEN = rb"([A-Za-z0-9._:@/+=-]*)"
FORM = re.compile(rb'(.*?location[^>]*?\sid=")' + GIVEN + rb'(".*?pos[^>]*>)' + NUMBER + rb" " + NUMBER + rb"(<.*)", re.DOTALL)
NAME, PLACE = b"a-name-that-nobody-gives", (b"12.3456789", b"-123.456789")
NAME_IN_LINE, PLACE_IN_LINE = b'"' + NAME + b'"', b"[123456789,-1234567890]"

Key = Tuple[bytes, bytes, bytes]
Read = Callable[[bytes], Tuple[Request, bytes]]
AskedOf = Callable[[Request], Hashable]


class Form(NamedTuple):
    """The kind of the requests of a form, what a reply must know of them, and their line around the name and the position.

    The pattern finds the name and the two numbers in a request of this form, and fits no other.
    """

    kind: str
    asked: Hashable
    pieces: Tuple[bytes, bytes, bytes]
    is_name_first: bool
    pattern: Pattern[bytes]

    def line(self, name: bytes, place: bytes) -> bytes:
        """The line of a request, with its newline."""
        first, second, third = self.pieces
        return b"%b%b%b%b%b" % ((first, name, second, place, third) if self.is_name_first else (first, place, second, name, third))


class Short(NamedTuple):
    """A request that was read in the short way: its form, its line, and the name of its location as JSON has it."""

    form: Form
    line: bytes
    name: bytes


def learned(key: Key, read: Read, asked_of: AskedOf) -> Optional[Form]:
    """The form of a request that came in it; None where it has none that can be learned."""
    front, middle, back = key
    try:
        request, line = read(b"%b%b%b%b %b%b" % (front, NAME, middle, *PLACE, back))
    except (NoDocument, NoRequest):
        return None
    used = request.used
    if used is None or used.area or used.fault or request.is_unserved() or request.earlier or used.item["id"] != NAME.decode():
        return None
    if line.count(NAME_IN_LINE) != 1 or line.count(PLACE_IN_LINE) != 1 or line.count(NAME) != 1:
        return None
    is_name_first = line.index(NAME_IN_LINE) < line.index(PLACE_IN_LINE)
    marks = (NAME_IN_LINE, PLACE_IN_LINE) if is_name_first else (PLACE_IN_LINE, NAME_IN_LINE)
    first, _, rest = line.partition(marks[0])
    second, _, third = rest.partition(marks[1])
    pattern = re.compile(re.escape(front) + GIVEN + re.escape(middle) + NUMBER + b" " + NUMBER + re.escape(back))
    return Form(request.kind, asked_of(request), (first, second, third), is_name_first, pattern)


def short_of(form: Form, name: bytes, north: bytes, east: bytes) -> Short:
    """A request of a form, from its name and its numbers."""
    quoted = b'"%b"' % name
    return Short(form, form.line(quoted, b"[%d,%d]" % (units_of(north), units_of(east))), quoted)


class Forms:
    """The forms of requests that came lately; a table that is emptied when it is full."""

    def __init__(self, read: Read, asked_of: AskedOf) -> None:
        self.read, self.asked_of = read, asked_of
        self.seen: Set[Key] = set()
        self.table: Dict[Key, Optional[Form]] = {}
        self.last: Optional[Form] = None

    def short(self, body: bytes) -> Optional[Short]:
        """A request read in the short way, at once in the form that came last; None where it must be read in the long one."""
        again = self.last.pattern.fullmatch(body) if self.last else None
        if again is not None and self.last:
            return short_of(self.last, *again.groups())
        found = FORM.fullmatch(body) if len(body) <= LONGEST_FORM else None
        if found is None:
            return None
        front, name, middle, north, east, back = found.groups()
        key = (front, middle, back)
        form = self.table.get(key)
        if form is None:
            form = self.learn(key)
            if form is None:
                return None
        self.last = form
        return short_of(form, name, north, east)

    def learn(self, key: Key) -> Optional[Form]:
        """Learns a form that came before; what has none is known as such."""
        if key in self.table:
            return None
        if key not in self.seen:
            if len(self.seen) >= MOST_FORMS:
                self.seen.clear()
            self.seen.add(key)
            return None
        if len(self.table) >= MOST_FORMS:
            self.table.clear()
        self.table[key] = learned(key, self.read, self.asked_of)
        return self.table[key]
