"""Writes the desk lines of mappings as they come, as far as a server would take them."""
from __future__ import annotations

import argparse
from typing import Any, Dict, NamedTuple

from maptools.desk_map import COMMIT, NOW, STAMP
from maptools.desk_rules import Book, Fault, Identity, book_fault, empty_book, identity_of, mapping_fault
from maptools.left_out import LeftOut, Mistake
from maptools.lines import LONGEST_LINE, line_of
from maptools.mapping_words import is_constant
from maptools.meridian import Unfit
from maptools.refusals import REFUSALS

# What changed may be stamped when it is sent.
COMMIT_LINE = f'{{"{COMMIT}":{{"{STAMP}":"{NOW}"}}}}'
# What stands in the book for each mapping, of which only the identity and the key are looked at.
HELD: Dict[str, Any] = {}


class Takers(NamedTuple):
    """The mappings that were taken, and the number of the feature, or the name of the district, that each is of."""

    book: Book
    places: Dict[Identity, Any]


class Writer:
    """Writes a line for each mapping. Between lines it keeps the identities and keys alone."""

    def __init__(self, options: argparse.Namespace, noun: str) -> None:
        self.options, self.noun = options, noun
        self.takers = Takers(empty_book(), {})
        self.kind = "replace" if options.replace else "publish"

    def need_accepted(self, mapping: Dict[str, Any]) -> None:
        """Unfit where the server would refuse a mapping behind those that were taken."""
        fault = mapping_fault(mapping) or book_fault(self.takers.book, "publish", mapping)
        if fault:
            raise self.unfit_of(fault, mapping)

    def unfit_of(self, fault: Fault, mapping: Dict[str, Any]) -> Unfit:
        """A refusal in words."""
        options, what = self.options, fault.what
        remedy = f"is the same for every {self.noun}: write a property into it, such as {{code}}"
        if fault.code == 13:
            if is_constant(options.source) and is_constant(options.source_id):
                return Mistake("--source-id", f"{mapping['sourceId']!r} {remedy}")
            what = f"{self.noun} {self.takers.places[identity_of(mapping)]} has the same source and sourceId, {mapping['sourceId']!r}"
        if fault.code == 16:
            if is_constant(options.key):
                return Mistake("--key", f"{mapping['key']!r} {remedy}")
            what = f"{self.noun} {self.takers.places[self.takers.book.keys[mapping['key']]]} has the same key, {mapping['key']!r}"
        return Unfit(f"would be refused with code {fault.code}, {REFUSALS[fault.code].name}: {what}")

    def hold(self, place: Any, mapping: Dict[str, Any], held: Dict[str, Any] = HELD) -> None:
        """Notes that a mapping was taken."""
        identity, book = identity_of(mapping), self.takers.book
        book.held[identity] = held
        self.takers.places[identity] = place
        if mapping.get("key") is not None:
            book.keys[mapping["key"]] = identity

    def take(self, place: Any, mapping: Dict[str, Any]) -> None:
        """Writes the line of a mapping; Unfit where the server would refuse it."""
        self.need_accepted(mapping)
        print(short_line(self.kind, mapping))
        self.hold(place, mapping)

    def spare(self, identity: Any) -> None:
        """A mapping was left out."""

    def finish(self, left_out: LeftOut) -> str:
        """What is said of all lines; empty where nothing is."""
        return ""


def short_line(kind: str, mapping: Dict[str, Any]) -> str:
    """The line of a mapping; Unfit where it is too long."""
    line = line_of({kind: mapping})
    if len(line.encode()) > LONGEST_LINE:
        raise Unfit(f"makes a line of more than {LONGEST_LINE:,} bytes: simplify it, or split it into features")
    return line


def write_commit(options: argparse.Namespace, left_out: LeftOut) -> None:
    """Writes the commit line, unless something was left out: by a mistake of the command line, or without being asked for."""
    if left_out.count and not left_out.said and not options.without_faulty:
        left_out.say("no commit line is written, since something was left out; --without-faulty writes it all the same")
    elif not left_out.said:
        print(COMMIT_LINE)
