"""The edits by which a server that holds one map comes to hold another."""
from __future__ import annotations

import argparse
from typing import Any, Dict, List, NamedTuple, Optional

from maptools.desk_map import DeskMap, as_kind
from maptools.desk_rules import Book, Identity, apply_edit, book_fault, identity_of
from maptools.lines import line_of
from maptools.refusals import REFUSALS
from maptools.texts import moment_of, stamp_after

# Without being told, so many mappings are withdrawn at once, and this share of those that are held.
MOST_WITHDRAWN, MOST_SHARE = 10, 0.05
NOUNS = {"publish": "publication", "replace": "replacement", "withdraw": "withdrawal"}


class Edit(NamedTuple):
    """A kind of desk line, and the outline of its mapping, or what it says of a withdrawal."""

    kind: str
    value: Dict[str, Any]


def withdrawal_stamp(held: str, told: Optional[str], now: str) -> str:
    """The stamp of a withdrawal: the one that the map file tells, or else now. It must be after that of the mapping held:
    where it is not, it is a nanosecond after that."""
    for stamp in (told, now):
        if stamp is not None and moment_of(stamp) > moment_of(held):
            return stamp
    return stamp_after(held)


def withdrawal(held: Dict[str, Any], wanted: DeskMap, now: str) -> Edit:
    """The withdrawal of a mapping that the wanted map has no more."""
    stamp = withdrawal_stamp(held["lastUpdated"], wanted.book.traces.get(identity_of(held)), now)
    return Edit("withdraw", {"lastUpdated": stamp, "source": held["source"], "sourceId": held["sourceId"]})


class Difference:
    """Edits in an order in which the server takes them, and why it would not take others.

    The book is what the server holds; each edit is done to it, so that in the end it is what the server holds afterwards.
    """

    def __init__(self, book: Book, wanted: DeskMap) -> None:
        self.book, self.wanted = book, wanted
        self.edits: List[Edit] = []
        self.faults: List[str] = []

    def add(self, edit: Edit) -> None:
        """Adds an edit, or the reason why the server would refuse it."""
        fault = book_fault(self.book, *edit)
        if fault:
            refusal = REFUSALS[fault.code]
            what = f"would be refused with code {fault.code}, {refusal.name}: {fault.what}; {refusal.remedy}"
            self.faults.append(f"{place_of(edit, self.wanted)}: its {NOUNS[edit.kind]} {what}")
            return
        apply_edit(self.book, *edit)
        self.edits.append(edit)

    def replace_all(self, changed: Dict[Identity, Dict[str, Any]]) -> None:
        """Adds replacements: one that takes the key of another mapping behind the one that gives that key up."""
        left, waiting = set(changed), {}
        for identity in changed:
            key, owner = changed[identity]["key"], self.book.keys.get(changed[identity]["key"])
            if owner != identity and owner in left:
                waiting[key] = identity
                continue
            self.replace_chain(identity, changed, left, waiting)
        for identity in waiting.values():
            self.add(Edit("replace", changed[identity]))

    def replace_chain(
        self, first: Identity, changed: Dict[Identity, Dict[str, Any]], left: set, waiting: Dict[str, Identity]
    ) -> None:
        """Adds a replacement, and then the one that waits for its key, and so on."""
        identity: Optional[Identity] = first
        while identity is not None:
            freed = self.book.held[identity]["key"]
            self.add(Edit("replace", changed[identity]))
            left.discard(identity)
            identity = waiting.pop(freed, None)


def name_of(value: Dict[str, Any]) -> str:
    """A mapping by its source and sourceId."""
    return " ".join(identity_of(value))


def place_of(edit: Edit, wanted: DeskMap) -> str:
    """The mapping that an edit is about, and where the map file has it."""
    if edit.kind == "withdraw":
        return f"{name_of(edit.value)}, which {wanted.path} no longer has"
    return f"{wanted.path}, {wanted.noun} {wanted.given[identity_of(edit.value)].number}: {name_of(edit.value)}"


def difference_of(book: Book, wanted: DeskMap, now: str) -> Difference:
    """The edits from a book, which they change, to a map: what is gone is withdrawn, then what changed is replaced, and then
    what is new is published."""
    held, asked = book.held, wanted.book.held
    gone = [value for identity, value in held.items() if identity not in asked]
    changed = {identity: value for identity, value in asked.items() if identity in held and held[identity] != value}
    new = [value for identity, value in asked.items() if identity not in held]
    difference = Difference(book, wanted)
    for value in gone:
        difference.add(withdrawal(value, wanted, now))
    difference.replace_all(changed)
    for value in new:
        difference.add(Edit("publish", value))
    return difference


def line_of_edit(edit: Edit, wanted: DeskMap) -> bytes:
    """The desk line of an edit."""
    if edit.kind == "withdraw":
        return line_of({edit.kind: edit.value}).encode()
    return as_kind(edit.kind, wanted.given[identity_of(edit.value)].line)


def too_many_withdrawn(options: argparse.Namespace, difference: Difference, held: int) -> str:
    """What is said where so many mappings would be withdrawn that the file or table may not be whole; empty where they are few."""
    count, most = sum(edit.kind == "withdraw" for edit in difference.edits), options.most_withdrawn
    if count <= MOST_WITHDRAWN or count <= held * MOST_SHARE if most is None else count <= most:
        return ""
    usual = f"more than {MOST_WITHDRAWN}, and more than {MOST_SHARE:.0%}" if most is None else f"more than {most}"
    text = f"{count:,} of the {held:,} mappings held would be withdrawn, {usual}: is {options.file} whole?"
    return f"{text} --most-withdrawn {count} allows it"
