"""The edits by which a server that holds one map comes to hold what a file of features says."""
from __future__ import annotations

import argparse
from collections import Counter
from typing import Any, Dict, Optional

from maptools.desk_map import DeskMap, Given, Reader
from maptools.desk_rules import Identity, identity_of
from maptools.difference import difference_of, line_of_edit, too_many_withdrawn
from maptools.left_out import LeftOut, Mistake
from maptools.line_writing import Writer, short_line
from maptools.mapping_words import constant_text, is_constant
from maptools.outlines import outline_of
from maptools.texts import lowered, moment_of, stamp_after
from maptools.times import now_stamp

# What alone makes no edit: a mapping that is the same in all else keeps its stamp and its key.
OF_NO_ACCOUNT = ("lastUpdated", "key", "digest")


class NoMap(Exception):
    """What keeps a map from being compared with."""


def is_same(one: Dict[str, Any], other: Dict[str, Any]) -> bool:
    """Whether two outlines are those of one mapping, but for its stamp and its key."""
    return all(one[name] == other[name] for name in one if name not in OF_NO_ACCOUNT)


def map_of(path: str) -> DeskMap:
    """The map of a file of desk lines that a server would take; NoMap where it would not."""
    result = Reader().read(path)
    if result.complaints:
        more = f" (and {len(result.complaints) - 1} more)" if len(result.complaints) > 1 else ""
        raise NoMap(f"{result.complaints[0]}{more}")
    return result


class EditWriter(Writer):
    """Keeps the lines of the mappings that differ from those of a map, and writes the edits at the end."""

    def __init__(self, options: argparse.Namespace, noun: str, before: Optional[DeskMap] = None) -> None:
        super().__init__(options, noun)
        self.before = before or map_of(options.against)
        self.wanted = DeskMap(options.file, noun)
        self.wanted.book = self.takers.book
        self.is_any_unknown, self.unchanged = False, 0

    def stamp_again(self, mapping: Dict[str, Any], before: Optional[str]) -> None:
        """Gives a mapping that changed a stamp after an earlier one: by itself where it is stamped now."""
        options, stamp = self.options, mapping["lastUpdated"]
        if before is None or moment_of(stamp) > moment_of(before):
            return
        if options.is_stamped_now:
            mapping["lastUpdated"] = stamp_after(before)
        elif is_constant(options.updated):
            name = " ".join(identity_of(mapping))
            what = f"{stamp} is not after {before}, which {options.against} has for {name}, and that changed"
            raise Mistake("--updated", f"{what}: give a later time, or now")

    def take(self, place: int, mapping: Dict[str, Any]) -> None:
        """Keeps what is to be done of a mapping; Unfit where the server would refuse it."""
        self.need_accepted(mapping)
        identity, outline = identity_of(mapping), outline_of(mapping)
        old = self.before.book.held.get(identity)
        if old is not None and is_same(old, outline):
            self.unchanged += 1
            self.hold(place, {**mapping, "key": old["key"]}, old)
            return
        self.stamp_again(mapping, old["lastUpdated"] if old else self.before.book.traces.get(identity))
        self.wanted.given[identity] = Given(place, short_line("publish", mapping).encode())
        self.hold(place, mapping, {**outline, "lastUpdated": mapping["lastUpdated"]})

    def spare(self, identity: Optional[Identity]) -> None:
        """What the map has of a mapping that was left out stays; without its identity all stays that would go."""
        old = self.before.book.held.get(identity) if identity else None
        self.is_any_unknown = self.is_any_unknown or identity is None
        if old is not None:
            self.takers.book.held.setdefault(identity, old)

    def spare_others(self, source: str) -> None:
        """What the map has of other sources stays."""
        own = lowered(source)
        self.takers.book.held.update({identity: old for identity, old in self.before.book.held.items() if identity[0] != own})

    def spare_all(self, left_out: LeftOut) -> None:
        """Keeps what would be withdrawn, and says so."""
        held = self.takers.book.held
        gone = {identity: old for identity, old in self.before.book.held.items() if identity not in held}
        held.update(gone)
        if gone:
            left_out.say(f"{len(gone):,} are not withdrawn, since it is unknown which of them were left out")

    def finish(self, left_out: LeftOut) -> str:
        """Writes the edits, and says how many there are."""
        options = self.options
        if self.is_any_unknown:
            self.spare_all(left_out)
        stamp = constant_text(options.updated) if is_constant(options.updated) else now_stamp()
        held = len(self.before.book.held)
        difference = difference_of(self.before.book, self.wanted, stamp)
        too_many = too_many_withdrawn(options, difference, held) if options.is_guarded else ""
        if too_many:
            left_out.say_once("--most-withdrawn", too_many)
        for fault in difference.faults:
            left_out.count += 1
            left_out.say(fault)
        for edit in difference.edits:
            print(line_of_edit(edit, self.wanted).decode())
        count: Dict[Any, int] = Counter(edit.kind for edit in difference.edits)
        options.commit = bool(difference.edits)
        return f"{count['publish']:,} to publish, {count['replace']:,} to replace, {count['withdraw']:,} to withdraw, {self.unchanged:,} unchanged"
