"""The map that a server is to hold: what a file says, with the stamps of what did not change, and later ones where they are due."""
from __future__ import annotations

from typing import Any, Dict, NamedTuple

from maptools.desk_map import DeskMap, as_kind
from maptools.desk_rules import Identity
from maptools.digest import mapping_digest
from maptools.lines import line_of, read_line
from maptools.texts import moment_of, stamp_after

# What is no change where all else is the same.
OF_NO_ACCOUNT = ("lastUpdated", "digest")


class Stamping(NamedTuple):
    """The time of the sync; whether it becomes the stamp of what changed without a later one, and of all that differs."""

    now: str
    where_due: bool
    of_all: bool

    def is_due(self, stamp: str, held: str) -> bool:
        """Whether a mapping that changed gets another stamp."""
        return self.of_all or self.where_due and moment_of(stamp) <= moment_of(held)

    def after(self, held: str) -> str:
        """A stamp after that of a mapping held: the time of the sync, or where that is not later, a nanosecond more."""
        return self.now if moment_of(self.now) > moment_of(held) else stamp_after(held)


def is_same(one: Dict[str, Any], other: Dict[str, Any]) -> bool:
    """Whether two outlines are those of one mapping, but for its stamp."""
    return all(one[name] == other[name] for name in one if name not in OF_NO_ACCOUNT)


def stamp_again(wanted: DeskMap, identity: Identity, stamp: str) -> None:
    """Gives a mapping of a map another stamp."""
    given = wanted.given[identity]
    value = read_line(as_kind("publish", given.line))[1]
    value["lastUpdated"] = stamp
    wanted.given[identity] = given._replace(line=line_of({"publish": value}).encode())
    wanted.book.held[identity] = {**wanted.book.held[identity], "lastUpdated": stamp, "digest": mapping_digest(value)}


def to_be_held(held: DeskMap, file: DeskMap, stamping: Stamping) -> DeskMap:
    """What a server that holds a map is to hold by a file."""
    wanted = DeskMap(file.path, file.noun)
    wanted.book.traces.update(file.book.traces)
    for identity, outline in file.book.held.items():
        old = held.book.held.get(identity)
        is_unchanged = old is not None and is_same(old, outline)
        wanted.book.held[identity], wanted.given[identity] = (old, held.given[identity]) if is_unchanged else (outline, file.given[identity])
        if old is None and stamping.of_all:
            stamp_again(wanted, identity, stamping.now)
        elif old is not None and not is_unchanged and stamping.is_due(outline["lastUpdated"], old["lastUpdated"]):
            stamp_again(wanted, identity, stamping.after(old["lastUpdated"]))
    return wanted
