"""The map that the log says, as the tools that compare maps have it."""
from __future__ import annotations

from maptools.connection import Broken
from maptools.desk_map import DeskMap, parsed_line
from maptools.desk_rules import EDITS, Book, apply_edit, empty_book
from maptools.feeding.log import Commit, Log
from maptools.feeding.standing import EMPTY


class HeldMap:
    """The map after the commits that were read; it grows with the log."""

    def __init__(self) -> None:
        self.book, self.standing = empty_book(), EMPTY

    def catch_up(self, log: Log) -> DeskMap:
        """A copy of the map after all commits of the log. (After a fault of the database the log may be another one.)"""
        if log.map_at(self.standing.edition) != self.standing.map:
            self.book, self.standing = empty_book(), EMPTY
        for commit in log.all_after(self.standing.edition):
            self.take(commit)
        result = DeskMap("the log")
        result.book = Book(*map(dict, self.book))
        return result

    def take(self, commit: Commit) -> None:
        """Does what a commit says."""
        for line in commit.desk_lines():
            kind, value, fault = parsed_line(line)
            if fault or kind not in EDITS:
                raise Broken(f"the commit that makes edition {commit.edition} has a line that is no edit: {line[:60]!r}")
            apply_edit(self.book, kind, value)
        self.standing = commit.standing()
