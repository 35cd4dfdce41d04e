"""Edits of a map of districts, each later than those before, with a commit behind each."""
import datetime
import random

from kinds import COMMIT
from maps import write_line

KINDS = ["publish", "replacement", "withdrawal"]
STAGED, COMMITTED = b'{"staged":{"pending":1}}', b'{"committed":{"edition":'
FIRST = datetime.datetime(2025, 12, 2)


class Edits:
    """Draws edits of a land: publishes districts beside it, replaces some in it, and withdraws those beside it."""

    def __init__(self, land):
        self.land, self.count, self.dice = land, 0, random.Random(1)

    def updated(self):
        """The time of the next edit."""
        self.count += 1
        return f"{(FIRST + datetime.timedelta(seconds=self.count)).isoformat()}Z"

    def replacement(self, number):
        """The line that replaces a mapping."""
        return self.land.edit("replace", number, self.updated())

    def edit(self, kind, number):
        """The line of an edit of a kind, the one with this number in its round."""
        beside = self.land.mappings + number
        if kind == "publish":
            return self.land.edit("publish", beside, self.updated())
        if kind == "replacement":
            return self.replacement(self.dice.randrange(self.land.mappings))
        return write_line({"withdraw": {"lastUpdated": self.updated(), "source": "map.example", "sourceId": f"M-{beside}"}})

    def lines(self, kind, count):
        """So many edits of a kind, each with its commit."""
        return b"".join(self.edit(kind, number) + COMMIT for number in range(count))
