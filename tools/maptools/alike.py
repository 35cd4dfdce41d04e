"""Complaints of a tool: of many that are alike the first ones are said, and the rest are counted."""
from __future__ import annotations

import re
from typing import Callable, Dict, Iterable, List

# So many complaints that are alike are said.
MOST_SAID = 20
# What may differ in complaints that are alike: texts of the input, and numbers.
DIFFERENT = re.compile(r"'[^']*'|\"[^\"]*\"|[-+]?[0-9][-+0-9.,:TZ]*")


class Alike:
    """Complaints that are alike: the first of them, how many there are, and the last one's place."""

    def __init__(self) -> None:
        self.first: List[str] = []
        self.count, self.last = 0, ""

    def add(self, place: str, cause: str) -> bool:
        """Counts one more; whether it is one of the first."""
        self.count, self.last = self.count + 1, place
        if self.count <= MOST_SAID:
            self.first.append(f"{place}: {cause}")
        return self.count <= MOST_SAID

    def rest(self, what: str) -> str:
        """How many there are beyond the first ones; empty where there are no more."""
        more = self.count - len(self.first)
        return f"{more:,} more {what}, the last of them {self.last}" if more else ""


class Complaints:
    """Says complaints as they come. `what` stands for those that are only counted."""

    def __init__(self, say: Callable[[str], None], what: str) -> None:
        self.say, self.what = say, what
        self.alike: Dict[str, Alike] = {}

    def add(self, place: str, cause: str, reason: str = "") -> None:
        """Says a complaint, or counts it. Those of one reason are alike; without one, those that differ in texts and numbers."""
        alike = self.alike.setdefault(reason or DIFFERENT.sub("", cause), Alike())
        if alike.add(place, cause):
            self.say(alike.first[-1])

    def finish(self) -> None:
        """Says how many there are beside those that were said."""
        for rest in filter(None, (alike.rest(self.what) for alike in self.alike.values())):
            self.say(rest)


def say_lines(complaints: Iterable[str], say: Callable[[str], None]) -> None:
    """Says complaints of lines, each a place, a colon and a cause."""
    said = Complaints(say, "lines with like faults")
    for complaint in complaints:
        place, _, cause = complaint.partition(": ")
        said.add(place, cause)
    said.finish()
