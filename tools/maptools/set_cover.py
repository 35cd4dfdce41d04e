"""The fewest sets that cover all: exactly where a search of bounded length ends, and else the best that it found.

The input are rows, each the candidates of which it needs one. Candidates are whole numbers; of two that serve as well, the
lower is taken.
"""
from __future__ import annotations

from typing import Dict, FrozenSet, Iterable, List, Optional, Set

MOST_STEPS, DEEPEST = 20_000, 200

Row = FrozenSet[int]


def essential(rows: Set[Row], chosen: Set[int]) -> Set[Row]:
    """Takes the only candidate of each row that has one; the rows that are left."""
    chosen.update(candidate for row in rows if len(row) == 1 for candidate in row)
    return {row for row in rows if not row & chosen}


def shortest(rows: Set[Row]) -> Set[Row]:
    """The rows that no other row is a part of: what serves the part serves the whole."""
    having: Dict[int, List[Row]] = {}
    kept: Set[Row] = set()
    for row in sorted(rows, key=len):
        if not any(other < row for candidate in row for other in having.get(candidate, ())):
            kept.add(row)
            for candidate in row:
                having.setdefault(candidate, []).append(row)
    return kept


def covers_of(rows: Iterable[Row]) -> Dict[int, Set[Row]]:
    """The rows that each candidate serves."""
    covers: Dict[int, Set[Row]] = {}
    for row in rows:
        for candidate in row:
            covers.setdefault(candidate, set()).add(row)
    return covers


def without_weaker(rows: Set[Row]) -> Set[Row]:
    """The rows without candidates that serve no more rows than another one does."""
    covers = covers_of(rows)
    weaker: Set[int] = set()
    for candidate, served in covers.items():
        for other in min(served, key=len):
            is_better = other != candidate and other not in weaker and served <= covers[other]
            if is_better and (served != covers[other] or other < candidate):
                weaker.add(candidate)
                break
    return {row - weaker for row in rows}


def components(rows: Set[Row]) -> List[Set[Row]]:
    """The rows in groups that have no candidate in common."""
    covers, left, groups = covers_of(rows), set(rows), []
    while left:
        group, waiting = set(), [left.pop()]
        while waiting:
            row = waiting.pop()
            group.add(row)
            for candidate in row:
                near = covers[candidate] & left
                left -= near
                waiting += near
        groups.append(group)
    return groups


def greedy(rows: Set[Row]) -> Set[int]:
    """Candidates that serve all: each time the one that serves the most."""
    chosen: Set[int] = set()
    while rows:
        covers = covers_of(rows)
        best = min(covers, key=lambda candidate: (-len(covers[candidate]), candidate))
        chosen.add(best)
        rows = rows - covers[best]
    return chosen


def apart(rows: Set[Row]) -> int:
    """How many candidates are needed at least: as many as there are rows that have none in common."""
    used: Set[int] = set()
    count = 0
    for row in sorted(rows, key=len):
        if not row & used:
            used |= row
            count += 1
    return count


class Search:
    """Goes through the choices for rows, the row with the fewest candidates first."""

    def __init__(self, rows: Set[Row]) -> None:
        self.best, self.steps = greedy(rows), 0

    def run(self, rows: Set[Row], chosen: Set[int]) -> None:
        """Looks for fewer than the best, given what is chosen."""
        self.steps += 1
        if not rows:
            self.best = chosen if len(chosen) < len(self.best) else self.best
            return
        if self.steps > MOST_STEPS or len(chosen) + apart(rows) >= len(self.best):
            return
        for candidate in sorted(min(rows, key=lambda row: (len(row), sorted(row)))):
            self.run({row for row in rows if candidate not in row}, chosen | {candidate})


def least_of(rows: Set[Row]) -> Set[int]:
    """The fewest candidates for rows that hang together."""
    search = Search(rows)
    if len(search.best) <= DEEPEST:
        search.run(rows, set())
    return search.best


def fewest(given: Iterable[Row]) -> Set[int]:
    """The fewest candidates of which each row has one."""
    chosen: Set[int] = set()
    rows, before = set(given), None  # type: Set[Row], Optional[Set[Row]]
    while rows != before:
        before = rows
        rows = shortest(essential(without_weaker(essential(rows, chosen)), chosen))
    for group in components(rows):
        chosen |= least_of(group)
    return chosen
