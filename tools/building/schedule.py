"""Which crate is proved next, on how many processors, and how long the rest takes."""
from __future__ import annotations

import functools
from typing import Dict, Iterable, List, Mapping, Set, Tuple

from building.sources import crates_below

# Before a line of its own a crate costs as much as so many lines.
EACH = 100
# Each further processor shortens a crate as if it were so much of one, and takes so much of its memory.
FURTHER, FURTHER_MEMORY = 0.5, 0.6
# The megabytes that a proof takes: so many, and for each line of the crate, and for each line of it and all below. With one
# processor no crate was seen to take more than that.
MEMORY, MEMORY_OF_LINE, MEMORY_OF_LINE_BELOW = 1_200, 0.8, 0.1


class Schedule:
    """The crates in their order: first those with the longest chain of others above them."""

    def __init__(self, uses: Mapping[str, List[str]], lines: Mapping[str, int], processors: int, memory: int) -> None:
        self.processors, self.memory = processors, memory
        self.uses: Dict[str, Set[str]] = {name: set(uses[name]) for name in lines}
        self.cost: Dict[str, float] = {name: EACH + count for name, count in lines.items()}
        self.needs: Dict[str, float] = {}
        for name, count in lines.items():
            whole = sum(lines[below] for below in crates_below(uses, name))
            self.needs[name] = MEMORY + MEMORY_OF_LINE * count + MEMORY_OF_LINE_BELOW * whole
        self.chain = functools.lru_cache(maxsize=None)(self._chain)

    def _chain(self, name: str) -> float:
        """What a crate costs with the longest chain above it."""
        return self.cost[name] + max((self.chain(above) for above in self.uses if name in self.uses[above]), default=0.0)

    def takes(self, name: str, jobs: int) -> float:
        """The megabytes that a crate takes on so many processors."""
        return self.needs[name] * (1 + FURTHER_MEMORY * (jobs - 1))

    def ready(self, done: Iterable[str], begun: Iterable[str]) -> List[str]:
        """The crates that can begin, those with the longest chain first."""
        ended, taken = set(done), {*done, *begun}
        found = [name for name, used in self.uses.items() if name not in taken and used <= ended]
        return sorted(found, key=lambda name: (-self.chain(name), name))

    def leads(self, name: str, others: Iterable[str]) -> bool:
        """Whether a crate is the first of those with the longest chain above them: the build takes as long as that chain."""
        return all((-self.chain(name), name) <= (-self.chain(other), other) for other in others)

    def next(self, done: Iterable[str], running: Mapping[str, int]) -> List[Tuple[str, int]]:
        """What begins now, each with its jobs. The leader gets all processors, as far as memory goes, and counts as one: the
        others share the rest, and yield to it where they are proved with less priority."""
        ready = self.ready(done, running)
        leads = {name: self.leads(name, {*ready, *running}) for name in {*ready, *running}}
        idle = self.processors - sum(1 if leads[name] else jobs for name, jobs in running.items())
        room = self.memory - sum(self.takes(name, jobs) for name, jobs in running.items())
        begun: List[Tuple[str, int]] = []
        for place, name in enumerate(ready):
            jobs = self.processors if leads[name] else max(idle // (len(ready) - place), 1)
            left = room - self._beside(name, ready[place + 1 : place + idle], room) if leads[name] else room
            while jobs > 1 and self.takes(name, jobs) > left:
                jobs -= 1
            # (a crate that lacks memory waits, and nothing overtakes it; alone it always runs)
            if idle < 1 or (self.takes(name, jobs) > room and (running or begun)):
                break
            begun.append((name, jobs))
            idle, room = idle - (1 if leads[name] else jobs), room - self.takes(name, jobs)
        return begun

    def _beside(self, leader: str, others: Iterable[str], room: float) -> float:
        """The megabytes to leave for the crates that fit beside the leader, each on one processor."""
        taken = self.takes(leader, 1)
        for name in others:
            taken += self.takes(name, 1) if taken + self.takes(name, 1) <= room else 0.0
        return taken - self.takes(leader, 1)

    def left(self, done: Iterable[str], running: Mapping[str, float], pace: float) -> float:
        """How many seconds the rest takes at a pace of so many seconds a line; `running` has the seconds spent on each."""
        ended = set(done)
        now, until = 0.0, {name: max(self.cost[name] * pace - spent, 5.0) for name, spent in running.items()}
        jobs = {name: 1 for name in running}
        while len(ended) < len(self.uses):
            for name, given in self.next(ended, jobs):
                until[name] = now + self.cost[name] * pace / (1 + FURTHER * (given - 1))
                jobs[name] = given
            first = min(until, key=lambda name: until[name])
            now = until.pop(first)
            del jobs[first]
            ended.add(first)
        return now
