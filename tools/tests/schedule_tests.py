"""The order of a build, and what the machine must have."""
from __future__ import annotations

import unittest

from building.faults import Fault
from building.machine import see_memory
from building.progress import Line
from building.schedule import Schedule
from building.sources import crates_below, rows_of, uses_of
from tests.running import TOP

USES = {"low": [], "short": ["low"], "long": ["low"], "above": ["long"], "top": ["short", "above", "other"], "other": []}


def schedule_of(processors: int, memory: int = 100_000, lines: int = 900) -> Schedule:
    """A schedule of crates that have as many lines each."""
    return Schedule(USES, {name: lines for name in USES}, processors, memory)


class Order(unittest.TestCase):
    """Which crate is next."""

    def test_the_longest_chain_is_first(self) -> None:
        schedule = schedule_of(4)
        self.assertEqual(schedule.ready([], []), ["low", "other"])
        self.assertEqual(schedule.ready(["low"], ["other"]), ["long", "short"])
        self.assertEqual(schedule.ready(["low", "short", "long", "above"], ["other"]), [])

    def test_idle_processors_are_shared(self) -> None:
        # the leader, above which the longest chain is, gets all processors and counts as one
        self.assertEqual(schedule_of(1).next([], {}), [("low", 1)])
        self.assertEqual(schedule_of(4).next([], {}), [("low", 4), ("other", 3)])
        self.assertEqual(schedule_of(5).next(["low"], {"other": 2}), [("long", 5), ("short", 2)])
        self.assertEqual(schedule_of(4).next([], {"low": 4, "other": 3}), [])
        self.assertEqual(schedule_of(4).next(["low", "other", "long"], {"short": 1}), [("above", 4)])

    def test_memory_is_shared(self) -> None:
        # low takes 1,200 + 0.8 x 1,000 + 0.1 x 1,000 = 2,100 MB, and each further processor 1,260
        self.assertEqual(schedule_of(8, 1_000, 1_000).next([], {}), [("low", 1)])
        self.assertEqual(schedule_of(8, 3_359, 1_000).next([], {}), [("low", 1)])
        self.assertEqual(schedule_of(8, 3_360, 1_000).next([], {}), [("low", 2)])
        self.assertEqual(schedule_of(2, 4_200, 1_000).next([], {}), [("low", 1), ("other", 1)])
        self.assertEqual(schedule_of(2, 4_199, 1_000).next([], {}), [("low", 2)])
        self.assertEqual(schedule_of(2, 1_000, 1_000).next([], {"low": 1}), [])

    def test_the_rest_takes_as_long_as_its_longest_chain(self) -> None:
        self.assertEqual(schedule_of(1).left([], {}, 0.1), 600)
        # low beside other, long beside short, above and top, each on both processors
        self.assertAlmostEqual(schedule_of(2).left([], {}, 0.1), 4 * 100 / 1.5)
        self.assertEqual(schedule_of(2).left(["low", "other", "short", "long", "above"], {"top": 40.0}, 0.1), 60)
        self.assertEqual(schedule_of(2).left(list(USES), {}, 0.1), 0)

    def test_the_crates_of_the_repository(self) -> None:
        uses = uses_of(rows_of(TOP))
        names = crates_below(uses, "lostd")
        self.assertEqual(names[-1], "lostd")
        for place, name in enumerate(names):
            self.assertLessEqual(set(uses[name]), set(names[:place]), name)


class Machine(unittest.TestCase):
    """What a build must have."""

    def test_memory_for_the_largest_proof(self) -> None:
        see_memory(4_000, 4_000)
        with self.assertRaises(Fault):
            see_memory(3_999, 4_000)


class Progress(unittest.TestCase):
    """What is said meanwhile."""

    def test_the_line(self) -> None:
        line = Line({"low": 10, "top": 30})
        said = "build: 1 of 2 crates, 22 of about 40 functions; about 2 minutes left; now at top 1:01"
        self.assertEqual(line.text(["low"], {"top": 61.9}, {"top": 12}, 130.0), said)
        self.assertEqual(line.text([], {"low": 5.0}, {"low": 0}, 3.0), "build: 0 of 2 crates, 0 of about 40 functions; about 1 minute left; now at low 0:05")
