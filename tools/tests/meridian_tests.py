"""Cutting at the 180th meridian: a point is inside the parts where it is inside the ring that was cut."""
from __future__ import annotations

import random
import unittest
from typing import List, Tuple

from maptools.geojson import keyhole
from maptools.meridian import HALF_TURN, TURN, Ring, crossing, cut, laid_out
from maptools.places import is_inside

# Latitudes that 1, 2, 3 and 4 divide, and longitudes that far from the meridian at most: each crossing is a whole number.
STEP, WIDTH = 12, 2


def odd_ring(dice: random.Random) -> Ring:
    """A closed ring around the meridian, which may cross itself and run along it."""
    count = dice.randrange(3, 10)
    ring = [(STEP * dice.randrange(6), HALF_TURN + dice.randint(-WIDTH, WIDTH)) for _ in range(count)]
    return [*ring, ring[0]]


def is_in(ring: Ring, point: Tuple[int, int]) -> bool:
    """Whether a point is inside one ring."""
    return is_inside(zip(ring, ring[1:]), point)


class Cutting(unittest.TestCase):
    """Rings whose crossings are whole numbers, so that nothing is rounded."""

    def check(self, rings: List[Ring]) -> None:
        parts = [keyhole(part) for part in cut(rings)]
        for part in parts:
            self.assertTrue(all(abs(longitude) <= HALF_TURN for _, longitude in part))
        for latitude in range(-1, 6 * STEP):
            for offset in range(-WIDTH - 1, WIDTH + 2):
                whole = sum(is_in(ring, (latitude, HALF_TURN + offset)) for ring in rings) % 2 == 1
                asked = latitude, HALF_TURN + offset - (TURN if offset >= 0 else 0)
                self.assertEqual(sum(is_in(part, asked) for part in parts), whole, (rings, asked))

    def test_points_of_odd_rings(self) -> None:
        dice = random.Random(1)
        for _ in range(100):
            self.check([odd_ring(dice)])

    def test_points_of_odd_rings_with_a_hole(self) -> None:
        dice = random.Random(2)
        for _ in range(100):
            corners = [(0, HALF_TURN - WIDTH), (5 * STEP, HALF_TURN + WIDTH)]
            self.check([[*corners, *odd_ring(dice), corners[0]], odd_ring(dice)])

    def test_a_ring_is_laid_out_as_one_that_was_wrapped(self) -> None:
        dice = random.Random(3)
        for _ in range(100):
            ring = odd_ring(dice)
            wrapped = [(latitude, longitude - TURN * (longitude > HALF_TURN)) for latitude, longitude in ring]
            laid = laid_out(wrapped)
            moved = {b[1] - a[1] for a, b in zip(ring, laid)}
            self.assertIn(moved, [{0}, {-TURN}])

    def test_a_crossing_is_the_same_from_both_ends_and_one_turn_away(self) -> None:
        dice = random.Random(4)
        for _ in range(1000):
            a = dice.randrange(-900_000_000, 900_000_000), HALF_TURN - dice.randrange(1, 10**8)
            b = dice.randrange(-900_000_000, 900_000_000), HALF_TURN + dice.randrange(1, 10**8)
            there = crossing(a, b, HALF_TURN)
            self.assertEqual(there, crossing(b, a, HALF_TURN))
            west_a, west_b = (a[0], a[1] - TURN), (b[0], b[1] - TURN)
            self.assertEqual(there[0], crossing(west_a, west_b, -HALF_TURN)[0])
