"""Tests how places are spread over areas: which parts of a circle always have one, and that each part has its share."""
from __future__ import annotations

import math
import unittest
from typing import List, Tuple

from gateway.shapes import Area, Round
from gateway.spreading import around, corners_of_band, in_rows, is_flat, spiral, steps

Spot = Tuple[float, float]
# A metre in degrees, near the equator.
METRE = 180 / math.pi / 6_378_137


def disk() -> List[Spot]:
    """The middle of a disk, and the 19 other places of which is asked in a circle."""
    return [(0.0, 0.0), *((math.sqrt(far) * math.cos(2 * math.pi * part), math.sqrt(far) * math.sin(2 * math.pi * part)) for far, part in spiral(19))]


def area(name: str, shape: Round) -> Area:
    """An area around 0 0."""
    return Area(name, (0, 0), (0, 0), shape)


def beyond(far: float) -> float:
    """The share of a disk of radius 1 that lies beyond a straight line so far from its middle."""
    return (math.acos(far) - far * math.sqrt(1 - far**2)) / math.pi


class InCircles(unittest.TestCase):
    """Where 20 places are in a circle of radius 1; an ellipse is one that is drawn out, and so are its places."""

    def test_no_circle_in_it_as_large_as_one_in_a_square_of_an_eighth_is_without_a_place(self) -> None:
        # The square has the side of the root of an eighth of pi. Between places of a grid the distance to the nearest place
        # changes by no more than the way, so what holds at those of the grid with this much less holds everywhere.
        radius, step = math.sqrt(math.pi / 32), 0.006
        near, places, count = radius - step * math.sqrt(0.5), disk(), math.ceil(1 / step)
        for row in range(-count, count + 1):
            for column in range(-count, count + 1):
                x, y = column * step, row * step
                if math.hypot(x, y) <= 1 - near:
                    self.assertTrue(any(math.hypot(x - a, y - b) < near for a, b in places), (x, y))

    def test_no_twelfth_beyond_a_line_and_no_strip_of_21_hundredths_is_without_a_place(self) -> None:
        # Between these directions how far a place lies in one of them changes by no more than the part of a turn.
        places, count = disk(), 3600
        slack = math.pi / count
        for number in range(count):
            turn = 2 * math.pi * number / count
            far = sorted(x * math.cos(turn) + y * math.sin(turn) for x, y in places)
            self.assertLess(beyond(far[-1] - slack), 1 / 12, turn)
            for low, high in zip(far, far[1:]):
                self.assertLess(beyond(low - slack) - beyond(high + slack), 0.21, turn)


class Shares(unittest.TestCase):
    """Each part of a shape has its share of many places."""

    def test_bands_and_ellipses(self) -> None:
        band = area("ArcBand", Round(2000, 1000, 2000, 0.0, math.pi / 2))
        places = around(band, steps(400))
        self.assertTrue(all(north > 0 and east > 0 for north, east in places))
        self.assertAlmostEqual(sum(math.hypot(*place) < 1500 * METRE for place in places) / 400, 1.25 / 3, delta=0.02)
        self.assertAlmostEqual(sum(north < east for north, east in places) / 400, 0.5, delta=0.02)
        # Its long axis goes to the east.
        found = around(area("Ellipse", Round(2000, 0, 1000, math.pi / 2)), spiral(400))
        self.assertAlmostEqual(sum(north > 0 for north, _ in found) / 400, 0.5, delta=0.02)
        self.assertAlmostEqual(sum(math.hypot(2 * north, east) < 1000 * METRE for north, east in found) / 400, 0.25, delta=0.02)
        self.assertAlmostEqual(max(abs(north) for north, _ in found) / METRE, 1000, delta=30)

    def test_an_angle_with_a_hole(self) -> None:
        angle = [(0, 0), (4, 0), (4, 1), (1, 1), (1, 4), (0, 4), (0, 0)]
        hole = [(0.25, 0.25), (0.75, 0.25), (0.75, 0.75), (0.25, 0.75), (0.25, 0.25)]
        places = in_rows([angle, hole], steps(400))
        for x, y in places:
            self.assertTrue(0 < x < 4 and 0 < y < 4 and min(x, y) < 1, (x, y))
            self.assertFalse(0.25 < x < 0.75 and 0.25 < y < 0.75, (x, y))
        self.assertAlmostEqual(sum(x > 1 for x, _ in places) / 400, 3 / 6.75, delta=0.03)
        self.assertAlmostEqual(sum(y > 1 for _, y in places) / 400, 3 / 6.75, delta=0.03)

    def test_two_pieces_and_none(self) -> None:
        left, right = ([(x, 0), (x + 1, 0), (x + 1, 3), (x, 3), (x, 0)] for x in (0, 7))
        places = in_rows([left, right], steps(20))
        self.assertEqual(len(places), 20)
        self.assertAlmostEqual(sum(x < 1 for x, _ in places), 10, delta=1)
        self.assertEqual(in_rows([[(0, 0), (1, 0), (0, 0)]], steps(20)), [])

    def test_others_where_some_have_begun_before(self) -> None:
        self.assertEqual(len({*steps(10), *steps(10, 20), *steps(10, 30)}), 30)

    def test_corners_and_what_is_taken_for_flat(self) -> None:
        corners = corners_of_band(area("ArcBand", Round(2000, 1000, 2000, 0.0, math.pi / 2)))
        rounded = [(round(north / METRE, -2), round(east / METRE, -2)) for north, east in corners]
        self.assertEqual(rounded, [(1000, 0), (0, 1000), (2000, 0), (0, 2000)])
        self.assertEqual(corners_of_band(area("Circle", Round(2000, minor=2000))), [])
        circle = area("Circle", Round(2000, minor=2000))
        self.assertTrue(is_flat(circle))
        self.assertFalse(is_flat(circle._replace(around=(810_000_000, 0))))
        self.assertFalse(is_flat(circle._replace(round=Round(200_000, minor=200_000))))
        self.assertFalse(is_flat(circle._replace(rings=(((0, 0), (0, 1), (1, 1), (0, 0)),))))
