"""Compares maptools.checking.rule and edges with plain walks over small random rings; a program for Debian's Python."""
from __future__ import annotations

import os
import random
import sys
from typing import List, Tuple

sys.path.insert(0, os.path.dirname(os.path.dirname(os.path.realpath(__file__))))

import numpy

from maptools.checking.areas import polygons_in, simple_area, untangled
from maptools.checking.edges import courses_of, leftover
from maptools.checking.loops import loops_of, turns_of
from maptools.checking.rule import holds, whole_point
from maptools.places import is_inside

ROUNDS = 400
SIZE = 9
WALK = range(-1, SIZE + 1)


def random_ring(dice: random.Random) -> List[Tuple[int, int]]:
    """A closed ring that may cross, touch or repeat itself."""
    ring = [(dice.randrange(SIZE), dice.randrange(SIZE)) for _ in range(dice.randrange(3, 9))]
    return ring + ring[:1]


def held_by(ring: List[Tuple[int, int]]) -> List[Tuple[int, int]]:
    """The whole points that a ring holds, by a walk over all."""
    edges = list(zip(ring, ring[1:]))
    return [(row, column) for row in WALK for column in WALK if is_inside(edges, (row, column))]


def compare_rings(dice: random.Random) -> None:
    """That a ring holds what it should, and that a whole point is found exactly where there is one."""
    ring = random_ring(dice)
    array, held = numpy.array(ring, dtype=numpy.int32), held_by(ring)
    assert [(row, column) for row in WALK for column in WALK if holds(array, (row, column))] == held, ring
    loops, _ = loops_of([array])
    open_ring = loops.split(loops.at)[0]
    area = simple_area(open_ring) or untangled(open_ring).area
    found = [whole_point(part, lambda point: holds(array, point)) for part in polygons_in(area)]
    assert all(point is None or point in held for point in found), ring
    assert bool(held) == any(point is not None for point in found), (ring, held)


def compare_edges(dice: random.Random) -> None:
    """That of the edges of squares side by side those around them are left, whatever else is on their sides."""
    squares = []
    for west in range(3):
        corners = [(0, west * 100), (0, west * 100 + 100), (100, west * 100 + 100), (100, west * 100)]
        sides = [(one, sorted_between(one, other, dice)) for one, other in zip(corners, corners[1:] + corners[:1])]
        ring = [position for corner, between in sides for position in (corner, *between)]
        turn = dice.randrange(len(ring))
        ring = ring[turn:] + ring[: turn + 1]
        squares.append(numpy.array(ring if dice.random() < 0.5 else ring[::-1], dtype=numpy.int32))
    loops, _ = loops_of(squares)
    start, end = leftover(list(courses_of(loops, turns_of(loops).is_straight)))
    left = {tuple(sorted((tuple(one), tuple(other)))) for one, other in zip(start.tolist(), end.tolist())}
    level = {((row, west), (row, west + 100)) for row in (0, 100) for west in (0, 100, 200)}
    assert left == level | {((0, 0), (100, 0)), ((0, 300), (100, 300))}, squares


def sorted_between(one: Tuple[int, int], other: Tuple[int, int], dice: random.Random) -> List[Tuple[int, int]]:
    """Some positions between two corners, on the way from one to the other."""
    shares = sorted(dice.sample(range(1, 100), dice.randrange(4)))
    return [tuple(a + (b - a) * share // 100 for a, b in zip(one, other)) for share in shares]


def main() -> None:
    """Compares them."""
    dice = random.Random(1)
    for _ in range(ROUNDS):
        compare_rings(dice)
        compare_edges(dice)


if __name__ == "__main__":
    main()
