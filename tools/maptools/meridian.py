"""Rings over the 180th meridian: laid out in one piece, and cut into parts that are in range.

A ring here is a closed list of positions in whole units of 1e-7 degrees, latitude first; its longitudes may lie beyond
the range until it is cut. Whether a point is inside is decided by the even-odd rule alone, so a stretch of a meridian
that a ring runs along twice counts as not there: that is what makes cutting by a meridian exact.
"""
from __future__ import annotations

from fractions import Fraction
from typing import List, Tuple

HALF_TURN, TURN = 1_800_000_000, 3_600_000_000

Position = Tuple[int, int]
Ring = List[Position]


class Unfit(Exception):
    """What keeps a feature from becoming a line, and where in it."""

    def __init__(self, cause: str, *places: str) -> None:
        super().__init__(cause, *places)
        self.cause, self.places = cause, places

    def __str__(self) -> str:
        return f"{', '.join(self.places) or 'it'} {self.cause}"


def longitudes(ring: Ring) -> List[int]:
    """The longitudes of a ring."""
    return [position[1] for position in ring]


def double_area(ring: Ring) -> int:
    """Twice the area, with a sign."""
    return sum(a[1] * b[0] - b[1] * a[0] for a, b in zip(ring, ring[1:]))


def turns_too_far(step: int) -> int:
    """How many whole turns make a step the shortest; a step of half a turn is kept."""
    turns = (abs(step) + HALF_TURN - 1) // TURN
    return turns if step > 0 else -turns


def unwrapped(ring: Ring, with_whole_turns: bool) -> Ring:
    """The ring with each step the short way round; steps of just one turn are kept as drawn where that is asked for."""
    turns, result = 0, [ring[0]]
    for before, position in zip(ring, ring[1:]):
        step = position[1] - before[1]
        if not (with_whole_turns and abs(step) == TURN):
            turns += turns_too_far(step)
        result.append((position[0], position[1] - turns * TURN))
    return result


def is_closed(ring: Ring) -> bool:
    """The last position is the first."""
    return ring[0] == ring[-1]


def laid_out(ring: Ring) -> Ring:
    """The ring in one piece, its longitudes perhaps beyond the range.

    A step of more than 180 degrees goes over the 180th meridian. A step of just 360 degrees may also be drawn across the
    whole map, as at the pole of a map of Antarctica.
    """
    if max(longitudes(ring)) - min(longitudes(ring)) <= HALF_TURN:
        return ring
    short, drawn = unwrapped(ring, False), unwrapped(ring, True)
    is_short = is_closed(short) and double_area(short) != 0
    if is_short and is_closed(drawn) and short != drawn:
        remedy = "give --flat if they run across the map, else write them with one sign"
        raise Unfit(f"has steps of 360 degrees that can be read in two ways: {remedy}")
    if is_short:
        return short
    if is_closed(drawn):
        return drawn
    raise Unfit("goes round a pole: cut it at the 180th meridian, or give --flat")


def crossing(a: Position, b: Position, meridian: int) -> Position:
    """Where an edge meets a meridian, to the nearest unit: the same from both ends, and for both neighbours of an edge."""
    exact = a[0] + Fraction((b[0] - a[0]) * (meridian - a[1]), b[1] - a[1])
    return round(exact), meridian


def half(ring: Ring, meridian: int, side: int) -> Ring:
    """What of a ring lies east (side 1) or west (side -1) of a meridian, closed along it."""
    kept: Ring = []
    for a, b in zip(ring, ring[1:]):
        from_a, from_b = (a[1] - meridian) * side, (b[1] - meridian) * side
        if from_a >= 0:
            kept.append(a)
        if (from_a < 0) != (from_b < 0) and 0 not in (from_a, from_b):
            kept.append(crossing(a, b, meridian))
    return kept + kept[:1]


def without_detours(ring: Ring, meridians: Tuple[int, int]) -> Ring:
    """The ring without positions that only lengthen its way along the meridians at which it was cut."""
    kept: Ring = []
    for position in ring:
        if len(kept) >= 2 and position[1] in meridians and kept[-2][1] == kept[-1][1] == position[1]:
            kept.pop()
        if not kept or kept[-1] != position:
            kept.append(position)
    return kept


def windows(west: int, east: int) -> range:
    """The whole turns by which the parts of a ring between two longitudes lie off the range."""
    return range((west + HALF_TURN) // TURN, -((HALF_TURN - east) // TURN) + 1)


def within(ring: Ring, turns: int) -> Ring:
    """What of a ring lies in the range moved by whole turns, moved back into the range; empty where it is nothing."""
    bounds = turns * TURN - HALF_TURN, turns * TURN + HALF_TURN
    part = without_detours(half(half(ring, bounds[0], 1), bounds[1], -1), bounds)
    return [(latitude, longitude - turns * TURN) for latitude, longitude in part] if len(part) >= 4 else []


def cut(rings: List[Ring]) -> List[List[Ring]]:
    """An outer ring and its holes, laid out, as parts in range; as they are where they are in range."""
    west, east = min(longitudes(rings[0])), max(longitudes(rings[0]))
    if -HALF_TURN <= west and east <= HALF_TURN:
        return [rings]
    if east - west > TURN:
        raise Unfit("is wider than 360 degrees")
    parts = [[part for part in (within(ring, turns) for ring in rings) if part] for turns in windows(west, east)]
    return [part for part in parts if part]
