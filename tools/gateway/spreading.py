"""Places spread evenly over a shape: each part of it has about its share of them, whether it is round or long.

Of some places in a square, the k-th lies k steps up, and k times the golden ratio across, whole turns left out. Two maps that
keep shares bring them into a shape: one by distance and direction around a centre, the other by rows through the shape.
"""
from __future__ import annotations

import math
from typing import List, NamedTuple, Sequence, Tuple

from gateway.geodesy import Position, Start, beyond, polar, start_at
from gateway.shapes import Area, in_degrees

GOLDEN = (math.sqrt(5) - 1) / 2
ROWS = 64
# A shape around a centre is taken for flat up to so many metres from it, and up to so many degrees from the equator.
FLAT_REACH, FLAT_LATITUDE = 100_000.0, 80.0
Spot = Tuple[float, float]
Ring = Sequence[Spot]


def steps(count: int, begun: int = 0) -> List[Spot]:
    """So many places of the square from 0 to 1: how far up, and how far across; other ones where some have begun before."""
    return [((number + 0.5) / count, (begun + number + 0.5) * GOLDEN % 1) for number in range(count)]


def spiral(count: int) -> List[Spot]:
    """So many places of the disk around a place in its middle: by their share of the area within, and by part of a turn."""
    return [(number / (count + 0.5), number * GOLDEN % 1) for number in range(1, count + 1)]


def is_flat(area: Area) -> bool:
    """Whether an area lies around a centre, and by distance and direction shares are kept."""
    return not area.rings and area.round.outer <= FLAT_REACH and abs(in_degrees(area.around)[0]) <= FLAT_LATITUDE


def around(area: Area, spots: List[Spot]) -> List[Position]:
    """The places of an area around a centre, by the share of it that lies further in, and by the part of its angle."""
    start = start_at(in_degrees(area.around))
    return [on_ellipse(start, area, *spot) if area.name == "Ellipse" else in_band(start, area, *spot) for spot in spots]


def on_ellipse(start: Start, area: Area, within: float, part: float) -> Position:
    """A place of an ellipse."""
    far, shape = math.sqrt(within), area.round
    return beyond(start, *polar(far * shape.outer, far * shape.minor, shape.start, 2 * math.pi * part))


def in_band(start: Start, area: Area, within: float, part: float) -> Position:
    """A place of a circle or an arc band."""
    shape = area.round
    squared = shape.inner**2 + within * (shape.outer**2 - shape.inner**2)
    return beyond(start, math.sqrt(squared), shape.start + shape.opening * part)


def corners_of_band(area: Area) -> List[Position]:
    """The corners of an arc band that is not all around; no circle or ellipse has any."""
    shape, start = area.round, start_at(in_degrees(area.around))
    if shape.opening >= 2 * math.pi:
        return []
    return [beyond(start, far, shape.start + turn) for far in (shape.inner, shape.outer) for turn in (0.0, shape.opening)]


class Row(NamedTuple):
    """A line through a shape from west to east: how far up, where it goes in and out of it, and how much of it is inside."""

    up: float
    crossings: List[float]
    inside: float


def rows_of(rings: Sequence[Ring]) -> List[Row]:
    """The rows through the rings of a shape, at equal distances; inside is what the even-odd rule says."""
    ups = [up for ring in rings for _, up in ring]
    south, height = min(ups), (max(ups) - min(ups)) / ROWS
    crossings: List[List[float]] = [[] for _ in range(ROWS)]
    for ring in rings:
        for low, high in zip(ring, ring[1:]):
            if low[1] > high[1]:
                low, high = high, low
            first, last = (max(0, math.ceil((up - south) / height - 0.5)) if height else 0 for up in (low[1], high[1]))
            for number in range(first, min(last, ROWS)):
                up = south + (number + 0.5) * height
                crossings[number].append(low[0] + (high[0] - low[0]) * (up - low[1]) / (high[1] - low[1]))
    return [row_of(south + (number + 0.5) * height, sorted(found)) for number, found in enumerate(crossings)]


def row_of(up: float, crossings: List[float]) -> Row:
    """A row."""
    return Row(up, crossings, sum(out - into for into, out in zip(crossings[::2], crossings[1::2])))


def along(row: Row, left: float) -> Spot:
    """The place of a row that has so much of its inside to the west."""
    for into, out in zip(row.crossings[::2], row.crossings[1::2]):
        if left <= out - into:
            return into + left, row.up
        left -= out - into
    return row.crossings[-1], row.up


def in_rows(rings: Sequence[Ring], spots: List[Spot]) -> List[Spot]:
    """The places of a shape, by the share of it that lies below, and by the part of the row that lies to the west."""
    rows = [row for row in rows_of(rings) if row.inside > 0]
    whole, found = sum(row.inside for row in rows), []
    for below, part in sorted(spots):
        wanted = below * whole
        for row in rows:
            wanted -= row.inside
            if wanted < 0:
                found.append(along(row, part * row.inside))
                break
    return found
