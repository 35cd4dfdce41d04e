"""Which whole points an area holds, by the server's own rule of edges, and such a point in a place of odd shape.

The rule is that of maptools.places: lower and left edges belong to a ring, upper and right ones do not.
"""
from __future__ import annotations

import math
from itertools import islice
from typing import Any, Callable, Iterator, Optional, Tuple

import numpy

from maptools.places import normal
from maptools.texts import Point

# How far a crossing of a slanted edge may be off in floating point, in units; each candidate is judged exactly.
SLACK = 1e-6
ROWS, MOST_ROWS, MOST_CANDIDATES = 4096, 4_000_000, 5000


def holds(ring: Any, point: Point) -> bool:
    """Whether a closed ring of whole units holds a point, exactly."""
    latitude, longitude = normal(point)
    y, x = ring[:, 0], ring[:, 1]
    spanning = numpy.flatnonzero((y[:-1] <= latitude) != (y[1:] <= latitude))
    if not len(spanning):
        return False
    ends = ring.astype(numpy.int64)
    y, x = ends[:, 0], ends[:, 1]
    is_up = y[spanning] <= latitude
    low, high = numpy.where(is_up, spanning, spanning + 1), numpy.where(is_up, spanning + 1, spanning)
    counts = (longitude - x[low]) * (y[high] - y[low]) >= (x[high] - x[low]) * (latitude - y[low])
    return bool(numpy.count_nonzero(counts) % 2)


def edges_of(area: Any) -> Tuple[Any, Any]:
    """The ends of all edges of an area, as x and y."""
    polygons = [part for part in getattr(area, "geoms", [area]) if part.geom_type == "Polygon"]
    rings = [numpy.array(ring.coords) for polygon in polygons for ring in (polygon.exterior, *polygon.interiors)]
    return numpy.concatenate([ring[:-1] for ring in rings]), numpy.concatenate([ring[1:] for ring in rings])


def row_chunks(south: int, north: int) -> Iterator[Any]:
    """The rows from south to north, those in the middle first."""
    if north - south > MOST_ROWS:
        south, north = (south + north - MOST_ROWS) // 2, (south + north + MOST_ROWS) // 2
    starts = sorted(range(south, north + 1, ROWS), key=lambda start: abs(start + ROWS // 2 - (south + north) // 2))
    for start in starts:
        yield numpy.arange(start, min(start + ROWS, north + 1))


def stretches(area: Any) -> Iterator[Tuple[Any, Any, Any, Any]]:
    """Where rows run in an area, some rows at once: the row, where the stretch begins and ends, how far off each may be."""
    start, end = edges_of(area)
    is_up = (start[:, 1] <= end[:, 1])[:, None]
    low, high = numpy.where(is_up, start, end), numpy.where(is_up, end, start)
    off = numpy.where(low[:, 0] == high[:, 0], 0.0, SLACK)
    for rows in row_chunks(math.ceil(area.bounds[1]), math.floor(area.bounds[3])):
        near = numpy.flatnonzero((low[:, 1] <= rows[-1]) & (high[:, 1] > rows[0]))
        which, row = numpy.nonzero((low[near, 1][:, None] <= rows) & (rows < high[near, 1][:, None]))
        edge = near[which]
        part = (rows[row] - low[edge, 1]) / (high[edge, 1] - low[edge, 1])
        x = low[edge, 0] + part * (high[edge, 0] - low[edge, 0])
        order = numpy.lexsort((x, row))
        begins, ends = order[::2], order[1::2]
        yield rows[row[begins]], x[begins], x[ends], numpy.maximum(off[edge[begins]], off[edge[ends]])


def candidates(area: Any) -> Iterator[Point]:
    """Whole points that are in an area or within the slack on its edge, those in the broadest stretches first."""
    for rows, begin, end, off in stretches(area):
        first, last = numpy.ceil(begin - off), numpy.ceil(end + off) - 1
        places = numpy.flatnonzero(first <= last)
        for place in places[numpy.argsort(begin[places] - end[places], kind="stable")]:
            row, west, east = int(rows[place]), int(first[place]), int(last[place])
            for longitude in dict.fromkeys(((west + east) // 2, west, east)):
                yield row, longitude


def whole_point(area: Any, is_wanted: Callable[[Point], bool]) -> Optional[Point]:
    """A whole point of an area that is as wanted; None where there is none."""
    x, y = area.representative_point().coords[0]
    for point in ((round(y), round(x)), (math.floor(y), math.floor(x)), (math.ceil(y), math.ceil(x))):
        if is_wanted(point):
            return point
    return next(filter(is_wanted, islice(candidates(area), MOST_CANDIDATES)), None)
