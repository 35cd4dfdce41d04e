"""The points of an area at which is asked: its centre, its corners and points spread over it; then some of what nothing found covers."""
from __future__ import annotations

from typing import Any, Iterable, List

from shapely.geometry import Point as Spot

from gateway.positions import UNITS_A_DEGREE, Point
from gateway.shapes import Area, in_degrees
from gateway.spreading import around, corners_of_band, in_rows, is_flat, spiral, steps

# The points at first, those of them that are corners, those of each further burst, and all that are asked for.
MOST_FIRST, MOST_CORNERS, MOST_FURTHER, MOST_POINTS = 20, 4, 10, 40
# What may stay unknown: less than an eighth of the area.
LEAST_LEFT = 0.125
# An outline of more positions is simplified before points are spread, by so much of its extent.
MOST_POSITIONS, SIMPLIFIED = 200, 0.001


def units(north: float, east: float) -> Point:
    """A position in degrees in whole units, on the globe."""
    turned = east - 360 * round(east / 360) if abs(east) > 180 else east
    return max(-900_000_000, min(900_000_000, round(north * UNITS_A_DEGREE))), round(turned * UNITS_A_DEGREE)


def unique(points: Iterable[Point]) -> List[Point]:
    """The points, each once."""
    return list(dict.fromkeys(points))


def rings_in(shape: Any) -> List[Any]:
    """The rings of a shape; those of an outline of many positions are simplified."""
    pieces = [piece for piece in getattr(shape, "geoms", [shape]) if piece.area > 0]
    rings = [ring for piece in pieces for ring in (piece.exterior, *piece.interiors)]
    if sum(len(ring.coords) for ring in rings) > MOST_POSITIONS:
        west, south, east, north = shape.bounds
        rings = [ring.simplify(SIMPLIFIED * max(east - west, north - south)) for ring in rings]
    return [list(ring.coords) for ring in rings]


def spread(shape: Any, count: int, begun: int = 0) -> List[Point]:
    """So many points over a shape, by rows; other ones where some have begun before."""
    rings = rings_in(shape)
    return [units(north, east) for east, north in in_rows(rings, steps(count, begun))] if rings else []


def corners_of(area: Area) -> List[Point]:
    """The corners of an area, or four of them with as many left out between each two."""
    if not area.rings:
        return [units(*corner) for corner in corners_of_band(area)]
    corners = area.rings[0][:-1]
    count = min(len(corners), MOST_CORNERS)
    return [corners[number * len(corners) // count] for number in range(count)]


def first_points(area: Area, shape: Any) -> List[Point]:
    """The points at which is asked first; there is always one in the area."""
    north, east = in_degrees(area.centre)
    points = unique([*([area.centre] if shape.contains(Spot(east, north)) else []), *corners_of(area)])
    count = MOST_FIRST - len(points)
    if not is_flat(area):
        inner = spread(shape, count)
    else:
        inner = [units(*place) for place in around(area, spiral(count) if points == [area.centre] else steps(count))]
    inside = shape.representative_point()
    return unique([*points, *(inner or [units(inside.y, inside.x)])])


def further_points(rest: Any, whole: float, asked: List[Point]) -> List[Point]:
    """More points, in what nothing found covers of an area of this size; none where that is little, or enough were asked for."""
    count = min(MOST_FURTHER, MOST_POINTS - len(asked))
    if count <= 0 or rest.area < LEAST_LEFT * whole:
        return []
    return [point for point in unique(spread(rest, count, len(asked))) if point not in asked]
