"""Areas as locations: circles, ellipses, arc bands and polygons, read from GML and drawn as rings of positions in degrees."""
from __future__ import annotations

import math
import xml.etree.ElementTree as ElementTree
from typing import Callable, Dict, List, NamedTuple, Tuple

from gateway.geodesy import Position, arc_around, around_pole, ellipse_around
from gateway.positions import CENTRES, EXTERIOR, INTERIOR, UNITS_A_DEGREE, Point, Unreadable, measure_of, place_of, ring_in
from gateway.vocabulary import DEGREE, GML, METRE, SHAPES, local, named

Rings = List[List[Position]]

# A larger area is asked for by its centre.
LARGEST_RADIUS = 1_000_000.0
# One that is smaller in any direction, in metres or radians, is so too.
LEAST_SIZE = 0.02


class Round(NamedTuple):
    """A circle, an ellipse or an arc band: radii in metres, bearings in radians clockwise from north."""

    outer: float
    inner: float = 0.0
    minor: float = 0.0
    start: float = 0.0
    opening: float = 2 * math.pi


class Area(NamedTuple):
    """The name of a shape, its centre in whole units, and either radii and bearings around a point or rings in whole units."""

    name: str
    centre: Point
    around: Point
    round: Round
    rings: Tuple[Tuple[Point, ...], ...] = ()

    def can_be_drawn(self) -> bool:
        """Whether it is more than a point or a line, not too large, and around a point of the globe."""
        if self.rings:
            return doubled_area(self.rings[0]) != 0
        shape, (north, east) = self.round, self.around
        is_flat = min(shape.outer, shape.minor, shape.opening, shape.outer - shape.inner) < LEAST_SIZE
        return not is_flat and shape.outer <= LARGEST_RADIUS and abs(north) <= 90 * UNITS_A_DEGREE and abs(east) <= 180 * UNITS_A_DEGREE


def metres(shape: ElementTree.Element, name: str) -> float:
    """A length of a shape."""
    return measure_of(shape, name, METRE)


def radians(shape: ElementTree.Element, name: str) -> float:
    """An angle of a shape."""
    return math.radians(measure_of(shape, name, DEGREE))


def circle_of(shape: ElementTree.Element) -> Round:
    """A circle."""
    radius = metres(shape, "radius")
    return Round(radius, minor=radius)


def ellipse_of(shape: ElementTree.Element) -> Round:
    """An ellipse."""
    axes = [metres(shape, name) for name in ("semiMajorAxis", "semiMinorAxis")]
    if axes[1] > axes[0]:
        raise Unreadable(f"semiMinorAxis is {axes[1]:g}, and semiMajorAxis is {axes[0]:g}; it must be at least as long")
    return Round(axes[0], minor=axes[1], start=radians(shape, "orientation"))


def arc_band_of(shape: ElementTree.Element) -> Round:
    """An arc band."""
    inner, outer = metres(shape, "innerRadius"), metres(shape, "outerRadius")
    if inner > outer:
        raise Unreadable(f"innerRadius is {inner:g}, and outerRadius is {outer:g}; it must be at least as long")
    start, opening = radians(shape, "startAngle"), radians(shape, "openingAngle")
    return Round(outer, inner, outer, start, min(opening, 2 * math.pi))


ROUNDS: Dict[str, Callable[[ElementTree.Element], Round]] = {
    named(SHAPES, "Circle"): circle_of,
    named(SHAPES, "Ellipse"): ellipse_of,
    named(SHAPES, "ArcBand"): arc_band_of,
}
POLYGON = named(GML, "Polygon")


def doubled_area(ring: Tuple[Point, ...]) -> int:
    """Twice the area of a ring in the flat plane."""
    north, east = ring[0]
    return sum((a - north) * (d - east) - (c - north) * (b - east) for (a, b), (c, d) in zip(ring, ring[1:]))


def on_the_globe(ring: List[Point]) -> Tuple[Point, ...]:
    """A ring whose corners are on the globe; Unreadable where one is not."""
    for north, east in ring:
        if abs(north) > 90 * UNITS_A_DEGREE or abs(east) > 180 * UNITS_A_DEGREE:
            corner = f"{north / UNITS_A_DEGREE:.9g} {east / UNITS_A_DEGREE:.10g}"
            raise Unreadable(f"a LinearRing has the position {corner}; it must be from -90 to 90 and from -180 to 180")
    return tuple(ring)


def area_of(shape: ElementTree.Element) -> Area:
    """The area of a shape; Unreadable where it is none."""
    centre = CENTRES[shape.tag](shape)
    if shape.tag == POLYGON:
        rings = [on_the_globe(ring_in(part)) for tag in (EXTERIOR, INTERIOR) for part in shape.findall(tag)]
        return Area(local(shape.tag), centre, centre, Round(0.0), tuple(rings))
    return Area(local(shape.tag), centre, place_of(shape), ROUNDS[shape.tag](shape))


def in_degrees(point: Point) -> Position:
    """A position in degrees."""
    return point[0] / UNITS_A_DEGREE, point[1] / UNITS_A_DEGREE


def rings_of(area: Area) -> Rings:
    """The outline of an area, and then its holes."""
    if area.rings:
        return [[in_degrees(point) for point in ring] for ring in area.rings]
    centre, shape = in_degrees(area.around), area.round
    if area.name == "Ellipse":
        rings = [ellipse_around(centre, shape.outer, shape.minor, shape.start)]
    else:
        whole = shape.opening >= 2 * math.pi
        outer = arc_around(centre, shape.outer, shape.start, shape.opening)
        inner = arc_around(centre, shape.inner, shape.start, shape.opening)
        rings = [outer, inner] if whole and shape.inner > 0 else [outer] if whole else [[*outer, *inner[::-1], outer[0]]]
    return [around_pole(ring, centre[0]) for ring in rings]
