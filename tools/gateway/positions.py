"""Positions and shapes of GML: a point in whole units of 1e-7 degrees, and the centre of an area."""
from __future__ import annotations

import math
import re
import xml.etree.ElementTree as ElementTree
from decimal import Decimal
from fractions import Fraction
from typing import Callable, Dict, List, Optional, Tuple

from gateway.systems import is_longitude_first, system_named
from gateway.vocabulary import DEGREE, GML, LATER_GML, METRE, SHAPES, local, named
from gateway.wording import listed, shown
from maptools.units import rounded_units

Point = Tuple[int, int]

# A number of degrees: no exponent, no NaN, at most 3 digits before the point and 30 after it.
A_NUMBER = rb"[+-]?(?:[0-9]{1,3}(?:\.[0-9]{0,30})?|\.[0-9]{1,30})"
NUMBER = re.compile(A_NUMBER)
POSITION = re.compile(rb"[ \t\r\n]*(%b)[ \t\r\n]+(%b)[ \t\r\n]*" % (A_NUMBER, A_NUMBER))
LENGTH = re.compile(rb"[0-9]{1,9}(?:\.[0-9]{0,30})?")
WHITE_SPACE = " \t\r\n"
SPACE = re.compile(r"[ \t\r\n]+")
POS, POS_LIST = named(GML, "pos"), named(GML, "posList")
EXTERIOR, INTERIOR, RING = named(GML, "exterior"), named(GML, "interior"), named(GML, "LinearRing")
IN_LATER_GML = named(LATER_GML, "")
DIGITS = 7
EARTH_RADIUS = 6_371_008.8
UNITS_A_DEGREE = 10_000_000


class Unreadable(Exception):
    """Why a shape is no readable location: the element, what was found in it, and what is allowed."""


def text_in(element: ElementTree.Element) -> bytes:
    """The text of an element that has no elements in it. (Bytes are split at the spaces of ASCII alone.)"""
    if len(element):
        raise Unreadable(f"{local(element.tag)} has the element {local(element[0].tag)} in it; only text is allowed there")
    return (element.text or "").encode()


def only(parent: ElementTree.Element, tag: str) -> ElementTree.Element:
    """The one element of a name in another."""
    found = parent.find(tag)
    if found is None:
        raise Unreadable(f"{local(parent.tag)} has no element {local(tag)}")
    return found


def units_of(number: bytes) -> int:
    """A number of degrees in whole units: what lies between goes to the nearest, a half to the even one."""
    whole, _, fraction = number.partition(b".")
    if len(fraction) <= DIGITS:
        return int(whole + fraction.ljust(DIGITS, b"0"))
    return rounded_units(Decimal(number.decode()))


def numbers_of(element: ElementTree.Element) -> List[int]:
    """The numbers of degrees in an element, in whole units."""
    words = text_in(element).split()
    for word in words:
        if not NUMBER.fullmatch(word):
            raise Unreadable(f"{local(element.tag)} has {shown(word.decode())}, which is no number of degrees, such as -73.988")
    return [units_of(word) for word in words]


def position_of(element: ElementTree.Element) -> Point:
    """The latitude and the longitude of a gml:pos: just two numbers."""
    found = POSITION.fullmatch(text_in(element))
    if not found:
        text = shown(element.text or "")
        raise Unreadable(f"{local(element.tag)} is {text}; it must be two numbers of degrees without exponents, such as 40.861 -73.988")
    return units_of(found[1]), units_of(found[2])


def place_of(shape: ElementTree.Element) -> Point:
    """The gml:pos of a point, a circle or an ellipse."""
    return position_of(only(shape, POS))


def measure_of(shape: ElementTree.Element, name: str, unit: str) -> float:
    """A length or an angle of a shape; metres and degrees alone are read."""
    element = only(shape, named(SHAPES, name))
    words = text_in(element).split()
    if element.get("uom") != unit:
        raise Unreadable(f"{name} has the uom {shown(element.get('uom') or '')}; it must be {unit}")
    if len(words) != 1 or not LENGTH.fullmatch(words[0]):
        raise Unreadable(f"{name} is {shown(element.text or '')}; it must be one number, at least 0 and without an exponent")
    return float(words[0])


def middle_of_band(shape: ElementTree.Element) -> Point:
    """The point half way between the radii and the angles of an arc band; its centre where the band is all around."""
    latitude, longitude = place_of(shape)
    inner, outer = (measure_of(shape, name, METRE) for name in ("innerRadius", "outerRadius"))
    start, opening = (measure_of(shape, name, DEGREE) for name in ("startAngle", "openingAngle"))
    if opening >= 360:
        return latitude, longitude
    return beyond((latitude, longitude), (inner + outer) / 2, math.radians(start + opening / 2))


def beyond(point: Point, metres: float, bearing: float) -> Point:
    """The point so many metres away in a direction, clockwise from north, on a sphere."""
    latitude, longitude = (math.radians(unit / UNITS_A_DEGREE) for unit in point)
    arc = metres / EARTH_RADIUS
    sine = math.sin(latitude) * math.cos(arc) + math.cos(latitude) * math.sin(arc) * math.cos(bearing)
    other = math.asin(max(-1.0, min(1.0, sine)))
    east = math.atan2(math.sin(bearing) * math.sin(arc) * math.cos(latitude), math.cos(arc) - math.sin(latitude) * sine)
    turned = (math.degrees(longitude + east) + 180) % 360 - 180
    return round(math.degrees(other) * UNITS_A_DEGREE), round(turned * UNITS_A_DEGREE)


def ring_in(parent: ElementTree.Element) -> List[Point]:
    """The positions of the ring of an exterior or an interior: at least four, the last equal to the first."""
    ring = only(parent, RING)
    listed_there = ring.find(POS_LIST)
    if listed_there is not None:
        numbers = numbers_of(listed_there)
        if len(numbers) % 2:
            raise Unreadable(f"posList has {len(numbers)} numbers; it must be pairs of latitude and longitude")
        points = list(zip(numbers[::2], numbers[1::2]))
    else:
        points = [position_of(element) for element in ring.findall(POS)]
    if len(points) < 4:
        raise Unreadable(f"a LinearRing has {len(points)} positions; it must have at least 4")
    if points[0] != points[-1]:
        raise Unreadable("the last position of a LinearRing is not its first; a ring must be closed")
    return points


def ring_of(shape: ElementTree.Element) -> List[Point]:
    """The positions of the exterior of a polygon."""
    return ring_in(only(shape, EXTERIOR))


def middle_of_polygon(shape: ElementTree.Element) -> Point:
    """The centre of gravity of a polygon in the flat plane; that of its corners where it has no area."""
    points = ring_of(shape)
    first = points[0]
    sides = [(a - first[0], b - first[1], c - first[0], d - first[1]) for (a, b), (c, d) in zip(points, points[1:])]
    doubled = sum(a * d - c * b for a, b, c, d in sides)
    if doubled == 0:
        count = len(sides)
        return round(Fraction(sum(a for a, _ in points[1:]), count)), round(Fraction(sum(b for _, b in points[1:]), count))
    north = Fraction(sum((a + c) * (a * d - c * b) for a, b, c, d in sides), 3 * doubled)
    east = Fraction(sum((b + d) * (a * d - c * b) for a, b, c, d in sides), 3 * doubled)
    return round(first[0] + north), round(first[1] + east)


POINT = named(GML, "Point")
# How the centre of each shape of an area is found.
CENTRES: Dict[str, Callable[[ElementTree.Element], Point]] = {
    named(SHAPES, "Circle"): place_of,
    named(SHAPES, "Ellipse"): place_of,
    named(SHAPES, "ArcBand"): middle_of_band,
    named(GML, "Polygon"): middle_of_polygon,
}


def shape_of(location: ElementTree.Element) -> ElementTree.Element:
    """The one shape of a location; what is of the later edition of GML is renamed to the names of the earlier one."""
    for child in location:
        if child.tag.startswith(IN_LATER_GML) or child.tag in CENTRES:
            rename_later(child)
    shapes = [child for child in location if child.tag == POINT or child.tag in CENTRES]
    if len(shapes) != 1:
        found = listed(local(child.tag) for child in location) if len(location) else "no element"
        raise Unreadable(f"it has {found}; it must have just one Point, {listed(map(local, CENTRES), 'or')}")
    return shapes[0]


def rename_later(shape: ElementTree.Element) -> None:
    """Gives the elements of GML 3.2 the names of GML 3.1.1."""
    for element in shape.iter():
        if element.tag.startswith(IN_LATER_GML):
            element.tag = named(GML, local(element.tag))


def system_of(shape: ElementTree.Element) -> Optional[str]:
    """The reference system that a shape or an element in it names: as RFC 5222 spells it, where it is the one known.

    Where the longitude comes first in it, the positions of the shape are turned.
    """
    spellings = {element.get("srsName", "").strip(WHITE_SPACE) for element in shape.iter() if "srsName" in element.keys()}
    if not spellings:
        return None
    if len({(system_named(spelling), is_longitude_first(spelling)) for spelling in spellings}) > 1:
        raise Unreadable(f"it names the reference systems {listed(map(shown, sorted(spellings)))}; it must name one")
    spelling = min(spellings)
    if is_longitude_first(spelling):
        turn(shape)
    return system_named(spelling)


def turn(shape: ElementTree.Element) -> None:
    """Puts the latitude first in each position of a shape; what is no pair stays, and is not readable."""
    for element in shape.iter():
        words = (element.text or "").encode().split() if element.tag in (POS, POS_LIST) else []
        if words and len(words) % 2 == 0:
            turned = [word.decode() for pair in zip(words[1::2], words[::2]) for word in pair]
            element.text = " ".join(turned)
