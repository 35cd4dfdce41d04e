"""Points at a distance on the ellipsoid of WGS 84, and outlines of shapes drawn through such points.

The direct formula of Vincenty is exact to a millimetre. A chord of an arc leaves it by less than 9 mm, so an outline is
within 1 cm of what the shape says.
"""
from __future__ import annotations

import math
from typing import Iterable, List, NamedTuple, Tuple

Position = Tuple[float, float]

AXIS, FLATTENING = 6_378_137.0, 1 / 298.257223563
OTHER_AXIS = AXIS * (1 - FLATTENING)
CHORD_ERROR, FEWEST_CHORDS = 0.009, 16


class Start(NamedTuple):
    """A point in degrees, and what Vincenty's formula needs of its latitude."""

    position: Position
    sine: float
    cosine: float
    tangent: float


def start_at(position: Position) -> Start:
    """What is the same for all points around one."""
    tangent = (1 - FLATTENING) * math.tan(math.radians(position[0]))
    cosine = 1 / math.hypot(1, tangent)
    return Start(position, tangent * cosine, cosine, tangent)


def coefficients(squared: float) -> Tuple[float, float]:
    """Vincenty's A and B."""
    first = 1 + squared / 16384 * (4096 + squared * (-768 + squared * (320 - 175 * squared)))
    return first, squared / 1024 * (256 + squared * (-128 + squared * (74 - 47 * squared)))


def correction(second: float, sine: float, cosine: float, twice: float) -> float:
    """Vincenty's difference of an arc on the sphere."""
    inner = cosine * (-1 + 2 * twice * twice) - second / 6 * twice * (-3 + 4 * sine * sine) * (-3 + 4 * twice * twice)
    return second * sine * (twice + second / 4 * inner)


def beyond(start: Start, metres: float, bearing: float) -> Position:
    """The latitude and the longitude so many metres away, in a direction in radians clockwise from north; the longitude may pass 180."""
    sine_bearing, cosine_bearing = math.sin(bearing), math.cos(bearing)
    along = math.atan2(start.tangent, cosine_bearing)
    sine_azimuth = start.cosine * sine_bearing
    squared_cosine = 1 - sine_azimuth * sine_azimuth
    first, second = coefficients(squared_cosine * (AXIS * AXIS - OTHER_AXIS * OTHER_AXIS) / (OTHER_AXIS * OTHER_AXIS))
    arc = least = metres / (OTHER_AXIS * first)
    for _ in range(100):
        twice = math.cos(2 * along + arc)
        sine, cosine = math.sin(arc), math.cos(arc)
        before, arc = arc, least + correction(second, sine, cosine, twice)
        if abs(arc - before) < 1e-12:
            break
    sine, cosine = math.sin(arc), math.cos(arc)
    down = start.sine * sine - start.cosine * cosine * cosine_bearing
    up = start.sine * cosine + start.cosine * sine * cosine_bearing
    latitude = math.atan2(up, (1 - FLATTENING) * math.hypot(sine_azimuth, down))
    turned = math.atan2(sine * sine_bearing, start.cosine * cosine - start.sine * sine * cosine_bearing)
    part = FLATTENING / 16 * squared_cosine * (4 + FLATTENING * (4 - 3 * squared_cosine))
    twice = math.cos(2 * along + arc)
    inner = arc + part * sine * (twice + part * cosine * (-1 + 2 * twice * twice))
    longitude = turned - (1 - part) * FLATTENING * sine_azimuth * inner
    return math.degrees(latitude), start.position[1] + math.degrees(longitude)


def chords(metres: float, angle: float) -> int:
    """How many chords an arc of this radius and angle in radians needs, to be left by less than 9 mm."""
    if metres <= CHORD_ERROR:
        return FEWEST_CHORDS
    return max(FEWEST_CHORDS, math.ceil(angle / (2 * math.acos(1 - CHORD_ERROR / metres))))


def arc_around(centre: Position, metres: float, first: float, angle: float) -> List[Position]:
    """The points of an arc, from a bearing on through an angle, both in radians, with both ends."""
    if metres <= 0:
        return [centre]
    start, count = start_at(centre), chords(metres, angle)
    return [beyond(start, metres, first + angle * number / count) for number in range(count + 1)]


def ellipse_around(centre: Position, major: float, minor: float, orientation: float) -> List[Position]:
    """The points of an ellipse, whose major axis points in a direction in radians clockwise from north."""
    start, count = start_at(centre), chords(major, 2 * math.pi)
    return [beyond(start, *polar(major, minor, orientation, 2 * math.pi * number / count)) for number in range(count + 1)]


def polar(major: float, minor: float, orientation: float, angle: float) -> Tuple[float, float]:
    """The distance and the bearing of a point of an ellipse."""
    along, across = major * math.cos(angle), minor * math.sin(angle)
    return math.hypot(along, across), orientation + math.atan2(across, along)


def around_pole(ring: Iterable[Position], latitude: float) -> List[Position]:
    """A ring whose longitudes follow one another without a jump; where it runs around a pole, it is closed through it."""
    smooth: List[Position] = []
    for north, east in ring:
        if smooth:
            east += 360 * round((smooth[-1][1] - east) / 360)
        smooth.append((north, east))
    if smooth and abs(smooth[-1][1] - smooth[0][1]) > 180:
        pole = math.copysign(90.0, latitude)
        smooth += [(pole, smooth[-1][1]), (pole, smooth[0][1])]
    return smooth
