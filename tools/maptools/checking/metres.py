"""Areas and widths in metres, of geometries in whole units of 1e-7 degrees, longitude as x and latitude as y.

The earth is a sphere with the surface of WGS 84's ellipsoid: a length is right within 0.6 percent.
"""
from __future__ import annotations

import math
from typing import Any, Tuple

import numpy
from shapely.ops import transform

RADIUS = 6_371_007.2
RADIANS = math.pi / 180 / 1e7
METRES = RADIUS * RADIANS
# How far the bounds of a width may be apart, as a ratio.
CLOSE = 1.01
# A polygon of more positions is measured without those that change its width by less than this share, at each step.
MANY, SHARE = 1000, 0.0005
# Metres: what is narrower is a sliver, if it is so many times as long.
SLIVER, SLENDER = 10.0, 10.0


def area_of(geometry: Any) -> float:
    """The area in square metres: that of a projection which keeps areas."""
    middle = geometry.bounds[1]

    def flat(x: Any, y: Any) -> Tuple[Any, Any]:
        sum_of, difference = (numpy.asarray(y) + middle) * RADIANS / 2, (numpy.asarray(y) - middle) * RADIANS / 2
        return numpy.asarray(x) * METRES, 2 * RADIUS * numpy.cos(sum_of) * numpy.sin(difference)

    return transform(flat, geometry).area


def in_metres(geometry: Any) -> Any:
    """The geometry as it lies around its middle, in metres."""
    west, south, east, north = geometry.bounds
    x0, y0 = (west + east) / 2, (south + north) / 2
    stretch = max(math.cos(y0 * RADIANS), 1e-6) * METRES
    return transform(lambda x, y: ((numpy.asarray(x) - x0) * stretch, (numpy.asarray(y) - y0) * METRES), geometry)


def greatest_width(polygon: Any) -> float:
    """The diameter in metres of the greatest circle in a polygon, within some one percent.

    Its radius is at least the area by the length of the boundary, and the circle has no more area than the polygon.
    """
    flat = in_metres(polygon)
    if flat.area <= 0:
        return 0.0
    low, high = flat.area / flat.length, math.sqrt(flat.area / math.pi)
    while high > low * CLOSE:
        middle = math.sqrt(low * high)
        if flat.buffer(-middle, resolution=4).is_empty:
            high = middle
        else:
            low = middle
            flat = flat.simplify(low * SHARE) if len(flat.exterior.coords) > MANY else flat
    return 2 * low


def length_of(polygon: Any) -> float:
    """Half of the length of a polygon's boundary in metres: how long it is where it is narrow."""
    return in_metres(polygon).length / 2


def is_sliver(polygon: Any, width: float) -> bool:
    """Whether a polygon of a width is narrow and long."""
    return width < SLIVER and length_of(polygon) >= SLENDER * width


def area_text(area: float) -> str:
    """An area for people."""
    return f"{area / 1e6:,.2f} km²" if area >= 1e5 else f"{area:,.0f} m²" if area >= 10 else f"{area:.2g} m²"


def width_text(width: float) -> str:
    """A width for people."""
    return f"{width / 1000:,.1f} km" if width >= 1e4 else f"{width:,.0f} m" if width >= 10 else f"{width:.2g} m"
