"""The area of a ring by the even-odd rule, as a geometry in whole units: longitude is x, latitude is y."""
from __future__ import annotations

from collections import Counter
from typing import Any, Iterator, List, NamedTuple, Sequence, Tuple

import numpy
from shapely import wkb
from shapely.geometry import GeometryCollection, LinearRing, Polygon
from shapely.ops import polygonize, unary_union

from maptools.texts import Point

NOTHING = GeometryCollection()
# A line of two positions among many, as WKB has it.
STRETCH = numpy.dtype([("order", "u1"), ("kind", "<u4"), ("count", "<u4"), ("ends", "<f8", (2, 2))])
WKB_HEAD = numpy.dtype([("order", "u1"), ("kind", "<u4"), ("count", "<u4")])
LINE, LINES = 2, 5

Edge = Tuple[Point, Point]


class Tangle(NamedTuple):
    """A ring that is not simple: what it holds, where it crosses itself, and whether it runs along edges twice the same way."""

    area: Any
    crossings: List[Tuple[float, float]]
    is_repeated: bool


def lines_between(start: Any, end: Any) -> Any:
    """Lines from positions to positions, latitude first, as one geometry."""
    body = numpy.zeros(len(start), dtype=STRETCH)
    body["order"], body["kind"], body["count"] = 1, LINE, 2
    body["ends"][:, 0, :], body["ends"][:, 1, :] = start[:, ::-1], end[:, ::-1]
    head = numpy.array([(1, LINES, len(start))], dtype=WKB_HEAD)
    return wkb.loads(head.tobytes() + body.tobytes())


def polygons_in(geometry: Any) -> Iterator[Polygon]:
    """The polygons of a geometry that have an area."""
    for part in getattr(geometry, "geoms", [geometry]):
        if part.geom_type == "Polygon":
            if part.area > 0:
                yield part
        elif hasattr(part, "geoms"):
            yield from polygons_in(part)


def faces_of(lines: Any) -> List[Polygon]:
    """The faces that lines enclose."""
    noded = unary_union(lines)
    return [face for face in polygonize(noded) if face.area > 0]


def is_in_edges(edges: Any, x: float, y: float) -> bool:
    """Whether an odd number of edges is left of a point that is on none."""
    low, high = numpy.minimum(edges[:, 0, 0], edges[:, 1, 0]), numpy.maximum(edges[:, 0, 0], edges[:, 1, 0])
    spanning = edges[(low <= y) & (y < high)]
    (y0, x0), (y1, x1) = spanning[:, 0].T, spanning[:, 1].T
    return bool(numpy.count_nonzero(x0 + (y - y0) / (y1 - y0) * (x1 - x0) < x) % 2)


def untangled(ring: Sequence[Sequence[int]]) -> Tangle:
    """What a ring that may cross, touch or repeat itself holds by the even-odd rule."""
    points = [(int(latitude), int(longitude)) for latitude, longitude in ring]
    edges = [(a, b) for a, b in zip(points, points[1:] + points[:1]) if a != b]
    once = Counter(edges)
    both = Counter(tuple(sorted(edge)) for edge in edges)
    odd = [edge for edge in dict.fromkeys(tuple(sorted(edge)) for edge in edges) if both[edge] % 2]
    is_repeated = any(times > 1 for times in once.values())
    if not odd:
        return Tangle(NOTHING, [], is_repeated)
    array = numpy.array(odd, dtype=float)
    noded = unary_union(lines_between(array[:, 0], array[:, 1]))
    held = [face for face in polygonize(noded) if face.area > 0 and is_in_edges(array, *face.representative_point().coords[0])]
    known = {(float(longitude), float(latitude)) for latitude, longitude in points}
    nodes = {place for line in getattr(noded, "geoms", [noded]) for place in (line.coords[0], line.coords[-1])}
    return Tangle(unary_union(held) if held else NOTHING, sorted(nodes - known), is_repeated)


def simple_area(ring: Any) -> Any:
    """The polygon of a ring that neither crosses nor touches itself; None of any other ring."""
    if len(ring) < 3:
        return None
    polygon = Polygon(ring[:, ::-1].astype(float))
    return polygon if polygon.is_valid else None


def rings_in(area: Any) -> Iterator[Any]:
    """The rings of an area, outer ones against the clock and holes with it, as arrays, latitude first."""
    for polygon in polygons_in(area):
        for ring, is_outer in [(polygon.exterior, True), *((hole, False) for hole in polygon.interiors)]:
            places = numpy.array(ring.coords)[:, ::-1]
            yield places if LinearRing(ring).is_ccw == is_outer else places[::-1]
