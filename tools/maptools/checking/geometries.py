"""Geometries of findings, in degrees, as GeoJSON has them."""
from __future__ import annotations

from typing import Any, Dict, Iterable, List

from shapely.geometry import MultiPolygon, mapping
from shapely.ops import transform

from maptools.texts import Point


def rounded(values: Any) -> List[float]:
    """Units in degrees, to a tenth of a unit."""
    return [round(value / 1e7, 8) for value in values]


def in_degrees(parts: Iterable[Any]) -> Dict[str, Any]:
    """Polygons as a geometry."""
    polygons = list(parts)
    whole = polygons[0] if len(polygons) == 1 else MultiPolygon(polygons)
    return dict(mapping(transform(lambda x, y: (rounded(x), rounded(y)), whole)))


def dot_of(point: Point) -> Dict[str, Any]:
    """A point as a geometry."""
    return {"type": "Point", "coordinates": [point[1] / 1e7, point[0] / 1e7]}
