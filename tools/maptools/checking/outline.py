"""The outline of a whole map, from GeoJSON: all polygons of a file, in whole units."""
from __future__ import annotations

import json
from typing import Any, Iterator, List

from shapely.geometry import Polygon
from shapely.ops import unary_union

from maptools.geojson import decimal_of
from maptools.lines import refuse_constant
from maptools.units import rounded_units


class BadOutline(ValueError):
    """What keeps a file from being an outline."""


def geometries_in(value: Any) -> Iterator[Any]:
    """The geometries of a GeoJSON object."""
    if not isinstance(value, dict):
        raise BadOutline("this is not GeoJSON")
    if value.get("type") == "FeatureCollection":
        for feature in value.get("features") or []:
            yield from geometries_in(feature)
    elif value.get("type") == "Feature":
        yield value.get("geometry")
    else:
        yield value


def ring_of(positions: Any) -> List[Any]:
    """A ring in whole units, longitude first."""
    return [(rounded_units(position[0]), rounded_units(position[1])) for position in positions]


def polygons_of(geometry: Any) -> Iterator[Polygon]:
    """The polygons of a geometry."""
    kind = geometry.get("type") if isinstance(geometry, dict) else None
    if kind not in ("Polygon", "MultiPolygon"):
        raise BadOutline(f"a geometry of the type {kind} is no area")
    for rings in [geometry["coordinates"]] if kind == "Polygon" else geometry["coordinates"]:
        outer, *holes = map(ring_of, rings)
        polygon = Polygon(outer, holes)
        if not polygon.is_valid:
            raise BadOutline("a polygon crosses or touches itself")
        yield polygon


def outline_of(path: str) -> Any:
    """The outline of a file; BadOutline where it has none."""
    with open(path, encoding="utf-8-sig") as file:
        try:
            value = json.load(file, parse_float=decimal_of, parse_constant=refuse_constant)
            outline = unary_union([polygon for geometry in geometries_in(value) for polygon in polygons_of(geometry)])
        except BadOutline as error:
            raise BadOutline(f"{path}: {error}") from None
        except (ValueError, TypeError, KeyError, IndexError, RecursionError) as error:
            raise BadOutline(f"{path}: this is not GeoJSON with polygons: {error}") from None
    if outline.is_empty:
        raise BadOutline(f"{path}: there is no polygon")
    return outline
