"""GeoJSON (RFC 7946) as the desk needs it: features, and geometries as polygons in whole units, latitude first."""
from __future__ import annotations

import json
from decimal import Decimal, InvalidOperation
from typing import Any, Dict, List

from maptools.desk_rules import GEODETIC, MOST_REGIONS
from maptools.rings import MOST_POSITIONS
from maptools.lines import refuse_constant
from maptools.meridian import TURN, Ring, Unfit, cut, laid_out
from maptools.units import rounded_units

FARTHEST_LONGITUDE = 540
MOST_POLYGONS = MOST_REGIONS[GEODETIC]
KNOWN_SYSTEMS = ("CRS84", "EPSG::4326", "EPSG:4326", "WGS84", "WGS 84")


class NoGeojson(Exception):
    """What keeps a file from being read at all."""


def decimal_of(text: str) -> Decimal:
    """A number with a fraction or an exponent, exactly."""
    try:
        return Decimal(text)
    except InvalidOperation:
        raise ValueError(f"the number {text} is too large") from None


def system_of(document: Dict[str, Any]) -> str:
    """The name of the reference system in the old member crs; empty where there is none."""
    crs = document.get("crs")
    properties = crs.get("properties") if isinstance(crs, dict) else None
    return str(properties.get("name", crs)) if isinstance(properties, dict) else "" if crs is None else str(crs)


def features_in(document: Any) -> List[Any]:
    """The features of a value of JSON: a collection, or one feature."""
    kind = document.get("type") if isinstance(document, dict) else None
    if kind not in ("Feature", "FeatureCollection"):
        raise NoGeojson("the input is neither a Feature nor a FeatureCollection")
    system = system_of(document)
    if system and not any(system.endswith(known) for known in KNOWN_SYSTEMS):
        raise NoGeojson(f"the input is in the reference system {system}: convert it to WGS 84 (EPSG:4326) first")
    if kind == "Feature":
        return [document]
    if not isinstance(document.get("features"), list):
        raise NoGeojson("the FeatureCollection has no list of features")
    return document["features"]


def features_of(text: str) -> List[Any]:
    """The features of a file of GeoJSON."""
    try:
        document = json.loads(text, parse_float=decimal_of, parse_constant=refuse_constant)
    except (ValueError, RecursionError) as error:
        raise NoGeojson(f"the input is not JSON: {error}") from None
    return features_in(document)


def position_of(value: Any) -> Any:
    """A position in units, latitude first; an altitude is left out."""
    if not isinstance(value, list) or len(value) < 2:
        raise Unfit("is not a position")
    longitude, latitude = value[:2]
    if not all(type(number) in (int, Decimal) for number in (longitude, latitude)):
        raise Unfit("has a coordinate that is not a number")
    if not -90 <= latitude <= 90:
        may_be_swapped = -90 <= longitude <= 90 and -180 <= latitude <= 180
        swapped = ": is it swapped? GeoJSON has longitude first" if may_be_swapped else ""
        raise Unfit(f"has a latitude out of range, {latitude}{swapped}")
    if not -FARTHEST_LONGITUDE <= longitude <= FARTHEST_LONGITUDE:
        raise Unfit(f"has a longitude out of range, {longitude}")
    return rounded_units(latitude), rounded_units(longitude)


def named(where: str, call: Any, *arguments: Any) -> Any:
    """What a call gives; what it finds unfit is said with the place."""
    try:
        return call(*arguments)
    except Unfit as unfit:
        raise Unfit(unfit.cause, where, *unfit.places) from None


def ring_of(value: Any, is_flat: bool) -> Ring:
    """A ring in one piece."""
    if not isinstance(value, list):
        raise Unfit("is not a list of positions")
    if len(value) < 4:
        raise Unfit("has fewer than 4 positions")
    ring = [named(f"position {place}", position_of, position) for place, position in enumerate(value, 1)]
    if ring[0] != ring[-1]:
        raise Unfit("is not closed: its last position is not its first")
    return ring if is_flat else laid_out(ring)


def lies_within(inner: Ring, outer: Ring) -> bool:
    """Whether the box around one ring lies in the box around another."""
    return all(
        min(position[axis] for position in outer) <= position[axis] <= max(position[axis] for position in outer)
        for axis in (0, 1)
        for position in (min(inner, key=lambda item: item[axis]), max(inner, key=lambda item: item[axis]))
    )


def beside(hole: Ring, outer: Ring) -> Ring:
    """A hole moved by whole turns to where its outer ring is."""
    for turns in (0, 1, -1, 2, -2):
        moved = [(latitude, longitude + turns * TURN) for latitude, longitude in hole]
        if lies_within(moved, outer):
            return moved
    raise Unfit("is a hole that reaches out of the outer ring")


def keyhole(rings: List[Ring]) -> Ring:
    """The outer ring, then each hole's ring and the outer ring's first position again."""
    result = list(rings[0])
    for hole in rings[1:]:
        result += hole + rings[0][:1]
    return result


def parts_of(value: Any, is_flat: bool) -> List[Ring]:
    """A polygon of GeoJSON as rings that the server takes."""
    if not isinstance(value, list) or not value:
        raise Unfit("has no ring")
    outer, *holes = [named(f"ring {place}", ring_of, ring, is_flat) for place, ring in enumerate(value, 1)]
    holes = [named(f"ring {place}", beside, hole, outer) for place, hole in enumerate(holes, 2)]
    parts = [keyhole(rings) for rings in cut([outer, *holes])]
    if not parts:
        raise Unfit("has no area")
    for part in parts:
        if len(part) > MOST_POSITIONS:
            raise Unfit(f"has {len(part):,} positions with its holes, and at most {MOST_POSITIONS:,} are allowed: simplify it")
    return parts


def polygons_of(geometry: Any, is_flat: bool) -> List[Ring]:
    """The polygons of a geometry."""
    if geometry is None:
        raise Unfit("has no geometry: it is null")
    kind = geometry.get("type") if isinstance(geometry, dict) else None
    if kind not in ("Polygon", "MultiPolygon"):
        raise Unfit(f"has a geometry of the type {kind}: only Polygon and MultiPolygon are taken" if kind else "has no geometry")
    coordinates = geometry.get("coordinates")
    if not isinstance(coordinates, list) or not coordinates:
        raise Unfit("has an empty geometry")
    if kind == "Polygon":
        return named("the polygon", parts_of, coordinates, is_flat)
    parts = []
    for place, polygon in enumerate(coordinates, 1):
        parts += named(f"polygon {place}", parts_of, polygon, is_flat)
    if len(parts) > MOST_POLYGONS:
        raise Unfit(f"has {len(parts)} polygons, and at most {MOST_POLYGONS} are allowed: split it into features")
    return parts
