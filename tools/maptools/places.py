"""Points and boundaries: which edges of a ring belong to it, and which mappings hold a point.

The rule is that of docs/PROTOCOL.md, "Points, times and texts": even-odd, where an edge counts for a point that is on it
or right of it, from the latitude of its lower end up to before that of its upper end. So lower and left edges belong to
a ring, and upper and right ones do not.
"""
from __future__ import annotations

from collections import Counter
from typing import Any, Dict, Iterable, List, NamedTuple, Optional, Tuple

from maptools.desk_rules import GEODETIC, MEMBERS, contents_of
from maptools.rings import GREATEST_LATITUDE, GREATEST_LONGITUDE, position_of
from maptools.flat_rings import Ring
from maptools.texts import WITHOUT_END, Moment, Point, moment_of, service_of

Edge = Tuple[Point, Point]


class Area(NamedTuple):
    """A polygon of a mapping, flat, and the least and the greatest of its latitudes and longitudes."""

    mapping: Dict[str, Any]
    polygon: Ring
    low: Point
    high: Point

    @property
    def ring(self) -> List[Point]:
        """The polygon as points."""
        return list(zip(self.polygon[0::2], self.polygon[1::2]))

    def reaches(self, low: Point, high: Point) -> bool:
        """Whether some of it may lie in a box."""
        return all(self.low[axis] <= high[axis] and low[axis] <= self.high[axis] for axis in (0, 1))


class Finding(NamedTuple):
    """A point that was asked for, what was asked, and what it found."""

    point: Point
    asked: str
    found: List[Dict[str, Any]]
    nothing: str


def normal(point: Point) -> Point:
    """The point at which a question is asked: the 180th meridian is that of the west, and the pole just below it."""
    latitude, longitude = point
    return (
        GREATEST_LATITUDE - 1 if latitude == GREATEST_LATITUDE else latitude,
        -GREATEST_LONGITUDE if longitude == GREATEST_LONGITUDE else longitude,
    )


def counts(edge: Edge, point: Point) -> bool:
    """Whether an edge counts for a point: it spans the point's latitude, and the point is on it or right of it."""
    low, high = edge if edge[0][0] <= edge[1][0] else edge[::-1]
    if not low[0] <= point[0] < high[0]:
        return False
    return (point[1] - low[1]) * (high[0] - low[0]) >= (high[1] - low[1]) * (point[0] - low[0])


def is_inside(edges: Iterable[Edge], point: Point) -> bool:
    """An odd number of edges counts."""
    return sum(counts(edge, point) for edge in edges) % 2 == 1


def pairwise(ring: List[Point]) -> Iterable[Edge]:
    """The edges of a ring."""
    return zip(ring, ring[1:])


def edges_of(ring: List[Point]) -> List[Edge]:
    """The edges that a ring runs along an odd number of times: not the ways to its holes and back."""
    edges = [(a, b) for a, b in pairwise(ring) if a != b]
    times = Counter(frozenset(edge) for edge in edges)
    return [edge for edge in edges if times[frozenset(edge)] % 2]


def belonging(ring: List[Point]) -> List[Tuple[Edge, bool]]:
    """Each edge of a ring that is drawn, with whether the points in its middle are inside."""
    doubled = [((2 * a[0], 2 * a[1]), (2 * b[0], 2 * b[1])) for a, b in edges_of(ring)]
    if not doubled:
        return []
    low = min(end[0] for edge in doubled for end in edge)
    height = max(end[0] for edge in doubled for end in edge) - low + 1
    strips: List[List[Edge]] = [[] for _ in range(len(doubled) // 4 + 1)]
    for edge in doubled:
        first, last = sorted((end[0] - low) * len(strips) // height for end in edge)
        for strip in strips[first : last + 1]:
            strip.append(edge)
    result = []
    for a, b in doubled:
        middle = (a[0] + b[0]) // 2, (a[1] + b[1]) // 2
        edge = (a[0] // 2, a[1] // 2), (b[0] // 2, b[1] // 2)
        result.append((edge, is_inside(strips[(middle[0] - low) * len(strips) // height], middle)))
    return result


def areas_of(mappings: Iterable[Dict[str, Any]]) -> List[Area]:
    """The polygons of mappings whose rings are flat."""
    areas = []
    for mapping in mappings:
        for polygon in contents_of(mapping, GEODETIC):
            latitudes, longitudes = polygon[0::2], polygon[1::2]
            areas.append(Area(mapping, polygon, (min(latitudes), min(longitudes)), (max(latitudes), max(longitudes))))
    return areas


def holding(areas: List[Area], point: Point) -> List[Dict[str, Any]]:
    """The mappings that hold a point, each once."""
    at = normal(point)
    result: List[Dict[str, Any]] = []
    for area in areas:
        is_new = not result or result[-1] is not area.mapping
        if is_new and area.reaches(at, at) and is_inside(pairwise(area.ring), at):
            result.append(area.mapping)
    return result


def is_live(mapping: Dict[str, Any], now: Optional[Moment]) -> bool:
    """Whether a mapping has not expired; without a moment none has."""
    return now is None or mapping["expires"] in WITHOUT_END or moment_of(mapping["expires"]) > now


def candidates(service: str) -> List[str]:
    """A service and those above it."""
    labels = service.split(":")[2].split(".")
    return [f"urn:service:{'.'.join(labels[:count])}" for count in range(len(labels), 0, -1)]


def found(mappings: List[Dict[str, Any]], holders: List[Dict[str, Any]], service: str) -> Tuple[List[Dict[str, Any]], str]:
    """What findService finds among live mappings, of which some hold the place; else the name of the error."""
    for candidate in candidates(service):
        here = [mapping for mapping in holders if service_of(mapping["service"]) == candidate]
        if here:
            return here, ""
    for candidate in candidates(service):
        defaults = [mapping for mapping in mappings if mapping.get("default") and service_of(mapping["service"]) == candidate]
        if defaults:
            return defaults, ""
    is_known = any(service_of(mapping["service"]) in candidates(service) for mapping in mappings)
    return [], "notFound" if is_known else "serviceNotImplemented"


def question_of(value: Any) -> Optional[Tuple[Point, str, str]]:
    """The point, the service and the id of a findService request; None where it asks for no point that is good."""
    if not isinstance(value, dict) or not isinstance(value.get("location"), list):
        return None
    service = service_of(value["service"]) if isinstance(value.get("service"), str) else None
    places = [place for place in value["location"] if isinstance(place, dict) and place.get("profile") in [*MEMBERS]]
    point = position_of(places[0].get("pos")) if places and places[0]["profile"] == GEODETIC else None
    return None if service is None or point is None else (point, service, str(places[0].get("id", "")))
