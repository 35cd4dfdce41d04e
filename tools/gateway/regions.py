"""Boundaries of mappings by their keys, and areas, in the flat plane of degrees: longitude to the right, latitude up."""
from __future__ import annotations

from typing import Any, Dict, List, NamedTuple, Tuple

from shapely.affinity import translate
from shapely.geometry import Polygon, box
from shapely.ops import unary_union
from shapely.validation import make_valid

from gateway.positions import UNITS_A_DEGREE
from gateway.shapes import Area, rings_of
from gateway.vocabulary import GEODETIC

MOST_POSITIONS = 2_000_000
GLOBE = box(-180, -90, 180, 90)
# The source, the sourceId and the stamp of a mapping, and the key of its boundary.
Key = Tuple[str, str, str, str]


class Region(NamedTuple):
    """The geodetic regions of a key, as lostd writes them, and as one shape."""

    regions: List[Dict[str, Any]]
    shape: Any


def plain(shape: Any) -> Any:
    """A shape without self-crossings: inside is what the even-odd rule says. Lines and points in it are left out."""
    valid = shape if shape.is_valid else make_valid(shape)
    parts = [part for part in getattr(valid, "geoms", [valid]) if part.area > 0]
    return unary_union(parts) if parts else Polygon()


def region_of(regions: List[Dict[str, Any]]) -> Region:
    """The geodetic regions of a reply to getServiceBoundary."""
    chosen = [region for region in regions if region["profile"] == GEODETIC]
    shapes = [plain(Polygon([(east / UNITS_A_DEGREE, north / UNITS_A_DEGREE) for north, east in region["polygon"]])) for region in chosen]
    return Region(chosen, unary_union(shapes))


def shape_of_area(area: Area) -> Any:
    """An area as a shape on the globe; what lies beyond the 180th meridian comes in on the other side."""
    outer, *holes = [[(east, north) for north, east in ring] for ring in rings_of(area)]
    whole = plain(Polygon(outer))
    for hole in holes:
        whole = whole.difference(plain(Polygon(hole)))
    west, south, east, north = whole.bounds or (0, 0, 0, 0)
    if -180 <= west and east <= 180 and -90 <= south and north <= 90:
        return whole
    pieces = [translate(whole, turn * 360.0).intersection(GLOBE) for turn in (-1, 0, 1)]
    return plain(unary_union([piece for piece in pieces if piece.area > 0])) if any(piece.area for piece in pieces) else Polygon()


class Regions:
    """Boundaries that were asked for before; a table that is emptied when it has too many positions."""

    def __init__(self) -> None:
        self.table: Dict[Key, Region] = {}
        self.positions = 0

    def keep(self, key: Key, region: Region) -> None:
        """Keeps the boundary of a key."""
        size = sum(len(one["polygon"]) for one in region.regions)
        if self.positions + size > MOST_POSITIONS:
            self.table.clear()
            self.positions = 0
        self.positions += size
        self.table[key] = region
