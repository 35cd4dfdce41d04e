"""Mappings far from all others, and those that swapping latitude and longitude brings home."""
from __future__ import annotations

from typing import Any, Iterator, List, NamedTuple, Optional

import numpy
from shapely.geometry import box

from maptools.checking.findings import ERROR, WARNING, Finding
from maptools.checking.geometries import in_degrees
from maptools.checking.layers import Layer
from maptools.checking.rule import whole_point

# With fewer mappings it cannot be said which is far from the others.
FEWEST = 5
# The share of mappings at either end that do not say where home is.
TRIMMED = 0.05


class Extent(NamedTuple):
    """A box, as least and greatest latitude and longitude."""

    low: Any
    high: Any

    def meets(self, other: Extent) -> bool:
        """Whether two boxes have a place in common."""
        return bool((self.low <= other.high).all() and (other.low <= self.high).all())

    def swapped(self) -> Extent:
        """The box with latitude for longitude."""
        return Extent(self.low[::-1], self.high[::-1])


def extents_of(layer: Layer) -> List[Optional[Extent]]:
    """The box around each mapping; None for those without a polygon."""
    result: List[Optional[Extent]] = [None for _ in layer.subjects]
    for piece in layer.pieces:
        known, low, high = result[piece.owner], piece.ring.min(axis=0).astype(float), piece.ring.max(axis=0).astype(float)
        result[piece.owner] = Extent(low, high) if known is None else Extent(numpy.minimum(low, known.low), numpy.maximum(high, known.high))
    return result


def home_of(extents: List[Extent]) -> Extent:
    """Where most mappings are, and as far around as they reach."""
    middles = numpy.sort([(extent.low + extent.high) / 2 for extent in extents], axis=0)
    trimmed = max(1, int(len(extents) * TRIMMED))
    low, high = middles[trimmed], middles[-1 - trimmed]
    sizes = numpy.median([extent.high - extent.low for extent in extents], axis=0)
    around = high - low + sizes
    return Extent(low - around, high + around)


def far_findings(layer: Layer) -> Iterator[Finding]:
    """The mappings that are far from all others."""
    extents = extents_of(layer)
    known = [extent for extent in extents if extent is not None]
    if len(known) < FEWEST:
        return
    home = home_of(known)
    for owner, (subject, extent) in enumerate(zip(layer.subjects, extents)):
        if extent is None or home.meets(extent):
            continue
        is_swapped = home.meets(extent.swapped())
        question = ": are latitude and longitude swapped? Then it is among them" if is_swapped else ""
        parts = [piece.area for piece in layer.of_owner[owner] if piece.area.geom_type == "Polygon"]
        shown = parts or [box(extent.low[1], extent.low[0], extent.high[1], extent.high[0])]
        point = whole_point(shown[0], lambda place: owner in layer.owners_at(place))
        text = f"{subject.name} is far from all others{question}"
        severity = ERROR if is_swapped else WARNING
        yield Finding("far-away", severity, layer.service, (subject.identity,), text, point, geometry=in_degrees(shown))
