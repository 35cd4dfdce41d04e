"""Gaps, overlaps, overhangs and cracks of a service's areas."""
from __future__ import annotations

from typing import Any, Callable, Dict, Iterator, List, NamedTuple, Optional, Sequence, Set, Tuple

from shapely.ops import unary_union

from maptools.checking.areas import polygons_in
from maptools.checking.coverage import Coverage, Owners, coverage_of, owners_beside, parts_of
from maptools.checking.findings import ERROR, WARNING, Finding
from maptools.checking.geometries import in_degrees
from maptools.checking.layers import Layer
from maptools.checking.metres import area_of, area_text, greatest_width, is_sliver, width_text
from maptools.checking.progress import Progress
from maptools.checking.rule import whole_point
from maptools.checking.subjects import names_of
from maptools.texts import Point

# Metres: one and a half units, which no rounding of an edge's ends exceeds.
CRACK = 0.0167
# The share of both areas from which on two mappings have the same one.
SAME = 0.99

OPEN, SHARED, OVERHANG = "gap", "overlap", "overhang"
WHAT = {
    OPEN: "nobody serves {extent}",
    SHARED: "{names} all serve {extent}",
    OVERHANG: "{names} serve {extent} beyond the outline",
}
BOTH = "{names} both serve {extent}"


class Spot(NamedTuple):
    """A faulty area: its polygon, a whole point in it, its area and its width in metres, and how it is narrow."""

    polygon: Any
    point: Point
    area: float
    width: float
    form: str


def form_of(polygon: Any, width: float) -> str:
    """Whether a place is a crack, a sliver, or neither."""
    if width <= CRACK:
        return "crack"
    return "sliver" if is_sliver(polygon, width) else ""


def spots_in(parts: List[Any], is_wanted: Callable[[Point], bool]) -> Iterator[Spot]:
    """The parts in which a caller can be, each measured."""
    for polygon in parts:
        point = whole_point(polygon, is_wanted)
        if point is not None:
            width = greatest_width(polygon)
            yield Spot(polygon, point, area_of(polygon), width, form_of(polygon, width))


class Boundaries:
    """Looks for what is wrong between the areas of a layer."""

    def __init__(self, layer: Layer, outline: Any, tolerance: float, progress: Progress) -> None:
        self.layer, self.outline, self.tolerance, self.progress = layer, outline, tolerance, progress
        self.narrow = 0
        self.areas: Dict[int, float] = {}

    def identities(self, owners: Sequence[int]) -> Tuple[Any, ...]:
        """The identities of some mappings."""
        return tuple(self.layer.subjects[owner].identity for owner in owners)

    def findings(self, left_out: Set[int]) -> Iterator[Finding]:
        """All that is found; pieces that are others again are left out."""
        self.progress.tell(f"{self.layer.service}: edges", 0, 0)
        coverage = coverage_of(self.layer, left_out)
        for owners, faces in sorted(coverage.shared.items(), key=lambda item: sorted(item[0])):
            yield from self.shared(owners, parts_of(faces))
        if self.outline is None:
            yield from self.open(parts_of(coverage.open_faces))
        else:
            yield from self.against_outline(coverage)

    def against_outline(self, coverage: Coverage) -> Iterator[Finding]:
        """What the outline has and no area, and the other way round."""
        held = unary_union(coverage.held)
        yield from self.open(list(polygons_in(self.outline.difference(held))))
        for spot in self.measured(list(polygons_in(held.difference(self.outline))), lambda holders: len(holders) > 0):
            yield self.finding(OVERHANG, self.layer.owners_at(spot.point), [spot])

    def measured(self, parts: List[Any], is_wanted: Callable[[List[int]], bool]) -> Iterator[Spot]:
        """The parts with a point where the mappings of the pieces that hold it are as wanted, but for those within the tolerance."""
        for number, part in enumerate(parts):
            self.progress.tell(f"{self.layer.service}: gaps and overlaps", number, len(parts))
            for spot in spots_in([part], lambda point: is_wanted(self.layer.holders_at(point))):
                if spot.width > self.tolerance:
                    yield spot
                else:
                    self.narrow += 1

    def open(self, parts: List[Any]) -> Iterator[Finding]:
        """Gaps; narrow ones between the same mappings as one."""
        groups: Dict[Tuple[Any, ...], List[Spot]] = {}
        for number, spot in enumerate(self.measured(parts, lambda holders: not holders)):
            beside = owners_beside(self.layer, spot.polygon)
            groups.setdefault((beside, spot.form or number), []).append(spot)
        for (beside, _), spots in groups.items():
            yield self.finding(OPEN, beside, spots)

    def shared(self, owners: Owners, parts: List[Any]) -> Iterator[Finding]:
        """Overlaps of the same mappings; narrow ones as one."""
        if len(owners) < 2:
            yield from self.own(owners, parts)
            return
        spots = list(self.measured(parts, lambda holders: owners <= set(holders)))
        if spots and self.are_same(owners, sum(spot.area for spot in spots)):
            yield same_area(self.layer.service, self.identities(sorted(owners)), spots[0].point, [spot.polygon for spot in spots])
            return
        groups: Dict[Any, List[Spot]] = {}
        for number, spot in enumerate(spots):
            groups.setdefault(spot.form or number, []).append(spot)
        for group in groups.values():
            yield self.finding(SHARED, sorted(owners), group)

    def own(self, owners: Owners, parts: List[Any]) -> Iterator[Finding]:
        """What two polygons of one mapping both hold."""
        for spot in self.measured(parts, lambda holders: sum(holder in owners for holder in holders) > 1):
            names = names_of(self.identities(sorted(owners)))
            text = f"two polygons of {names} both hold {extent(spot)}: they add up, so a hole must be in the ring around it"
            yield Finding("own-overlap", WARNING, self.layer.service, self.identities(sorted(owners)), text, spot.point, None, spot.area,
                          spot.width, in_degrees([spot.polygon]))  # fmt: skip

    def are_same(self, owners: Owners, area: float) -> bool:
        """Whether mappings that have an area in common have hardly any other."""
        return area >= SAME * max(map(self.area_of_owner, owners))

    def area_of_owner(self, owner: int) -> float:
        """The area of all polygons of a mapping."""
        if owner not in self.areas:
            self.areas[owner] = sum(area_of(piece.area) for piece in self.layer.of_owner[owner] if not piece.area.is_empty)
        return self.areas[owner]

    def finding(self, what: str, owners: Sequence[int], spots: List[Spot]) -> Finding:
        """What is wrong at some spots of one form."""
        spot = max(spots, key=lambda one: one.width)
        identities, area = self.identities(owners), sum(one.area for one in spots)
        names = names_of(identities)
        pattern = BOTH if what == SHARED and len(owners) == 2 else WHAT[what]
        text = pattern.format(names=names, extent=extent(spot._replace(area=area), len(spots)))
        if what == OVERHANG and len(owners) == 1:
            text = text.replace(" serve ", " serves ", 1)
        if what == OPEN and owners:
            text += f", beside {names}"
        kind = spot.form or what
        if spot.form == "crack":
            text += ": they give their edge by different end points"
        severity = WARNING if spot.form or what == OVERHANG else ERROR
        geometry = in_degrees([one.polygon for one in spots])
        return Finding(kind, severity, self.layer.service, identities, text, spot.point, None, area, spot.width, geometry)


def extent(spot: Spot, count: int = 1) -> str:
    """How large a place is, or some places are."""
    places = "" if count == 1 else f" in {count} places"
    return f"{area_text(spot.area)}{places}, at most {width_text(spot.width)} wide"


def same_area(service: str, identities: Tuple[Any, ...], point: Optional[Point], polygons: List[Any]) -> Finding:
    """Mappings of the same area."""
    area = sum(map(area_of, polygons))
    text = f"{names_of(identities)} have the same area, {area_text(area)}: one centre under two identities?"
    width = max(map(greatest_width, polygons))
    return Finding("same-area", ERROR, service, identities, text, point, None, area, width, in_degrees(polygons))
