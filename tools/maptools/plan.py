"""What edits change, for a person to approve: a line for each mapping."""
from __future__ import annotations

import math
from collections import Counter
from typing import Any, Dict, Iterable, Iterator, List, NamedTuple, Optional

from maptools.desk_map import DeskMap
from maptools.desk_rules import CIVIC, GEODETIC, TOKEN, contents_of, identity_of
from maptools.difference import Edit
from maptools.flat_rings import read_flat
from maptools.lines import line_of
from maptools.texts import Point

Mapping = Dict[str, Any]

RADIUS = 6_371_007.2
METRES = RADIUS * math.radians(1e-7)
# How many distances of a position from an edge are computed for a mapping. Of more, some positions alone are looked at.
MOST_DISTANCES = 500_000
# The members that are told by what they were and what they become.
PLAIN = ("service", "expires", "serviceNumber")


class Change(NamedTuple):
    """A mapping as it is held, and as it is to be; None where there is none."""

    old: Optional[Mapping]
    new: Optional[Mapping]


def mapping_in(where: DeskMap, value: Mapping) -> Optional[Mapping]:
    """The mapping that a map has of an identity, whole and with flat rings."""
    given = where.given.get(identity_of(value))
    member = read_flat(given.line) if given else None
    return member[1] if member else None


def changes_of(edits: Iterable[Edit], held: DeskMap, wanted: DeskMap) -> Iterator[Change]:
    """What each edit changes."""
    for edit in edits:
        old = None if edit.kind == "publish" else mapping_in(held, edit.value)
        yield Change(old, None if edit.kind == "withdraw" else mapping_in(wanted, edit.value))


# ---- boundaries


def points_of(mapping: Mapping) -> List[List[Point]]:
    """The positions of each polygon, the first one again at the end."""
    return [list(zip(ring[0::2], ring[1::2])) for ring in contents_of(mapping, GEODETIC)]


def corners_of(polygons: List[List[Point]]) -> Counter:
    """How often each position stands in polygons, each closing one left out."""
    return Counter(point for polygon in polygons for point in polygon[:-1])


def metres_from(point: Point, edges: List[Any]) -> float:
    """How far a position is from the nearest of some edges, in metres, as the earth lies flat around it."""
    stretch = math.cos(math.radians(point[0] / 1e7))
    nearest = math.inf
    for (south, west), (north, east) in edges:
        x, y, dx, dy = (point[1] - west) * stretch, point[0] - south, (east - west) * stretch, north - south
        length = dx * dx + dy * dy
        along = min(1.0, max(0.0, (x * dx + y * dy) / length)) if length else 0.0
        nearest = min(nearest, math.hypot(x - along * dx, y - along * dy))
    return nearest * METRES


def farthest(points: Iterable[Point], polygons: List[List[Point]]) -> float:
    """How far the farthest of some positions is from the outlines of polygons, in metres."""
    edges = [edge for polygon in polygons for edge in zip(polygon, polygon[1:])]
    looked_at = list(points)
    step = len(looked_at) * len(edges) // MOST_DISTANCES + 1
    return max((metres_from(point, edges) for point in looked_at[::step]), default=0.0)


def metres_text(metres: float) -> str:
    """A distance for people."""
    return f"{metres / 1000:,.1f} km" if metres >= 1e4 else f"{metres:,.0f} m" if metres >= 1 else "less than 1 m"


def counted(count: int, noun: str) -> str:
    """So many of something."""
    return f"{count:,} {noun}{'' if count == 1 else 's'}"


def boundary_text(old: Mapping, new: Mapping) -> str:
    """What changes in the polygons; empty where nothing does."""
    before, after = points_of(old), points_of(new)
    if before == after:
        return ""
    if not before or not after:
        return "boundary removed" if before else f"boundary new ({counted(sum(map(len, after)) - len(after), 'position')})"
    had, has = corners_of(before), corners_of(after)
    come, gone = has - had, had - has
    if not come and not gone:
        return "boundary drawn in another order"
    moved = max(sum(come.values()), sum(gone.values()))
    metres = max(farthest(come, before), farthest(gone, after))
    return f"boundary moved ({counted(moved, 'position')} of {max(sum(has.values()), sum(had.values())):,}; up to {metres_text(metres)})"


# ---- all else


def items_text(name: str, old: List[str], new: List[str]) -> str:
    """What comes into a list of texts and goes out of it; empty where they are the same."""
    come, gone = Counter(new) - Counter(old), Counter(old) - Counter(new)
    if come or gone:
        return f"{name}: {sum(come.values())} added, {sum(gone.values())} removed"
    return "" if old == new else f"{name} in another order"


def uri_text(old: List[str], new: List[str]) -> str:
    """What changes in the URIs."""
    gone, come = [uri for uri in old if uri not in new], [uri for uri in new if uri not in old]
    pairs = [f"{one} -> {other}" for one, other in zip(gone, come)]
    more = [f"{one} removed" for one in gone[len(come) :]] + [f"{one} added" for one in come[len(gone) :]]
    texts = pairs + more or ([] if old == new else ["in another order"])
    return f"uri {', '.join(texts)}" if texts else ""


def names_text(mapping: Mapping) -> str:
    """The display names."""
    return ", ".join(f"{name['lang']}={name['text']}" for name in mapping.get("displayName") or []) or "none"


def from_to(name: str, old: Any, new: Any) -> str:
    """What something was, and what it becomes; empty where it is the same."""
    return "" if old == new else f"{name} {'none' if old is None else old} -> {'none' if new is None else new}"


def replacement_text(old: Mapping, new: Mapping) -> str:
    """What changes in a mapping."""
    patterns = [[line_of(pattern) for pattern in contents_of(one, CIVIC)] for one in (old, new)]
    tokens = [[token for tokens in contents_of(one, TOKEN) for token in tokens] for one in (old, new)]
    regions = [boundary_text(old, new), items_text("patterns", *patterns), items_text("tokens", *tokens)]
    rest = [from_to(name, old.get(name), new.get(name)) for name in PLAIN]
    rest += [uri_text(old["uri"], new["uri"]), from_to("displayName", names_text(old), names_text(new))]
    texts = list(filter(None, regions + rest))
    if not any(regions):
        texts += filter(None, [from_to("key", old.get("key"), new.get("key"))])
    return "; ".join(texts) or from_to("lastUpdated", old["lastUpdated"], new["lastUpdated"])


def change_text(change: Change) -> str:
    """A change in words."""
    old, new = change
    if new is None:
        return "withdrawn"
    if old is not None:
        return replacement_text(old, new)
    corners = sum(corners_of(points_of(new)).values())
    return f"new, {new['service']}, {new['uri'][0]}" + (f", {counted(corners, 'position')}" if corners else "")


def plan_of(changes: List[Change]) -> Iterator[str]:
    """The lines of a plan; a mapping goes by its sourceId alone where all are of one source."""
    sources = {identity_of(mapping)[0] for change in changes for mapping in change if mapping}
    for change in changes:
        source, name = identity_of(change.new or change.old or {})
        yield f"{name if len(sources) == 1 else f'{source} {name}'}: {change_text(change)}"
