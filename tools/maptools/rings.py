"""The rings of polygons, as desk lines have them: which are right, and why others are not."""
from __future__ import annotations

from array import array
from typing import Any, Optional

from maptools.texts import Point, spelled_point

GREATEST_LATITUDE, GREATEST_LONGITUDE = 900_000_000, 1_800_000_000
MOST_POSITIONS = 4096


def is_pair(value: Any) -> bool:
    """Two whole numbers in range, latitude first."""
    return (
        isinstance(value, list)
        and len(value) == 2
        and type(value[0]) is type(value[1]) is int
        and -GREATEST_LATITUDE <= value[0] <= GREATEST_LATITUDE
        and -GREATEST_LONGITUDE <= value[1] <= GREATEST_LONGITUDE
    )


def position_of(value: Any) -> Optional[Point]:
    """A position as a latitude and a longitude: such a pair, or a text of degrees. None where it is neither, or out of range."""
    pair = list(spelled_point(value) or ()) if isinstance(value, str) else value
    return (pair[0], pair[1]) if is_pair(pair) else None


def in_pairs(ring: Any) -> Any:
    """A ring with each position as a pair, as the server prints it; an outline, or a flat ring, stays as it is."""
    has_texts = isinstance(ring, list) and str in map(type, ring)
    return [list(position_of(position) or ()) for position in ring] if has_texts else ring


def is_flat_ring(ring: Any) -> bool:
    """The same as is_ring of an array of latitude, longitude, latitude and so on."""
    if not 4 <= len(ring) / 2 <= MOST_POSITIONS or len(ring) % 2 or ring[:2] != ring[-2:]:
        return False
    most = max(max(ring), -min(ring))
    is_far = most > GREATEST_LATITUDE and max(max(ring[0::2]), -min(ring[0::2])) > GREATEST_LATITUDE
    return most <= GREATEST_LONGITUDE and not is_far


def is_ring(value: Any) -> bool:
    """4 to 4,096 positions, the last equal to the first; they may be flat, as maptools.flat_rings reads them."""
    if isinstance(value, array):
        return is_flat_ring(value)
    is_long = isinstance(value, list) and 4 <= len(value) <= MOST_POSITIONS
    ring = in_pairs(value) if is_long else []
    return is_long and all(map(is_pair, ring)) and ring[0] == ring[-1]


def position_cause(position: Any) -> str:
    """What is wrong with a position; empty where nothing is."""
    pair = list(spelled_point(position) or ()) if isinstance(position, str) else position
    if is_pair(pair):
        return ""
    if not isinstance(pair, list) or [type(number) for number in pair] != [int, int]:
        return "is not a latitude and a longitude, in whole units or as a text of degrees"
    latitude, longitude = pair
    name, number = ("latitude", latitude) if abs(latitude) > GREATEST_LATITUDE else ("longitude", longitude)
    question = ": are latitude and longitude swapped?" if is_pair([longitude, latitude]) else ""
    return f"has a {name} out of range, {number}{question}"


def ring_cause(value: Any) -> str:
    """What is wrong with a list that should be a ring; empty where nothing is."""
    if not isinstance(value, list):
        return "is missing, or no list"
    for number, position in enumerate(value, 1):
        cause = position_cause(position)
        if cause:
            return f"position {number} {cause}"
    if not 4 <= len(value) <= MOST_POSITIONS:
        return f"has {len(value):,} positions, where 4 to {MOST_POSITIONS:,} may be"
    return "" if is_ring(value) else "does not end where it begins"
