"""Reads a desk line with long rings of whole numbers many times faster than JSON is read, and to the same effect.

Each ring in the server's compact spelling is taken out of the line as an array, and a short ring put in its place. What is
spelled in any other way is left to the usual reading.
"""
from __future__ import annotations

from typing import Any, List, NamedTuple, Optional

import numpy

from maptools.desk_rules import GEODETIC
from maptools.rings import GREATEST_LATITUDE, GREATEST_LONGITUDE, MOST_POSITIONS

RING = b'"polygon":[['
# A ring that takes the place of one that was taken out: the number of it is its first latitude.
STAND_IN = b'"polygon":[[%d,0],[0,0],[0,0],[%d,0]]'
SHORTEST = 400
DIGITS = b"0123456789-"
POWERS = 10 ** numpy.arange(1, 11)

Ring = Any


def spelled_length(numbers: Any) -> int:
    """How many bytes whole numbers take in their shortest spelling."""
    return len(numbers) + int(numpy.count_nonzero(numbers < 0) + numpy.searchsorted(POWERS, numpy.abs(numbers), side="right").sum())


def ring_in(text: bytes) -> Optional[Ring]:
    """The ring that a list of pairs spells; None unless it is spelled compactly, and a ring."""
    commas = text.translate(None, DIGITS)
    count = (len(commas) - 1) // 4
    if commas != b"[" + b"[,]," * (count - 1) + b"[,]]" or not 4 <= count <= MOST_POSITIONS:
        return None
    bare = text.translate(None, b"[]")
    # (what is no number ends the reading, and then there are too few)
    numbers = numpy.fromstring(bare, dtype=numpy.int64, sep=",")
    if len(numbers) != 2 * count or spelled_length(numbers) + 2 * count - 1 != len(bare):
        return None
    ring = numbers.reshape(-1, 2)
    is_in_range = (abs(ring) <= (GREATEST_LATITUDE, GREATEST_LONGITUDE)).all()
    return ring.astype(numpy.int32) if is_in_range and (ring[0] == ring[-1]).all() else None


class Shortened(NamedTuple):
    """A line with stand-ins, and the rings that they stand for."""

    line: bytes
    rings: List[Ring]


def shortened(line: bytes) -> Optional[Shortened]:
    """A line with its long rings taken out; None where that is not worth it, or a ring must be read in the usual way."""
    if len(line) < SHORTEST or RING not in line:
        return None
    head, *rest = line.split(RING)
    pieces, rings = [head], []
    for number, part in enumerate(rest):
        end = part.find(b"]]")
        ring = ring_in(b"[[" + part[: end + 2]) if end >= 0 else None
        if ring is None:
            return None
        rings.append(ring)
        pieces.append(STAND_IN % (number, number) + part[end + 2 :])
    return Shortened(b"".join(pieces), rings)


def rings_of(value: Any, rings: List[Ring]) -> Optional[List[Ring]]:
    """The rings of a mapping that was read with stand-ins; None where one stands elsewhere than in a region."""
    regions = value.get("serviceBoundary") or [] if isinstance(value, dict) else []
    polygons = [region for region in regions if isinstance(region, dict) and region.get("profile") == GEODETIC]
    found = [region["polygon"] for region in polygons if "polygon" in region]
    if found != [[[number, 0], [0, 0], [0, 0], [number, 0]] for number in range(len(rings))]:
        return None
    return rings
