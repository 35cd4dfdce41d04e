"""Reads desk lines so that each ring is an array, as large maps need it: [latitude, longitude, latitude, ..] in whole units.

Such a ring takes 8 bytes for a position, where a list of pairs takes over 100, and is read four times as fast.
"""
from __future__ import annotations

import json
import re
from array import array
from itertools import chain
from typing import Any, List, Optional, Tuple

from maptools.desk_rules import GEODETIC, MEMBERS
from maptools.rings import in_pairs, is_ring
from maptools.lines import LONGEST_LINE, read_line

NUMBER = rb"(?:0|-?[1-9][0-9]{0,9})"
PAIR = rb"\[" + NUMBER + b"," + NUMBER + rb"\]"
# A polygon as most tools write it. The line is JSON exactly if it is with another list in the place of the positions: if the
# first quote ended a text, the word behind it would be none of JSON's.
PLAIN_POLYGON = re.compile(rb'\{"polygon":\[(' + PAIR + rb"(?:," + PAIR + rb')*)\]([,}])')
# What stands in the place of positions that were read beforehand, with their number.
MARK = "#ring "

# An array of whole numbers, of 32 bits each.
Ring = Any


def flat(numbers: List[int]) -> Ring:
    """Numbers as an array; an empty list, which is no ring, where one is too large for that."""
    try:
        return array("i", numbers)
    except OverflowError:
        return []


def take_rings(line: bytes) -> Tuple[bytes, List[Ring]]:
    """A line with a mark in the place of the positions of each plain polygon; and these."""
    rings: List[Ring] = []

    def mark(found: Any) -> bytes:
        rings.append(flat(json.loads(b"[" + found.group(1).translate(None, b"[]") + b"]")))
        return b'{"polygon":["%s%d"]%s' % (MARK.encode(), len(rings) - 1, found.group(2))

    return PLAIN_POLYGON.sub(mark, line), rings


def flat_region(region: Any, rings: List[Ring]) -> Any:
    """A region with its ring as an array, if it is a ring, or one that was read beforehand."""
    polygon = region.get(MEMBERS[GEODETIC]) if isinstance(region, dict) else None
    if not isinstance(polygon, list) or not polygon:
        return region
    if isinstance(polygon[0], str) and polygon[0].startswith(MARK):
        return {**region, MEMBERS[GEODETIC]: rings[int(polygon[0][len(MARK) :])]}
    return {**region, MEMBERS[GEODETIC]: flat(list(chain.from_iterable(in_pairs(polygon))))} if is_ring(polygon) else region


def read_flat(line: bytes) -> Optional[Tuple[str, Any]]:
    """What read_line gives, with each ring of the boundary as an array."""
    if len(line) > LONGEST_LINE:
        return None
    marked, rings = (line, []) if MARK.encode() in line or b"\\u" in line else take_rings(line)
    member = read_line(marked)
    if member is None or not isinstance(member[1], dict):
        return member
    regions = member[1].get("serviceBoundary")
    if isinstance(regions, list):
        member[1]["serviceBoundary"] = [flat_region(region, rings) for region in regions]
    return member
