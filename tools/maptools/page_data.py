"""Packs a map for the page of map-page; tools/maptools/page/data.js unpacks it.

Packed, it is the length of a JSON text in four bytes (the lowest first), that text, and the positions of all rings one after
another: the lowest bytes of the steps from latitude to latitude, their next bytes, and so on; then those of the longitudes.
The bytes of most steps are alike in all planes but the lowest, so that gzip makes them small.
"""
from __future__ import annotations

import gzip
import json
import operator
import sys
from array import array
from itertools import chain
from typing import Any, Dict, Iterable, List

from maptools.desk_rules import CIVIC, GEODETIC, TOKEN, contents_of
from maptools.texts import lowered

PLANES = 4
LEVEL = 6


def described(mapping: Dict[str, Any]) -> Dict[str, Any]:
    """A mapping as the page has it, as a server prints it, with the numbers of positions of its rings."""
    kept = {
        "source": lowered(mapping["source"]),
        "sourceId": mapping["sourceId"],
        "service": lowered(mapping["service"]),
        "uri": mapping["uri"],
        "expires": mapping["expires"],
        "lastUpdated": mapping["lastUpdated"],
        "rings": [len(ring) // 2 for ring in contents_of(mapping, GEODETIC)],
    }
    more = {
        "displayName": [{"lang": name["lang"], "text": name["text"]} for name in mapping.get("displayName") or []],
        "serviceNumber": mapping.get("serviceNumber"),
        "key": mapping.get("key"),
        "isDefault": mapping.get("default") is True,
        "patterns": len(contents_of(mapping, CIVIC)),
        "tokenSets": len(contents_of(mapping, TOKEN)),
    }
    return {**kept, **{name: value for name, value in more.items() if value}}


def planes_of(numbers: Any) -> List[bytes]:
    """The steps from number to number in four planes of bytes, the lowest first; a step beyond 32 bits goes around."""
    steps = array("q", map(operator.sub, numbers, chain((0,), numbers)))
    if sys.byteorder == "big":
        steps.byteswap()
    raw = steps.tobytes()
    return [raw[plane :: steps.itemsize] for plane in range(PLANES)]


def packed(head: Dict[str, Any], mappings: Iterable[Dict[str, Any]]) -> bytes:
    """A map whose rings are flat, with the members of its head, packed and made small."""
    texts, positions = [], array("i")
    for mapping in mappings:
        texts.append(described(mapping))
        for ring in contents_of(mapping, GEODETIC):
            positions.extend(ring)
    text = json.dumps({**head, "mappings": texts}, ensure_ascii=False, separators=(",", ":")).encode()
    planes = planes_of(positions[0::2]) + planes_of(positions[1::2])
    return gzip.compress(b"".join([len(text).to_bytes(4, "little"), text, *planes]), LEVEL, mtime=0)
