"""The digest of a map: equal for equal maps, whatever order and edits they came by, and otherwise different.

It is the sum of the digests of its mappings modulo 2**128; that of a mapping is the MD5 of bytes that stand for its values. Texts
and lists begin with their length in 8 bytes, and all numbers have the greatest byte first.
"""
from __future__ import annotations

import hashlib
import sys
from array import array
from itertools import chain
from typing import Any, Callable, Dict, Iterable, Iterator, List, Optional

from maptools.desk_rules import CIVIC, GEODETIC, TOKEN, contents_of
from maptools.texts import lowered

Mapping = Dict[str, Any]

DIGESTS = 1 << 128
WORDS = {"NO-CACHE": b"\0", "NO-EXPIRATION": b"\1"}


def count_bytes(count: int) -> bytes:
    """A length."""
    return count.to_bytes(8, "big")


def text_bytes(text: str) -> bytes:
    """A text."""
    body = text.encode()
    return count_bytes(len(body)) + body


def list_bytes(item_bytes: Callable[[Any], bytes], items: List[Any]) -> bytes:
    """A list."""
    return count_bytes(len(items)) + b"".join(map(item_bytes, items))


def texts_bytes(texts: List[str]) -> bytes:
    """A list of texts."""
    return list_bytes(text_bytes, texts)


def option_bytes(text: Optional[str]) -> bytes:
    """A text that may be absent."""
    return b"\0" if text is None else b"\1" + text_bytes(text)


def ring_bytes(ring: Any) -> bytes:
    """A polygon, of pairs or flat: 4 bytes in two's complement for each coordinate, latitude first."""
    flat = array("i", ring if isinstance(ring, array) else chain.from_iterable(ring))
    if sys.byteorder == "little":
        flat.byteswap()
    return count_bytes(len(flat) // 2) + flat.tobytes()


def pattern_bytes(pattern: Dict[str, str]) -> bytes:
    """A civic pattern, its elements in order of their names."""
    return list_bytes(lambda name: text_bytes(name) + text_bytes(pattern[name]), sorted(pattern))


def name_bytes(name: Dict[str, str]) -> bytes:
    """A display name."""
    return text_bytes(name["lang"]) + text_bytes(name["text"])


def parts_of(mapping: Mapping) -> Iterator[bytes]:
    """The bytes of a mapping, in parts: the source and the service in lower case, and all else as given."""
    yield text_bytes(lowered(mapping["source"]))
    yield text_bytes(mapping["sourceId"])
    yield text_bytes(mapping["lastUpdated"])
    yield WORDS.get(mapping["expires"]) or b"\2" + text_bytes(mapping["expires"])
    yield text_bytes(lowered(mapping["service"]))
    yield texts_bytes(mapping["uri"])
    yield option_bytes(mapping.get("serviceNumber"))
    yield list_bytes(ring_bytes, contents_of(mapping, GEODETIC))
    yield list_bytes(pattern_bytes, contents_of(mapping, CIVIC))
    yield list_bytes(texts_bytes, contents_of(mapping, TOKEN))
    yield b"\1" if mapping.get("default") is True else b"\0"
    yield list_bytes(name_bytes, mapping.get("displayName") or [])
    yield option_bytes(mapping.get("key"))


def mapping_digest(mapping: Mapping) -> int:
    """The digest of a mapping that codes 1 to 12 let through."""
    return int.from_bytes(hashlib.md5(b"".join(parts_of(mapping))).digest(), "big")


def map_digest(digests: Iterable[int]) -> str:
    """The digest of a map, by those of its mappings, as 32 hexadecimal digits."""
    return f"{sum(digests) % DIGESTS:032x}"
