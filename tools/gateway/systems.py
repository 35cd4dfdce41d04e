"""The spellings of the one reference system that is known, WGS 84 in degrees."""
from __future__ import annotations

import re

from gateway.vocabulary import WGS84

# As RFC 5222 spells it, in its examples "def::crs" too, and as others do: an edition of the registry may stand before the number.
LATITUDE_FIRST = re.compile(
    r"urn:(?:x-)?ogc:def::?crs:epsg:(?:[0-9.]*:)?4326|https?://www\.opengis\.net/def/crs/epsg/[0-9.]+/4326|epsg:4326",
    re.IGNORECASE | re.ASCII,
)
LONGITUDE_FIRST = re.compile(
    r"urn:(?:x-)?ogc:def:crs:ogc:(?:[0-9.]*:)?crs84|https?://www\.opengis\.net/def/crs/ogc/[0-9.]+/crs84|(?:ogc:|crs:)?crs84|crs:84",
    re.IGNORECASE | re.ASCII,
)


def system_named(spelling: str) -> str:
    """The system as RFC 5222 spells it, for each spelling of it; another name as it is."""
    known = spelling == WGS84 or LATITUDE_FIRST.fullmatch(spelling) or LONGITUDE_FIRST.fullmatch(spelling)
    return WGS84 if known else spelling


def is_longitude_first(spelling: str) -> bool:
    """Whether positions of a system have the longitude first."""
    return spelling != WGS84 and LONGITUDE_FIRST.fullmatch(spelling) is not None
