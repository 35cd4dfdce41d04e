"""The names of RFC 5222 and of the documents that it builds on."""
from __future__ import annotations

MEDIA_TYPE = "application/lost+xml"

LOST = "urn:ietf:params:xml:ns:lost1"
GML = "http://www.opengis.net/gml"
# Its later edition, which is read as the one that RFC 5222 names.
LATER_GML = "http://www.opengis.net/gml/3.2"
SHAPES = "http://www.opengis.net/pidflo/1.0"
CIVIC_ADDRESS = "urn:ietf:params:xml:ns:pidf:geopriv10:civicAddr"
# Own: what this gateway says beside the standard, and tokens.
GATEWAY = "urn:x-lostd:gateway"
XML_LANG = "{http://www.w3.org/XML/1998/namespace}lang"

GEODETIC, CIVIC, TOKEN = "geodetic-2d", "civic", "x-token"
WGS84 = "urn:ogc:def:crs:EPSG::4326"
METRE = "urn:ogc:def:uom:EPSG::9001"
DEGREE = "urn:ogc:def:uom:EPSG::9102"

FIND, SERVICES, SERVICES_BY_LOCATION, BOUNDARY = "findService", "listServices", "listServicesByLocation", "getServiceBoundary"
WARNINGS = ("serviceSubstitution", "defaultMappingReturned", "locationValidationUnavailable")

# The elements of an address in the order of RFC 5139.
CIVIC_ORDER = (
    "country", "A1", "A2", "A3", "A4", "A5", "A6", "PRM", "PRD", "RD", "STS", "POD", "POM", "RDSEC", "RDBR", "RDSUBBR",
    "HNO", "HNS", "LMK", "LOC", "FLR", "NAM", "PC", "BLD", "UNIT", "ROOM", "SEAT", "PLC", "PCN", "POBOX", "ADDCODE",
)  # fmt: skip


def named(space: str, name: str) -> str:
    """A name of a namespace, as both XML libraries write it."""
    return f"{{{space}}}{name}"


def local(tag: str) -> str:
    """A name without its namespace."""
    return tag.rpartition("}")[2]
