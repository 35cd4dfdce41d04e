"""The codes of refusals and the errors of docs/PROTOCOL.md, in words."""
from __future__ import annotations

from typing import Dict, NamedTuple


class Refusal(NamedTuple):
    """The name of a code, its cause, and what to do."""

    name: str
    cause: str
    remedy: str


REFUSALS: Dict[int, Refusal] = {
    1: Refusal("BadLine", "a required member is missing, a member is of another kind, or this is not a desk line", "fix the line"),
    2: Refusal("BadSource", "source is not a source name", "write it as labels joined by single dots"),
    3: Refusal("BadSourceId", "sourceId is empty, over 128 bytes, or has a control byte", "give another one"),
    4: Refusal("BadStamp", "lastUpdated is not a stamp, or its day does not exist", "write it in UTC, with T and Z"),
    5: Refusal("BadExpires", "expires is not a stamp, NO-CACHE or NO-EXPIRATION", "write one of these"),
    6: Refusal("BadService", "service is not a service URN", "write it with urn:service:"),
    7: Refusal("BadUri", "no URI, more than 16, a text that is not a URI, or two of one scheme", "give one for each scheme"),
    8: Refusal("BadNumber", "serviceNumber is empty, over 64 characters, or has another character", "give only digits, * and #"),
    9: Refusal("BadRegion", "an item of serviceBoundary is not a region", "fix the region; close the ring"),
    10: Refusal("RegionMissing", "a mapping that is not a default has no region, or a default has one", "add a region, or leave it out"),
    11: Refusal("TooLarge", "over 64 polygons, 256 patterns, 64 token sets or 16 names, or a name over 1,024 bytes", "split the mapping in two"),
    12: Refusal("BadKey", "no key, a malformed key, or a key on a default", "give a key, or none on a default"),
    13: Refusal("IdentityHeld", "a mapping with this source and sourceId is held", "send it as replace"),
    14: Refusal("IdentityUnknown", "no mapping with this source and sourceId is held", "send it as publish"),
    15: Refusal("NotNewer", "lastUpdated is not after that of the mapping held", "give a later stamp, or drop the edit"),
    16: Refusal("KeyHeld", "another mapping has the key", "give a key that no other mapping has"),
    17: Refusal("KeyUnchanged", "the regions changed, and the key did not", "give a new key"),
    18: Refusal("Full", "65,536 mappings are held", "withdraw one first, or join mappings"),
    19: Refusal("EditsSpent", "4,294,967,295 edits were accepted", "start the server again, and publish the map again"),
    20: Refusal("Memory", "the server has no memory for it; nothing changed", "send the line again later"),
    21: Refusal("Withdrawn", "it was withdrawn, at this lastUpdated or later", "drop the line; to bring the mapping back, give a later stamp"),
    22: Refusal("TracesFull", "65,536 withdrawn mappings are remembered", "publish one of them again, with a later stamp"),
    23: Refusal(
        "NotKept",
        "the server's journal could not keep it; nothing changed",
        "send it again, and ask the operator to look at the server's standard error",
    ),
}

ERRORS: Dict[str, str] = {
    "badRequest": "the line is no request that the server knows; fix the client",
    "loop": "the path has the server's own name: the request has been here before",
    "locationProfileUnrecognized": "no location is geodetic-2d, civic or x-token",
    "SRSInvalid": "the srsName is not urn:ogc:def:crs:EPSG::4326",
    "locationInvalid": "the position, address or token is missing, out of range, too long or of another shape",
    "notFound": "no mapping holds the place, or none has the key",
    "serviceNotImplemented": "no mapping has the service or one above it",
    "internalError": "the server has no memory for it; nothing changed; send the line again later",
}

WARNINGS: Dict[str, str] = {
    "serviceSubstitution": "the mappings are of a service above the one asked for",
    "defaultMappingReturned": "no mapping holds the place, and a default stands in",
    "locationValidationUnavailable": "the address was not validated, since defaults answered",
}


def cause_text(code: int, name: str) -> str:
    """A refusal as a sentence; the name is the server's, for a code that this table does not have."""
    known = REFUSALS.get(code)
    return f"refused with code {code}, {name}" + (f": {known.cause}" if known else "")


def refusal_text(code: int, name: str) -> str:
    """The same, and what to do."""
    known = REFUSALS.get(code)
    return cause_text(code, name) + (f"; {known.remedy}" if known else "")
