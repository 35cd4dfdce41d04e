"""What the desk's connection refuses: a second way to read the tables of docs/PROTOCOL.md, "The desk's lines"."""
from __future__ import annotations

from typing import Any, Dict, List, NamedTuple, Optional, Tuple

from maptools.rings import in_pairs, is_ring, ring_cause
from maptools.texts import is_expires, is_id, is_number, is_source, lowered, moment_of, scheme_of, service_of, size

MOST_TOKENS, MOST_NAMES, MOST_MAPPINGS, MOST_TRACES = 64, 16, 65_536, 65_536
GEODETIC, CIVIC, TOKEN = "geodetic-2d", "civic", "x-token"
# The profiles, each with the member of its regions, and how many of these a mapping has at most.
MEMBERS = {GEODETIC: "polygon", CIVIC: "pattern", TOKEN: "tokens"}
MOST_REGIONS = {GEODETIC: 64, CIVIC: 256, TOKEN: 64}
ELEMENTS = frozenset(
    "country A1 A2 A3 A4 A5 A6 PRM PRD RD STS POD POM RDSEC RDBR RDSUBBR HNO HNS LMK LOC FLR NAM PC BLD UNIT ROOM SEAT "
    "PLC PCN POBOX ADDCODE".split()
)
REQUIRED = ("source", "sourceId", "lastUpdated", "expires", "service")
EDITS = ("publish", "replace", "withdraw")

Identity = Tuple[str, str]


class Fault(NamedTuple):
    """The code of a refusal, and what it is about."""

    code: int
    what: str


class Book(NamedTuple):
    """The mappings that are held, by identity and in the order of the list, whose each key is, and the stamps of withdrawals."""

    held: Dict[Identity, Dict[str, Any]]
    keys: Dict[str, Identity]
    traces: Dict[Identity, str]


def empty_book() -> Book:
    """No mappings."""
    return Book({}, {}, {})


def is_text_list(value: Any) -> bool:
    """A list of texts."""
    return isinstance(value, list) and all(isinstance(item, str) for item in value)


def is_name_list(value: Any) -> bool:
    """A list of objects with the texts lang and text."""
    return isinstance(value, list) and all(
        isinstance(item, dict) and isinstance(item.get("lang"), str) and isinstance(item.get("text"), str) for item in value
    )


def kind_fault(value: Any) -> Optional[Fault]:
    """Code 1: a member that is missing or of another kind; null counts as no value."""
    if not isinstance(value, dict):
        return Fault(1, "the value is not an object")
    for name in REQUIRED:
        if not isinstance(value.get(name), str):
            return Fault(1, f"{name} is not a text")
    if not is_text_list(value.get("uri")):
        return Fault(1, "uri is not a list of texts")
    kinds = {"serviceNumber": str, "serviceBoundary": list, "default": bool, "key": str}
    for name, kind in kinds.items():
        if value.get(name) is not None and not isinstance(value[name], kind):
            return Fault(1, f"{name} is of another kind")
    if value.get("displayName") is not None and not is_name_list(value["displayName"]):
        return Fault(1, "displayName is not a list of objects with lang and text")
    return None


def text_fault(value: Dict[str, Any]) -> Optional[Fault]:
    """Codes 2 to 6: the texts that each mapping has."""
    if not is_source(value["source"]):
        return Fault(2, f"{value['source']!r} is not a source")
    if not is_id(value["sourceId"]):
        return Fault(3, f"{value['sourceId']!r} is not a sourceId")
    if moment_of(value["lastUpdated"]) is None:
        return Fault(4, f"{value['lastUpdated']!r} is not a stamp")
    if not is_expires(value["expires"]):
        return Fault(5, f"{value['expires']!r} is not a stamp, NO-CACHE or NO-EXPIRATION")
    if service_of(value["service"]) is None:
        return Fault(6, f"{value['service']!r} is not a service URN")
    return None


def uri_fault(uris: List[str]) -> Optional[Fault]:
    """Code 7: 1 to 16 URIs, no scheme twice."""
    for uri in uris:
        if scheme_of(uri) is None:
            return Fault(7, f"{uri!r} is not a URI")
    if not 1 <= len(uris) <= 16:
        return Fault(7, f"there are {len(uris)} URIs")
    schemes = [scheme_of(uri) for uri in uris]
    twice = [scheme for scheme in schemes if schemes.count(scheme) > 1]
    return Fault(7, f"two URIs have the scheme {twice[0]}") if twice else None


def is_pattern(value: Any) -> bool:
    """1 to 128 elements with texts of at most 512 bytes."""
    return (
        isinstance(value, dict)
        and 1 <= len(value) <= 128
        and all(name in ELEMENTS and isinstance(text, str) and size(text) <= 512 for name, text in value.items())
    )


def is_token_set(value: Any) -> bool:
    """1 to 64 tokens, none twice."""
    return is_text_list(value) and 1 <= len(value) <= MOST_TOKENS and len(set(value)) == len(value) and all(map(is_id, value))


def is_region(value: Any) -> bool:
    """A polygon, a pattern or a token set, by its profile."""
    profile = value.get("profile") if isinstance(value, dict) else None
    if not isinstance(profile, str) or profile not in MEMBERS:
        return False
    is_right = {GEODETIC: is_ring, CIVIC: is_pattern, TOKEN: is_token_set}
    return is_right[profile](value.get(MEMBERS[profile]))


def region_cause(region: Any) -> str:
    """Why an item that is not a region is none, as far as it is a polygon."""
    cause = ring_cause(region.get(MEMBERS[GEODETIC])) if isinstance(region, dict) and region.get("profile") == GEODETIC else ""
    return f": its polygon {cause}" if cause else ""


def regions_of(value: Dict[str, Any]) -> List[Dict[str, Any]]:
    """The regions of a mapping; none where the boundary is left out."""
    return value.get("serviceBoundary") or []


def contents_of(value: Dict[str, Any], profile: str) -> List[Any]:
    """The polygons, in pairs, the patterns or the token sets of a mapping."""
    contents = [region[MEMBERS[profile]] for region in regions_of(value) if region["profile"] == profile]
    return list(map(in_pairs, contents)) if profile == GEODETIC else contents


def are_too_many(value: Dict[str, Any]) -> bool:
    """More regions of some kind than a mapping may have."""
    return any(len(contents_of(value, profile)) > most for profile, most in MOST_REGIONS.items())


def boundary_fault(value: Dict[str, Any]) -> Optional[Fault]:
    """Codes 8 to 12."""
    number, regions, is_default = value.get("serviceNumber"), regions_of(value), value.get("default") is True
    names, key = value.get("displayName") or [], value.get("key")
    if number is not None and not is_number(number):
        return Fault(8, f"{number!r} is not a service number")
    for place, region in enumerate(regions, 1):
        if not is_region(region):
            return Fault(9, f"region {place} is not a region{region_cause(region)}")
    if is_default == bool(regions):
        return Fault(10, "a default has a region" if is_default else "there is no region")
    if are_too_many(value):
        return Fault(11, "there are too many regions")
    if len(names) > MOST_NAMES or any(size(name[part]) > 1024 for name in names for part in ("lang", "text")):
        return Fault(11, "there are too many display names, or one is too long")
    if (key is not None) == is_default:
        return Fault(12, "a default has a key" if is_default else "there is no key")
    return Fault(12, f"{key!r} is not a key") if key is not None and not is_id(key) else None


def mapping_fault(value: Any) -> Optional[Fault]:
    """Codes 1 to 12 for a mapping: the first that applies."""
    return kind_fault(value) or text_fault(value) or uri_fault(value["uri"]) or boundary_fault(value)


def withdrawal_fault(value: Any) -> Optional[Fault]:
    """Codes 1 to 4 for a withdrawal."""
    if not isinstance(value, dict) or not all(isinstance(value.get(name), str) for name in REQUIRED[:3]):
        return Fault(1, "a member is missing or not a text")
    return text_fault({"expires": "NO-CACHE", "service": "urn:service:sos", **{name: value[name] for name in REQUIRED[:3]}})


def identity_of(value: Dict[str, Any]) -> Identity:
    """Source in lower case, and sourceId."""
    return lowered(value["source"]), value["sourceId"]


def same_regions(one: Dict[str, Any], other: Dict[str, Any]) -> bool:
    """The same polygons, patterns and token sets, each kind in the same order."""
    return all(contents_of(one, profile) == contents_of(other, profile) for profile in MEMBERS)


def book_fault(book: Book, kind: str, value: Dict[str, Any]) -> Optional[Fault]:
    """Codes 13 to 18, 21 and 22, in the order of docs/PROTOCOL.md, for an edit that codes 1 to 12 let through."""
    fault = identity_fault(book, kind, identity_of(value), value["lastUpdated"])
    if fault:
        return fault
    if kind == "withdraw" and len(book.traces) >= MOST_TRACES:
        return Fault(22, f"{MOST_TRACES:,} withdrawn mappings are remembered")
    if kind == "publish" and len(book.held) >= MOST_MAPPINGS:
        return Fault(18, f"{MOST_MAPPINGS:,} mappings are held")
    return None if kind == "withdraw" else key_fault(book, value)


def identity_fault(book: Book, kind: str, identity: Identity, stamp: str) -> Optional[Fault]:
    """Codes 13, 21, 14 and 15: what is held with the identity, or was withdrawn, and when."""
    old, withdrawn, name = book.held.get(identity), book.traces.get(identity), " ".join(identity)
    if kind == "publish" and old is not None:
        return Fault(13, f"{name} is held")
    if kind == "publish" and withdrawn is not None and moment_of(stamp) <= moment_of(withdrawn):
        return Fault(21, f"{name} was withdrawn at {withdrawn}, and {stamp} is not after it")
    if kind != "publish" and old is None:
        return Fault(14, f"{name} is not held")
    if old is not None and moment_of(stamp) <= moment_of(old["lastUpdated"]):
        return Fault(15, f"{stamp} is not after {old['lastUpdated']}")
    return None


def key_fault(book: Book, value: Dict[str, Any]) -> Optional[Fault]:
    """Codes 16 and 17; a default has no key."""
    identity, key = identity_of(value), value.get("key")
    old = book.held.get(identity)
    if key is None:
        return None
    if book.keys.get(key, identity) != identity:
        return Fault(16, f"the key {key} is that of {' '.join(book.keys[key])}")
    if old is not None and key == old.get("key") and not same_regions(value, old):
        return Fault(17, "the regions changed, and the key did not")
    return None


def edit_fault(book: Book, kind: str, value: Any) -> Optional[Fault]:
    """The refusal that an edit gets, codes 1 to 18, 21 and 22; None where it is accepted."""
    alone = withdrawal_fault(value) if kind == "withdraw" else mapping_fault(value)
    return alone or book_fault(book, kind, value)


def apply_edit(book: Book, kind: str, value: Dict[str, Any]) -> None:
    """Changes the book by an edit that is accepted."""
    identity = identity_of(value)
    old = book.held.get(identity)
    if old is not None and old.get("key") is not None:
        del book.keys[old["key"]]
    if kind == "withdraw":
        del book.held[identity]
        book.traces[identity] = value["lastUpdated"]
        return
    book.held[identity] = value
    book.traces.pop(identity, None)
    if value.get("key") is not None:
        book.keys[value["key"]] = identity
