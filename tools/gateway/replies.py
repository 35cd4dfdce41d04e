"""Writes replies and errors as XML, by RFC 5222.

A client was seen to loop without end over a comment in errors or warnings, and to crash where a mapping has no displayName
or the body is no XML: so there are no comments, no processing instructions, no white space between elements, and each
mapping gets a name unless the operator wants none.
"""
from __future__ import annotations

import re
from typing import Any, Dict, List, NamedTuple, Optional, Tuple

from lxml import etree

from gateway.services import Alias, Services
from gateway.vocabulary import (
    BOUNDARY, CIVIC, CIVIC_ADDRESS, CIVIC_ORDER, FIND, GATEWAY, GEODETIC, GML, LOST, SERVICES, SERVICES_BY_LOCATION, TOKEN,
    WARNINGS, WGS84, XML_LANG, named,
)  # fmt: skip
from maptools.refusals import WARNINGS as WARNING_TEXTS
from maptools.units import degrees_of

IN_LOST = f"{{{LOST}}}"
RESPONSES = {f"{kind}Response": kind for kind in (FIND, SERVICES, SERVICES_BY_LOCATION, BOUNDARY)}
LANGUAGE = re.compile(r"[A-Za-z]{1,8}(?:-[A-Za-z0-9]{1,8})*")
UNKNOWN_LANGUAGE = "und"
# What XML 1.0 has no way to write.
UNWRITABLE = re.compile("[^\t\n\r\x20-\ud7ff\ue000-\ufffd\U00010000-\U0010ffff]")
REPLACEMENT = "\ufffd"
PLACES = {name: place for place, name in enumerate(CIVIC_ORDER)}
AREA_TEXT = "the location is an area; the answer is that of its centre"


class OwnWarning(NamedTuple):
    """A warning of the gateway itself: its name, its message, and what else it says in attributes."""

    name: str
    message: str
    attributes: Tuple[Tuple[str, str], ...] = ()


def centre_warning(shape: str) -> OwnWarning:
    """An area was asked for by its centre."""
    return OwnWarning("centreOfArea", AREA_TEXT, (("shape", shape),))


class NoReply(Exception):
    """A line from behind is none of the replies that this gateway knows."""


class Manner(NamedTuple):
    """How replies are written: under whose name warnings and errors are, what services are called, and whether names are made up."""

    source: str
    services: Services
    makes_up_names: bool = True


class Asked(NamedTuple):
    """What a reply must know of its request: the alias of its service, and the gateway's own warning."""

    alias: Optional[Alias] = None
    warning: Optional[OwnWarning] = None


def add(parent: Any, name: str, text: Optional[str] = None, **attributes: str) -> Any:
    """A new last element of LoST in another."""
    element = etree.SubElement(parent, IN_LOST + name, attributes)
    if text:
        element.text = text
    return element


def add_message(element: Any, text: str) -> None:
    """What an error or a warning says to people."""
    element.set("message", text)
    element.set(XML_LANG, "en")


def add_names(element: Any, mapping: Dict[str, Any], makes_up_names: bool) -> None:
    """The names of a mapping; the sourceId where it has none. A line break becomes a space."""
    names = mapping.get("displayName", [])
    if not names and makes_up_names:
        names = [{"lang": UNKNOWN_LANGUAGE, "text": mapping["sourceId"]}]
    for name in names:
        text = name["text"].replace("\r\n", " ").replace("\n", " ").replace("\r", " ")
        is_language = LANGUAGE.fullmatch(name["lang"])
        add(element, "displayName", text).set(XML_LANG, name["lang"] if is_language else UNKNOWN_LANGUAGE)


def degrees_text(position: List[int]) -> str:
    """A position in degrees, exactly."""
    return f"{degrees_of(position[0])} {degrees_of(position[1])}"


def add_polygon(boundary: Any, polygon: List[List[int]]) -> None:
    """A polygon, with each of its positions."""
    shape = etree.SubElement(boundary, named(GML, "Polygon"), {"srsName": WGS84}, nsmap={"gml": GML})
    ring = etree.SubElement(etree.SubElement(shape, named(GML, "exterior")), named(GML, "LinearRing"))
    for position in polygon:
        etree.SubElement(ring, named(GML, "pos")).text = degrees_text(position)


def add_pattern(boundary: Any, pattern: Dict[str, str]) -> None:
    """A pattern of addresses, its elements in the order of RFC 5139."""
    address = etree.SubElement(boundary, named(CIVIC_ADDRESS, "civicAddress"), nsmap={"ca": CIVIC_ADDRESS})
    for name in sorted(pattern, key=lambda one: PLACES.get(one, len(PLACES))):
        etree.SubElement(address, named(CIVIC_ADDRESS, name)).text = pattern[name]


def add_tokens(boundary: Any, tokens: List[str]) -> None:
    """A token set, an element for each."""
    for token in tokens:
        etree.SubElement(boundary, named(GATEWAY, "token"), nsmap={None: GATEWAY}).text = token


def add_regions(parent: Any, regions: List[Dict[str, Any]]) -> None:
    """A serviceBoundary for each region: a place is inside where any of them holds it."""
    for region in regions:
        boundary = add(parent, "serviceBoundary", profile=region["profile"])
        if region["profile"] == GEODETIC:
            add_polygon(boundary, region["polygon"])
        elif region["profile"] == CIVIC:
            add_pattern(boundary, region["pattern"])
        elif region["profile"] == TOKEN:
            add_tokens(boundary, region["tokens"])
        else:
            raise NoReply(f"a region is of the profile {region['profile']!r}")


def add_mapping(root: Any, mapping: Dict[str, Any], alias: Optional[Alias], manner: Manner) -> None:
    """A mapping."""
    attributes = {name: mapping[name] for name in ("expires", "lastUpdated", "source", "sourceId")}
    element = add(root, "mapping", **attributes)
    add_names(element, mapping, manner.makes_up_names)
    add(element, "service", manner.services.told(mapping["service"], alias))
    add_regions(element, mapping.get("serviceBoundary", []))
    if "serviceBoundaryReference" in mapping:
        reference = mapping["serviceBoundaryReference"]
        add(element, "serviceBoundaryReference", source=reference["source"], key=reference["key"])
    for uri in mapping["uri"]:
        add(element, "uri", uri)
    if "serviceNumber" in mapping:
        add(element, "serviceNumber", mapping["serviceNumber"])


def prefixes_of(names: List[str]) -> Dict[str, str]:
    """The prefix of each namespace that the names of an address are of."""
    others = sorted({name[1:].partition("}")[0] for name in names if name.startswith("{")})
    return {CIVIC_ADDRESS: "ca", **{space: f"x{number}" for number, space in enumerate(others, 1)}}


def qualified(name: str, prefixes: Dict[str, str]) -> str:
    """The qualified name of an element of an address; one without a namespace has no prefix."""
    if not name.startswith("{"):
        return f"{prefixes[CIVIC_ADDRESS]}:{name}"
    space, _, own = name[1:].partition("}")
    return f"{prefixes[space]}:{own}"


def add_validation(root: Any, validation: Dict[str, List[str]]) -> None:
    """What became of each element of the address."""
    prefixes = prefixes_of([name for names in validation.values() for name in names])
    spaces = {prefix: space for space, prefix in prefixes.items()}
    element = etree.SubElement(root, IN_LOST + "locationValidation", nsmap=spaces)
    for kind in ("valid", "invalid", "unchecked"):
        add(element, kind, " ".join(qualified(name, prefixes) for name in validation[kind]))


def add_warnings(root: Any, names: List[str], own: Optional[OwnWarning], source: str) -> None:
    """The warnings of a reply, and this gateway's own."""
    if not names and own is None:
        return
    element = add(root, "warnings", source=source)
    for name in names:
        if name not in WARNINGS:
            raise NoReply(f"the warning {name!r} is unknown")
        add_message(add(element, name), WARNING_TEXTS[name])
    if own is not None:
        warning = etree.SubElement(element, named(GATEWAY, own.name), dict(own.attributes), nsmap={"gw": GATEWAY})
        add_message(warning, own.message)


def add_path(root: Any, path: List[str]) -> None:
    """The servers that the request passed through."""
    element = add(root, "path")
    for source in path:
        add(element, "via", source=source)


def add_content(root: Any, kind: str, value: Dict[str, Any], asked: Asked, manner: Manner) -> None:
    """What a response says before its warnings, its path and its locationUsed."""
    if kind == FIND:
        for mapping in value["mapping"]:
            add_mapping(root, mapping, asked.alias, manner)
        if "locationValidation" in value:
            add_validation(root, value["locationValidation"])
    elif kind == BOUNDARY:
        add_regions(root, value["serviceBoundary"])
    else:
        add(root, "serviceList", " ".join(manner.services.told(service, asked.alias) for service in value["serviceList"]))


def response(name: str, value: Dict[str, Any], asked: Asked, manner: Manner) -> Any:
    """The outermost element of a response. Where it says which location was used, its last element does."""
    kind = RESPONSES[name]
    root = etree.Element(IN_LOST + name, nsmap={None: LOST})
    add_content(root, kind, value, asked, manner)
    is_located = kind in (FIND, SERVICES_BY_LOCATION)
    add_warnings(root, value.get("warnings", []), asked.warning if is_located else None, manner.source)
    add_path(root, value["path"])
    if is_located:
        add(root, "locationUsed", id=value["locationUsed"])
    return root


def errors(name: str, text: str, source: str) -> Any:
    """The outermost element of an error."""
    root = etree.Element(IN_LOST + "errors", {"source": source}, nsmap={None: LOST})
    text = UNWRITABLE.sub(REPLACEMENT, text)
    add_message(add(root, name), text)
    return root


def xml_of(root: Any) -> bytes:
    """An element as a document: in UTF-8, without a declaration, on one line."""
    return etree.tostring(root, encoding="UTF-8", xml_declaration=False)


def writable(value: Any) -> Any:
    """A value whose texts XML can write: other characters are replaced."""
    if isinstance(value, str):
        return UNWRITABLE.sub(REPLACEMENT, value)
    if isinstance(value, list):
        return [writable(item) for item in value]
    return {name: writable(item) for name, item in value.items()} if isinstance(value, dict) else value


def reply(name: str, value: Dict[str, Any], asked: Asked, manner: Manner) -> Any:
    """The outermost element of a response of the server behind; NoReply where it is none that this gateway knows."""
    if name not in RESPONSES:
        raise NoReply(f"the reply {name!r} is unknown")
    try:
        return writable_response(name, value, asked, manner)
    except (KeyError, TypeError, AttributeError) as error:
        raise NoReply(f"the reply is of another shape: {error!r}") from None


def writable_response(name: str, value: Dict[str, Any], asked: Asked, manner: Manner) -> Any:
    """A response; where it has characters that XML cannot write, they are replaced."""
    try:
        return response(name, value, asked, manner)
    except ValueError:
        return response(name, writable(value), asked, manner)
