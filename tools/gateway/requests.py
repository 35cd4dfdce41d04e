"""Reads the four requests of RFC 5222 into the request lines of docs/PROTOCOL.md.

What is no readable location is sent without its content, so that the server's own order of errors holds. A request for a
service that the server behind can't have is sent as one for the list of services there, for the same reason.
"""
from __future__ import annotations

import xml.etree.ElementTree as ElementTree
from typing import Any, Dict, List, NamedTuple, Optional, Tuple

from gateway.positions import CENTRES, POINT, SPACE, WHITE_SPACE, Unreadable, place_of, shape_of, system_of
from gateway.services import Asked, Services
from gateway.shapes import Area, area_of
from gateway.vocabulary import (
    BOUNDARY, CIVIC, CIVIC_ADDRESS, FIND, GATEWAY, GEODETIC, LOST, SERVICES, SERVICES_BY_LOCATION, TOKEN, WGS84, local, named,
)  # fmt: skip
from gateway.wording import listed, shown

BOOLEANS = {"true": True, "1": True, "false": False, "0": False}
IN_LOST = f"{{{LOST}}}"
IN_CIVIC = f"{{{CIVIC_ADDRESS}}}"
# What the server behind takes at most.
MOST_LOCATIONS, MOST_SERVERS = 8, 32

Names = Dict[str, str]
Parts = Dict[str, List[ElementTree.Element]]


def in_lost(*names: str) -> Names:
    """Names by the tags that elements of LoST have."""
    return {IN_LOST + name: name for name in names}


PROFILES = (GEODETIC, CIVIC, TOKEN)
BOUNDARIES = ("reference", "value")
NONE, IN_PATH = in_lost(), in_lost("via")
# The requests, and the elements that each may have.
KINDS = {
    IN_LOST + FIND: (FIND, in_lost("location", "service", "path")),
    IN_LOST + SERVICES_BY_LOCATION: (SERVICES_BY_LOCATION, in_lost("location", "service", "path")),
    IN_LOST + SERVICES: (SERVICES, in_lost("service", "path")),
    IN_LOST + BOUNDARY: (BOUNDARY, in_lost("path")),
}


class NoRequest(Exception):
    """Why a document is none of the four requests: the element, what was found in it, and what is allowed."""


class Manner(NamedTuple):
    """How requests are read: what areas are, refused, asked for by their centre or by what covers them, and what services are called."""

    areas: str
    services: Services


REFUSED, BY_CENTRE, BY_COVER = "refuse", "centre", "cover"


class Place(NamedTuple):
    """A location as an item of a line, the name of the area that it is, why its content is not readable, and the area itself,
    where not its centre stands for it."""

    item: Dict[str, Any]
    area: Optional[str] = None
    fault: Optional[str] = None
    shape: Optional[Area] = None


class Request(NamedTuple):
    """A request: the members of its line, what the client said of its service, the places, and which of them is used.

    `earlier` are the first servers of a path that is longer than the server behind takes.
    """

    kind: str
    members: Dict[str, Any]
    asked: Optional[Asked] = None
    places: Tuple[Place, ...] = ()
    used: Optional[Place] = None
    earlier: Tuple[str, ...] = ()

    def is_unserved(self) -> bool:
        """Whether the server behind can't have the service that is asked for."""
        return self.asked.behind is None if self.asked else self.kind == FIND

    def area(self) -> Optional[Area]:
        """The area of which what covers it is to be found, and not only its centre."""
        used = self.used
        is_known = used is not None and used.item.get("srsName", WGS84) == WGS84
        return used.shape if used and is_known and not self.is_unserved() else None

    def line_members(self) -> Tuple[str, Dict[str, Any]]:
        """The kind and the members of the line that goes out."""
        if not self.is_unserved():
            return self.kind, self.members
        names = ("location", "path")
        kind = SERVICES if self.kind == SERVICES else SERVICES_BY_LOCATION
        return kind, {name: self.members[name] for name in names if name in self.members}


def collapsed(text: str) -> str:
    """A text as a token of XML: no white space at its ends, and one space for each run inside."""
    # (of ASCII, XML has no other characters that `split` takes for white space)
    return " ".join(text.split()) if text.isascii() else SPACE.sub(" ", text.strip(WHITE_SPACE))


def plain_text(element: ElementTree.Element) -> str:
    """The text of an element that has no elements in it."""
    if len(element):
        raise NoRequest(f"{local(element.tag)} has the element {local(element[0].tag)} in it; only text is allowed there")
    return element.text or ""


def children(element: ElementTree.Element, names: Names) -> Parts:
    """The elements of LoST in an element, by their names; those of other namespaces are extensions, and ignored."""
    found: Parts = {}
    for child in element:
        name = names.get(child.tag)
        if name is not None:
            found.setdefault(name, []).append(child)
        elif child.tag.startswith(IN_LOST):
            allowed = f"may have {listed(names.values())}" if names else "may have no element of LoST"
            raise NoRequest(f"{local(element.tag)} has the element {local(child.tag)}; it {allowed}")
    return found


def at_most_one(parts: Parts, name: str) -> Optional[ElementTree.Element]:
    """The element of a name, where there is one."""
    found = parts.get(name)
    if found is None:
        return None
    if len(found) > 1:
        raise NoRequest(f"the element {name} stands there {len(found)} times; one is allowed")
    return found[0]


def attribute(element: ElementTree.Element, name: str) -> str:
    """An attribute that must be there."""
    value = element.get(name)
    if value is None:
        raise NoRequest(f"the element {local(element.tag)} has no attribute {name}, which it must have")
    return value


def read_path(path: ElementTree.Element) -> List[str]:
    """The servers that the request passed through."""
    return [attribute(via, "source") for via in children(path, IN_PATH).get("via", [])]


def read_address(location: ElementTree.Element) -> Dict[str, str]:
    """The elements of the one address of a location; those of other namespaces have their namespace in their names."""
    addresses = location.findall(named(CIVIC_ADDRESS, "civicAddress"))
    if len(addresses) != 1:
        raise Unreadable(f"it has {len(addresses)} elements civicAddress of {CIVIC_ADDRESS}; it must have one")
    pairs: Dict[str, str] = {}
    for element in addresses[0]:
        name = element.tag[len(IN_CIVIC) :] if element.tag.startswith(IN_CIVIC) else element.tag
        if name in pairs:
            raise Unreadable(f"civicAddress has the element {local(name)} twice; once is allowed")
        if len(element) or not element.tag.startswith("{"):
            cause = "has elements in it; only text is allowed there" if len(element) else f"is of no namespace; it must be of {CIVIC_ADDRESS}"
            raise Unreadable(f"the element {local(name)} of civicAddress {cause}")
        pairs[name] = element.text or ""
    return pairs


def read_token(location: ElementTree.Element) -> str:
    """The one token of a location, as it is written."""
    tokens = location.findall(named(GATEWAY, "token"))
    if len(tokens) != 1 or len(tokens[0]):
        raise Unreadable(f"it has {len(tokens)} elements token of {GATEWAY}; it must have one, with only text in it")
    return tokens[0].text or ""


def read_point(location: ElementTree.Element, item: Dict[str, Any], areas: str) -> Tuple[Optional[str], Optional[Area]]:
    """Puts a point, or the centre of an area, into a location's item; the name of the area, and the area."""
    shape = shape_of(location)
    system = system_of(shape)
    if system is not None:
        item["srsName"] = system
    if shape.tag == POINT:
        item["pos"] = list(place_of(shape))
        return None, None
    if areas == REFUSED:
        raise Unreadable(f"it is a {local(shape.tag)}; this gateway takes only a Point")
    if areas == BY_COVER:
        area = area_of(shape)
        item["pos"] = list(area.centre)
        return area.name, area if area.can_be_drawn() else None
    item["pos"] = list(CENTRES[shape.tag](shape))
    return local(shape.tag), None


def read_location(location: ElementTree.Element, areas: str) -> Place:
    """A location; content that is not readable is left out of its item."""
    children(location, NONE)
    item: Dict[str, Any] = {"id": attribute(location, "id"), "profile": location.get("profile", "").strip(WHITE_SPACE)}
    area = shape = None
    try:
        if item["profile"] == GEODETIC:
            area, shape = read_point(location, item, areas)
        elif item["profile"] == CIVIC:
            item["address"] = read_address(location)
        elif item["profile"] == TOKEN:
            item["token"] = read_token(location)
    except Unreadable as error:
        return Place(item, None, str(error))
    return Place(item, area, None, shape)


def read_locations(parts: Parts, areas: str) -> Tuple[Place, ...]:
    """The locations of a request, in their order."""
    places = tuple(read_location(location, areas) for location in parts.get("location", ()))
    if not places:
        raise NoRequest("the request has no location; it must have at least one")
    profiles = [place.item["profile"] for place in places if place.item["profile"]]
    for profile in profiles:
        if profiles.count(profile) > 1:
            raise NoRequest(f"{profiles.count(profile)} locations are of the profile {shown(profile)}; one of each profile is allowed")
    return places


def sent_items(places: Tuple[Place, ...]) -> List[Dict[str, Any]]:
    """The items that go out: where they are more than the server behind takes, those of profiles that it knows, or the first.

    (It takes no two of one profile, and a location without a profile is of none that it knows.)
    """
    items = [place.item for place in places]
    known = [item for item in items if item["profile"] in PROFILES]
    has_several_without = sum(not item["profile"] for item in items) > 1
    return (known or items[:1]) if len(items) > MOST_LOCATIONS or has_several_without else items


def read_wishes(root: ElementTree.Element, members: Dict[str, Any]) -> None:
    """Puts the attributes of findService into its members; `recursive` is ignored."""
    validate = root.get("validateLocation")
    if validate is not None:
        if validate.strip(WHITE_SPACE) not in BOOLEANS:
            raise NoRequest(f"the attribute validateLocation is {shown(validate)}; it must be {listed(BOOLEANS, 'or')}")
        members["validateLocation"] = BOOLEANS[validate.strip(WHITE_SPACE)]
    boundary = root.get("serviceBoundary")
    if boundary is not None:
        if boundary.strip(WHITE_SPACE) not in BOUNDARIES:
            raise NoRequest(f"the attribute serviceBoundary is {shown(boundary)}; it must be {listed(BOUNDARIES, 'or')}")
        members["serviceBoundary"] = boundary.strip(WHITE_SPACE)


def place_used(places: Tuple[Place, ...]) -> Optional[Place]:
    """The first place of a profile that the server behind knows."""
    return next((place for place in places if place.item["profile"] in PROFILES), None)


def kind_of(root: ElementTree.Element) -> Tuple[str, Names]:
    """The kind of a request, and the elements that it may have."""
    found = KINDS.get(root.tag)
    if found is None:
        space = root.tag[1:].rpartition("}")[0] if root.tag.startswith("{") else ""
        allowed = f"a request is {listed(map(local, KINDS), 'or')} of {LOST}"
        raise NoRequest(f"the outermost element is {local(root.tag)} of {space or 'no namespace'}; {allowed}")
    return found


def read_request(root: ElementTree.Element, manner: Manner) -> Request:
    """The request of a document; NoRequest where it is none of the four."""
    kind, names = kind_of(root)
    parts = children(root, names)
    members: Dict[str, Any] = {}
    asked, places, earlier = None, (), ()
    service, path = at_most_one(parts, "service"), at_most_one(parts, "path")
    if service is not None:
        asked = manner.services.asked(collapsed(plain_text(service)))
        members["service"] = asked.behind
    if path is not None:
        servers = read_path(path)
        earlier, members["path"] = tuple(servers[:-MOST_SERVERS]), servers[-MOST_SERVERS:]
    if kind in (FIND, SERVICES_BY_LOCATION):
        places = read_locations(parts, manner.areas)
        members["location"] = sent_items(places)
    if kind == FIND:
        read_wishes(root, members)
    if kind == BOUNDARY:
        members["key"] = attribute(root, "key")
    return Request(kind, members, asked, places, place_used(places), earlier)
