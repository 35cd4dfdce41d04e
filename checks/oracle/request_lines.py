"""Reads request lines: findService, listServicesByLocation, listServices and getServiceBoundary."""
from typing import NamedTuple

from members import are_pairs, are_texts, member, only_member, position_of
from places import CIVIC, GEODETIC, TOKEN, Point
from texts import is_text, read_service

FIND = "findService"
SERVICES_BY_LOCATION = "listServicesByLocation"
SERVICES = "listServices"
BOUNDARY = "getServiceBoundary"
REFERENCE, VALUE = "reference", "value"
KNOWN_SYSTEM = "urn:ogc:def:crs:EPSG::4326"


class BadRequest(Exception):
    """A line that does not read as a request."""


class Location(NamedTuple):
    """A location; its body is a point, pairs, a token, or None for unreadable content."""

    id: str
    profile: str
    is_system_known: bool
    body: object


class Request(NamedTuple):
    """A request of one of four kinds; what its kind does not have is left as it is here."""

    kind: str
    path: list
    service: tuple = ()
    locations: tuple = ()
    validate: bool = False
    by_value: bool = False
    key: object = None


def need(is_so):
    """A member that is missing, of another kind or out of its bounds makes the line no request."""
    if not is_so:
        raise BadRequest


def read_request(line):
    """The request that a line says; BadRequest where it says none."""
    need(only_member(line) is not None)
    kind, asked = only_member(line)
    need(isinstance(asked, dict))
    path = read_path(asked)
    if kind == FIND:
        need(member(asked, "service") is not None)
        service, locations = read_asked_service(asked), read_locations(asked)
        return Request(kind, path, service, locations, read_validate(asked), read_by_value(asked))
    if kind == SERVICES_BY_LOCATION:
        return Request(kind, path, read_asked_service(asked), read_locations(asked))
    if kind == SERVICES:
        return Request(kind, path, read_asked_service(asked))
    need(kind == BOUNDARY and is_text(member(asked, "key")))
    return Request(kind, path, key=member(asked, "key"))


def read_path(asked):
    """A path is a list of at most 32 texts, and empty where it is absent."""
    path = member(asked, "path")
    if path is None:
        return []
    need(are_texts(path) and len(path) <= 32)
    return path


def read_asked_service(asked):
    """The service of a request; the service of no labels where it is absent."""
    text = member(asked, "service")
    if text is None:
        return ()
    need(is_text(text) and read_service(text) is not None)
    return read_service(text)


def read_validate(asked):
    """Validation is asked for by true; absent counts as false."""
    validate = member(asked, "validateLocation")
    need(validate is None or isinstance(validate, bool))
    return validate is True


def read_by_value(asked):
    """Boundaries are shown by reference, where the request does not ask for values."""
    shown = member(asked, "serviceBoundary")
    need(shown is None or shown in (REFERENCE, VALUE))
    return shown == VALUE


def read_locations(asked):
    """A request has 1 to 8 locations, no two of one profile."""
    items = member(asked, "location")
    need(isinstance(items, list) and 1 <= len(items) <= 8)
    locations = list(map(read_location, items))
    need(len({location.profile for location in locations}) == len(locations))
    return locations


def read_location(item):
    """A location is an object with the texts id and profile; its profile says what its body is read from."""
    need(isinstance(item, dict) and is_text(member(item, "id")) and is_text(member(item, "profile")))
    return Location(member(item, "id"), member(item, "profile"), is_system_known(item), read_body(item))


def is_system_known(item):
    """The reference system is known where it is absent, or is exactly the text of the one that is known."""
    return member(item, "srsName") in (None, KNOWN_SYSTEM)


def read_body(item):
    """A point is read from pos, an address from address and a token from token; None, unreadable, where they have another shape."""
    if member(item, "profile") == GEODETIC:
        position = position_of(member(item, "pos"))
        return position and Point(*position)
    if member(item, "profile") == CIVIC and are_pairs(member(item, "address")):
        return member(item, "address")
    if member(item, "profile") == TOKEN and is_text(member(item, "token")):
        return member(item, "token")
    return None
