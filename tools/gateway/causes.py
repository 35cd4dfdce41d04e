"""The one cause of an error that the server behind names: which element, what was found in it, and what is allowed.

The server says the name of the error alone. The cause is found here by the rules of docs/PROTOCOL.md; where none is found,
the message is that of the name.
"""
from __future__ import annotations

from typing import Callable, Dict, List, Optional

from gateway.requests import PROFILES, Place, Request
from gateway.vocabulary import BOUNDARY, CIVIC, CIVIC_ORDER, GEODETIC, TOKEN, WGS84
from gateway.wording import listed, shown
from maptools.refusals import ERRORS
from maptools.texts import is_id, lowered, size

MOST_ELEMENTS, LONGEST_PART = 128, 512
BOUNDS = (("latitude", 90), ("longitude", 180))
UNITS_A_DEGREE = 10_000_000
NO_SERVICE = "findService has no element service, which names the service desired; it must name one that the server knows"


def cause(error: str, request: Request, server: str) -> str:
    """Why a request got an error from a server of this name."""
    find = CAUSES.get(error)
    found = find(request, server) if find else None
    return found or ERRORS[error]


def loop_cause(request: Request, server: str) -> Optional[str]:
    """The server of the path that this one is."""
    for number, source in enumerate(all_servers(request), 1):
        if lowered(source) == lowered(server):
            return f"via {number} of the path is {shown(source)}, which is this server; a request may not come here twice"
    return None


def all_servers(request: Request) -> List[str]:
    """The servers that a request passed through."""
    return [*request.earlier, *request.members.get("path", ())]


def profile_cause(request: Request, _: str) -> Optional[str]:
    """The profiles that nobody knows."""
    if request.used is not None or not request.places:
        return None
    profiles = [shown(place.item["profile"]) if place.item["profile"] else "no profile" for place in request.places]
    return f"the locations are of {listed(dict.fromkeys(profiles))}; one must be of {listed(PROFILES, 'or')}"


def located(request: Request, text: str) -> str:
    """A cause that is about the location used."""
    place = request.used
    number = next(number for number, one in enumerate(request.places, 1) if one is place)
    return f"location {number} (id {shown(place.item['id'] if place else '')}): {text}"


def system_cause(request: Request, _: str) -> Optional[str]:
    """The reference system that nobody knows."""
    system = request.used.item.get("srsName") if request.used else None
    if system is None or system == WGS84:
        return None
    return located(request, f"srsName is {shown(system)}; it must be {WGS84}, or another name of the same system")


def place_cause(request: Request, _: str) -> Optional[str]:
    """What is wrong with the location used."""
    if request.used is None:
        return None
    fault = request.used.fault or WRONG[request.used.item["profile"]](request.used)
    return located(request, fault) if fault else None


def wrong_point(place: Place) -> Optional[str]:
    """What is out of range in a position."""
    what = f"the centre of the {place.area}" if place.area else "pos"
    for (name, most), units in zip(BOUNDS, place.item["pos"]):
        if abs(units) > most * UNITS_A_DEGREE:
            return f"the {name} of {what} is {units / UNITS_A_DEGREE:.7g}; it must be from -{most} to {most}"
    return None


def wrong_address(place: Place) -> Optional[str]:
    """What an address has too much or too little of."""
    address: Dict[str, str] = place.item["address"]
    if len(address) > MOST_ELEMENTS:
        return f"civicAddress has {len(address)} elements; it may have {MOST_ELEMENTS}"
    for name, value in address.items():
        if size(name) > LONGEST_PART or size(value) > LONGEST_PART:
            return f"the element {shown(name)} of civicAddress has {max(size(name), size(value))} bytes; it may have {LONGEST_PART}"
    if not any(name in CIVIC_ORDER for name in address):
        return f"civicAddress has {listed(map(shown, address)) if address else 'no element'}; one must be of RFC 5139, such as country or A1"
    return None


def wrong_token(place: Place) -> Optional[str]:
    """What is wrong with a token."""
    token: str = place.item["token"]
    if is_id(token):
        return None
    return f"token is {shown(token)}, of {size(token)} bytes; it must have 1 to 128 bytes, and no control characters"


def not_found_cause(request: Request, _: str) -> Optional[str]:
    """The place or the key that no mapping has."""
    if request.kind == BOUNDARY:
        return f"no mapping has the key {shown(request.members['key'])}; ask findService again"
    if request.used is None or request.asked is None:
        return None
    return located(request, f"no mapping of {shown(request.asked.text)} or of a service above it holds it, and no default stands in")


def service_cause(request: Request, _: str) -> str:
    """The service that nobody has."""
    if request.asked is None:
        return NO_SERVICE
    found = f"service is {shown(request.asked.text)}"
    if request.asked.alias:
        found += f", which is {shown(request.asked.alias.ours + request.asked.text[len(request.asked.alias.theirs):])} here"
    if request.is_unserved():
        return f"{found}; it must be of urn:service: with 1 to 8 labels, or of a name that an alias maps to one"
    return f"{found}; no mapping has this service or one above it: listServices shows those that there are"


WRONG: Dict[str, Callable[[Place], Optional[str]]] = {GEODETIC: wrong_point, CIVIC: wrong_address, TOKEN: wrong_token}
CAUSES: Dict[str, Callable[[Request, str], Optional[str]]] = {
    "loop": loop_cause,
    "locationProfileUnrecognized": profile_cause,
    "SRSInvalid": system_cause,
    "locationInvalid": place_cause,
    "notFound": not_found_cause,
    "serviceNotImplemented": service_cause,
}
