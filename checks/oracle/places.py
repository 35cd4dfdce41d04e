"""The rules of places: points and rings, civic addresses and patterns, tokens and sets of them."""
import re
from typing import NamedTuple

from strict_json import in_byte_order
from texts import is_id, lowered, size

GEODETIC, CIVIC, TOKEN = "geodetic-2d", "civic", "x-token"
GREATEST_LATITUDE, GREATEST_LONGITUDE = 900_000_000, 1_800_000_000
ELEMENTS = (
    "country A1 A2 A3 A4 A5 A6 PRM PRD RD STS POD POM RDSEC RDBR RDSUBBR HNO HNS LMK LOC FLR "
    "NAM PC BLD UNIT ROOM SEAT PLC PCN POBOX ADDCODE"
).split()
WHITE_SPACE = re.compile(r"[\t-\r ]+")


class Point(NamedTuple):
    """A latitude and a longitude in whole 1e-7 degrees."""

    latitude: int
    longitude: int


class Place(NamedTuple):
    """A point, an address or a token, with the profile that says which."""

    profile: str
    content: object


def is_point(point):
    """Latitudes run from -900,000,000 to 900,000,000, longitudes from -1,800,000,000 to 1,800,000,000."""
    return abs(point.latitude) <= GREATEST_LATITUDE and abs(point.longitude) <= GREATEST_LONGITUDE


def normal(point):
    """The normal form takes longitude 1,800,000,000 at -1,800,000,000 and latitude 900,000,000 at 899,999,999."""
    latitude, longitude = point
    if longitude == GREATEST_LONGITUDE:
        longitude = -GREATEST_LONGITUDE
    if latitude == GREATEST_LATITUDE:
        latitude = GREATEST_LATITUDE - 1
    return Point(latitude, longitude)


def is_ring(ring):
    """A ring has 4 to 4,096 positions, all in range, and ends with the one that it begins with."""
    return 4 <= len(ring) <= 4096 and ring[0] == ring[-1] and all(map(is_point, ring))


def edges(ring):
    """An edge is two positions, one after the other."""
    return zip(ring, ring[1:])


def spans(low, high, point):
    """The latitude of the point lies from that of the low end up to before that of the high end."""
    return low.latitude <= point.latitude < high.latitude


def is_left(low, high, point):
    """The point lies left of the edge, and not on it."""
    east, north = point.longitude - low.longitude, point.latitude - low.latitude
    return east * (high.latitude - low.latitude) < (high.longitude - low.longitude) * north


def crosses(edge, point):
    """An edge crosses at a point that it spans and that is left of it; its low end has the lesser latitude."""
    low, high = edge if edge[0].latitude <= edge[1].latitude else edge[::-1]
    return spans(low, high, point) and is_left(low, high, point)


def inside(ring, point):
    """A point is inside a ring where an odd number of the ring's edges cross at its normal form."""
    at = normal(point)
    return sum(crosses(edge, at) for edge in edges(ring)) % 2 == 1


def is_known(name):
    """A name is known where it is one of the 31 civic elements, in exact case."""
    return name in ELEMENTS


def are_too_long(pairs):
    """An address and a pattern have at most 128 pairs, with names and values of at most 512 bytes."""
    return len(pairs) > 128 or any(size(text) > 512 for pair in pairs.items() for text in pair)


def is_address(pairs):
    """An address is not too long, and has a known element; unknown names beside it are accepted."""
    return not are_too_long(pairs) and any(map(is_known, pairs))


def is_pattern(pairs):
    """A pattern is not too long, and has known elements alone, at least one."""
    return not are_too_long(pairs) and len(pairs) > 0 and all(map(is_known, pairs))


def comparison_text(value):
    """Each run of the bytes 9 to 13 and 32 becomes one space, both ends are trimmed, ASCII letters are lowered."""
    return lowered(WHITE_SPACE.sub(" ", value).strip(" "))


def agrees(pattern, address, name):
    """A pattern and an address both have the name, with equal comparison texts."""
    both = name in pattern and name in address
    return both and comparison_text(pattern[name]) == comparison_text(address[name])


def matches(pattern, address):
    """A pattern matches an address where each name of the pattern stands in the address with an equal text."""
    return all(agrees(pattern, address, name) for name in pattern)


def ordered_names(names):
    """Names stand in the order of the elements, and then unknown ones by bytes."""
    known = [name for name in ELEMENTS if name in names]
    return known + in_byte_order(name for name in names if not is_known(name))


def is_token(token):
    """A token is a text that may be a sourceId."""
    return is_id(token)


def is_token_set(tokens):
    """A set has 1 to 64 tokens, none twice."""
    return 1 <= len(tokens) <= 64 and len(set(tokens)) == len(tokens) and all(map(is_token, tokens))


def contains(tokens, token):
    """A set contains a token that is one of its own, byte for byte."""
    return token in tokens
