"""The rules of mappings: what a desk hands in, which code refuses it, and what is live and holds a place."""
from typing import NamedTuple

from places import CIVIC, GEODETIC, TOKEN, contains, inside, is_pattern, is_ring, is_token_set, matches
from texts import are_uris, is_id, is_number, is_source, lowered, moment_of, read_service, size

WITHOUT_END = ("NO-CACHE", "NO-EXPIRATION")
CODE_NAMES = (
    "BadLine BadSource BadSourceId BadStamp BadExpires BadService BadUri BadNumber BadRegion RegionMissing TooLarge "
    "BadKey IdentityHeld IdentityUnknown NotNewer KeyHeld KeyUnchanged Full EditsSpent Memory Withdrawn TracesFull NotKept"
).split()


class Refused(Exception):
    """A desk line or an edit is refused, with a code."""

    def __init__(self, code):
        super().__init__(code)
        self.code = code


class Region(NamedTuple):
    """The positions of a ring, the pairs of a pattern, or the tokens of a set, with the profile that says which."""

    profile: str
    content: object


class Parts(NamedTuple):
    """The plain fields of a publish or a replace, before any rule of codes 2 to 12 is checked."""

    source: str
    source_id: str
    last_updated: str
    expires: str
    service: str
    uris: list
    number: object
    regions: list
    is_default: bool
    display_names: list
    key: object


class Mapping(NamedTuple):
    """A mapping: parts that are not refused."""

    identity: tuple
    last_updated: str
    expires: str
    service: tuple
    uris: list
    number: object
    polygons: list
    patterns: list
    token_sets: list
    is_default: bool
    display_names: list
    key: object


def identity_of(source, source_id):
    """The identity of a mapping is its source, in lower case, and its sourceId."""
    return lowered(source), source_id


def is_expires(text):
    """When a mapping expires is one of two words, or a stamp."""
    return text in WITHOUT_END or moment_of(text) is not None


def is_region(region):
    """A region is a ring, a pattern or a token set that is not refused; an unreadable one, None, is no region."""
    if region is None:
        return False
    if region.profile == GEODETIC:
        return is_ring(region.content)
    return is_pattern(region.content) if region.profile == CIVIC else is_token_set(region.content)


def of_profile(regions, profile):
    """The rings, the patterns or the token sets among regions, in the order given."""
    return [region.content for region in regions if region.profile == profile]


def has_regions_as_due(parts):
    """A default has no region, and any other mapping has at least one."""
    return parts.is_default == (not parts.regions)


def is_too_large(parts):
    """At most 64 polygons, 256 patterns, 64 token sets and 16 display names, whose languages and texts have at most 1,024 bytes."""
    polygons, patterns, token_sets = (len(of_profile(parts.regions, profile)) for profile in (GEODETIC, CIVIC, TOKEN))
    if polygons > 64 or patterns > 256 or token_sets > 64 or len(parts.display_names) > 16:
        return True
    return any(size(text) > 1024 for display_name in parts.display_names for text in display_name)


def has_key_as_due(parts):
    """A default has no key, and any other mapping has one."""
    if parts.is_default:
        return parts.key is None
    return parts.key is not None and is_id(parts.key)


def faults(parts):
    """The codes of the rules that the parts break, in the order of the codes; the first refuses them."""
    if not is_source(parts.source):
        yield 2
    if not is_id(parts.source_id):
        yield 3
    if moment_of(parts.last_updated) is None:
        yield 4
    if not is_expires(parts.expires):
        yield 5
    if read_service(parts.service) is None:
        yield 6
    if not are_uris(parts.uris):
        yield 7
    if parts.number is not None and not is_number(parts.number):
        yield 8
    if not all(map(is_region, parts.regions)):
        yield 9
    if not has_regions_as_due(parts):
        yield 10
    if is_too_large(parts):
        yield 11
    if not has_key_as_due(parts):
        yield 12


def build(parts):
    """The mapping of parts: source and service in lower case, regions by their kinds, and all else as given."""
    for code in faults(parts):
        raise Refused(code)
    return Mapping(
        identity_of(parts.source, parts.source_id),
        parts.last_updated,
        parts.expires,
        read_service(parts.service),
        parts.uris,
        parts.number,
        of_profile(parts.regions, GEODETIC),
        of_profile(parts.regions, CIVIC),
        of_profile(parts.regions, TOKEN),
        parts.is_default,
        parts.display_names,
        parts.key,
    )


def is_live(mapping, moment):
    """A mapping is live where its expires is one of the two words, or an instant after the moment."""
    return mapping.expires in WITHOUT_END or moment_of(mapping.expires) > moment


def holds(mapping, place):
    """A mapping holds a point inside a polygon of it, an address that a pattern of it matches, and a token in a set of it."""
    if place.profile == GEODETIC:
        return any(inside(ring, place.content) for ring in mapping.polygons)
    if place.profile == CIVIC:
        return any(matches(pattern, place.content) for pattern in mapping.patterns)
    return any(contains(tokens, place.content) for tokens in mapping.token_sets)
