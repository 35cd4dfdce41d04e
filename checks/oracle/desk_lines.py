"""Reads desk lines: publish, replace, withdraw and commit."""
from book import PUBLISH, REPLACE, WITHDRAW, Edit
from mappings import Parts, Refused, Region, build, identity_of
from members import are_pairs, are_texts, member, only_member, position_of
from places import CIVIC, GEODETIC, TOKEN, Point
from texts import is_id, is_source, is_text, moment_of

COMMIT = "commit"


def is_desk_line(line):
    """A desk line is an object with exactly one member, named by one of four words, whatever its value."""
    only = only_member(line)
    return only is not None and only[0] in (PUBLISH, REPLACE, WITHDRAW, COMMIT)


def read_desk_line(line):
    """The edit that a desk line says, None for a commit; Refused with a code from 1 to 12 where it is refused."""
    kind, described = only_member(line)
    of_kind(isinstance(described, dict))
    if kind == COMMIT:
        return None
    if kind == WITHDRAW:
        return read_withdrawal(described)
    mapping = build(read_parts(described))
    return Edit(kind, mapping.identity, moment_of(mapping.last_updated), mapping)


def of_kind(is_so):
    """Code 1 refuses a required member that is missing and a member of another kind, before every other check."""
    if not is_so:
        raise Refused(1)


def required_text(described, name):
    """A member that must be there, as a text."""
    of_kind(is_text(member(described, name)))
    return member(described, name)


def optional(described, name, kind, absent):
    """A member of a kind that may be absent."""
    value = member(described, name)
    if value is None:
        return absent
    of_kind(isinstance(value, kind))
    return value


def read_withdrawal(described):
    """A withdrawal names an identity and a stamp; their faults are codes 2, 3 and 4."""
    source, source_id, stamp = (required_text(described, name) for name in ("source", "sourceId", "lastUpdated"))
    if not is_source(source):
        raise Refused(2)
    if not is_id(source_id):
        raise Refused(3)
    if moment_of(stamp) is None:
        raise Refused(4)
    return Edit(WITHDRAW, identity_of(source, source_id), moment_of(stamp))


def read_uris(described):
    """The URIs are a list of texts, which must be there."""
    of_kind(are_texts(member(described, "uri")))
    return member(described, "uri")


def read_display_names(described):
    """Display names are a list of objects, each with the texts lang and text."""
    items = optional(described, "displayName", list, [])
    of_kind(all(isinstance(item, dict) for item in items))
    return [(required_text(item, "lang"), required_text(item, "text")) for item in items]


def read_region(item):
    """The region that an item says, by its profile; None, unreadable, where it has another shape or profile."""
    profile = member(item, "profile") if isinstance(item, dict) else None
    if profile == GEODETIC:
        items = member(item, "polygon")
        positions = list(map(position_of, items)) if isinstance(items, list) else [None]
        if None not in positions:
            return Region(GEODETIC, [Point(*position) for position in positions])
    if profile == CIVIC and are_pairs(member(item, "pattern")):
        return Region(CIVIC, member(item, "pattern"))
    if profile == TOKEN and are_texts(member(item, "tokens")):
        return Region(TOKEN, member(item, "tokens"))
    return None


def read_parts(described):
    """The parts of a mapping that is published or replaces one."""
    return Parts(
        required_text(described, "source"),
        required_text(described, "sourceId"),
        required_text(described, "lastUpdated"),
        required_text(described, "expires"),
        required_text(described, "service"),
        read_uris(described),
        optional(described, "serviceNumber", str, None),
        list(map(read_region, optional(described, "serviceBoundary", list, []))),
        optional(described, "default", bool, False),
        read_display_names(described),
        optional(described, "key", str, None),
    )
