"""Spoils the value of a line: a member that is missing, of another kind, at the bound of its rule or past it."""
from drawn_texts import odd_position
from places import CIVIC, ELEMENTS, GEODETIC, TOKEN
from samples import (
    HALVES, JUNK, LONG_VALUES, NO_IDS, NO_NUMBERS, NO_SERVICES, NO_SOURCES, NO_STAMPS, NUMBERS, ODD_IDS, ODD_SOURCES,
    ODD_URIS, POSITIONS, PROFILES, STAMPS, TOO_LONG_VALUES, UNKNOWN_ELEMENTS,
)

NO_WORDS = ["no-cache", "NO-CACHE ", "NO_CACHE", "NO-EXPIRATION\n", "NO-EXPIRATIO"]
ODD_TEXTS = {
    "source": NO_SOURCES + ODD_SOURCES,
    "sourceId": NO_IDS + ODD_IDS,
    "key": NO_IDS + ODD_IDS,
    "lastUpdated": NO_STAMPS + STAMPS,
    "expires": NO_STAMPS + STAMPS + NO_WORDS,
    "service": NO_SERVICES,
    "serviceNumber": NO_NUMBERS + NUMBERS,
    "default": [True, False],
}
REGIONS = "serviceBoundary"
MEMBERS = {
    "publish": [*ODD_TEXTS, "uri", "displayName", REGIONS, REGIONS, REGIONS],
    "withdraw": ["source", "sourceId", "lastUpdated"],
    "commit": ["member"],
    "findService": ["service", "location", "location", "location", "location", "validateLocation", REGIONS, "path"],
    "listServicesByLocation": ["service", "location", "location", "location", "path"],
    "listServices": ["service", "path"],
    "getServiceBoundary": ["key", "path"],
}
MEMBERS["replace"] = MEMBERS["publish"]
# Members of a mapping in the order of the codes that refuse them.
IN_ORDER = ["source", "sourceId", "lastUpdated", "expires", "service", "uri", "serviceNumber", REGIONS]
OTHER_NAMES = ["x", "publish", "commit", "findService", "", "listServices"]
WIDE_RING = [[900_000_000, -1_800_000_000], [-900_000_000, 1_800_000_000], [900_000_000, 1_800_000_000]]


def spoil_line(session, line):
    """Another value of a line, mostly with one member that is another."""
    dice = session.dice
    ((kind, described),) = line.items()
    way = dice.by_weight({"second": 3, "junk": 2, "no object": 4, "name": 2, "unknown": 5, "two": 6, "members": 84})
    if way == "second":
        return line | {dice.choice(OTHER_NAMES): dice.choice([*JUNK, {}])}
    if way == "junk":
        return dice.choice([*JUNK, [line], {}])
    if way == "no object":
        return {kind: dice.choice(JUNK)}
    if way == "name":
        return {dice.choice([kind.upper(), kind + " ", "x", "", "Commit", "findservice"]): described}
    if way == "unknown":
        return {kind: described | {dice.choice(["x", "A1", "Service", "", "é"]): dice.choice(JUNK)}}
    if way == "two" and kind in ("publish", "replace"):
        return {kind: described | two_in_order(session, kind, described)}
    spoiled = dict(described)
    for _ in range(dice.choice([1, 1, 1, 1, 2, 3, 8])):
        spoil_member(session, kind, spoiled)
    return {kind: spoiled}


def two_in_order(session, kind, described):
    """Odd values of two members whose codes come one after the other."""
    place = session.dice.randrange(len(IN_ORDER) - 1)
    return {name: odd_member(session, kind, name, described.get(name)) for name in IN_ORDER[place : place + 2]}


def spoil_member(session, kind, described):
    """Takes a member away, or gives it another value."""
    dice = session.dice
    name = dice.choice(MEMBERS[kind])
    way = dice.by_weight({"none": 15, "null": 8, "junk": 14, "odd": 63})
    if way == "none":
        described.pop(name, None)
    elif way == "odd":
        described[name] = odd_member(session, kind, name, described.get(name))
    else:
        described[name] = dice.choice(JUNK) if way == "junk" else None


def odd_member(session, kind, name, old):
    """A value of a member at the bound of its rule or past it."""
    dice = session.dice
    if name == "uri":
        return odd_uris(dice, old)
    if name == "displayName":
        return odd_display_names(dice)
    if name == "path":
        return [*session.requests.path(), dice.choice(JUNK)] if dice.chance(0.5) else session.requests.path()
    if name == REGIONS and kind == "findService":
        return dice.choice(["Value", "REFERENCE", "", "value ", "reference"])
    if name == REGIONS:
        return odd_regions(session, old)
    if name == "location":
        return odd_locations(session, old)
    return dice.choice(ODD_TEXTS.get(name, JUNK))


def odd_uris(dice, old):
    """URIs of which one is odd, none, about as many as there may be, and a scheme twice."""
    uris = old if isinstance(old, list) else ["sip:x"]
    way = dice.by_weight({"odd": 4, "none": 1, "many": 2, "twice": 1, "junk": 2})
    if way == "none":
        return []
    if way == "many":
        return [f"s{number}:x" for number in range(dice.choice([15, 16, 17]))]
    if way == "twice":
        return [*uris, "sip:y", "SIP:z"]
    return [*uris, dice.choice(ODD_URIS if way == "odd" else JUNK)]


def odd_display_names(dice):
    """Display names that are as many or as long as they may be, more or longer, or of other kinds."""
    usual = {"lang": "en", "text": "x"}
    way = dice.by_weight({"many": 3, "long": 3, "kind": 2, "missing": 1, "junk": 1})
    if way == "many":
        return [usual] * dice.choice([15, 16, 17])
    if way == "junk":
        return [usual, dice.choice(JUNK)]
    name = dice.choice(["lang", "text"])
    if way == "missing":
        return [{name: "x"}]
    long_texts = ["x" * 1024, "x" * 1025, "é" * 512, "é" * 512 + "x"]
    return [usual | {name: dice.choice(long_texts if way == "long" else JUNK)}]


def odd_regions(session, old):
    """Regions of which one is odd, or of which there are too many."""
    dice = session.dice
    regions = list(old) if old and isinstance(old, list) else [session.edits.region(), session.edits.region()]
    place = dice.randrange(len(regions))
    region = regions[place]
    if not isinstance(region, dict):
        return [session.edits.region()]
    way = dice.by_weight({"junk": 8, "profile": 6, "kind": 6, "missing": 4, "many": 4, "odd": 72})
    if way == "many":
        return regions + [region] * dice.choice([63, 64, 65, 255, 256, 257])
    if way == "junk":
        regions[place] = dice.choice(JUNK)
    elif way == "profile":
        regions[place] = region | {"profile": dice.choice([CIVIC, GEODETIC, TOKEN, *PROFILES, None, 1, []])}
    elif way == "kind":
        regions[place] = region | {dice.choice(["polygon", "pattern", "tokens"]): dice.choice(JUNK)}
    elif way == "missing":
        regions[place] = {"profile": region.get("profile")}
    else:
        regions[place] = odd_region(session)
    return regions


def odd_region(session):
    """A region whose ring, pattern or token set is odd."""
    kind = session.dice.by_weight({GEODETIC: 5, CIVIC: 4, TOKEN: 3})
    if kind == GEODETIC:
        return {"polygon": odd_ring(session), "profile": GEODETIC}
    if kind == TOKEN:
        return {"profile": TOKEN, "tokens": odd_tokens(session)}
    return {"pattern": odd_pattern(session), "profile": CIVIC}


def odd_ring(session):
    """A ring that is open, too short, as long as it may be or longer, or has an odd position; some of it as text."""
    dice, ring = session.dice, session.ground.new_ring()
    way = dice.by_weight({"text": 25, "open": 25, "short": 15, "closed": 10, "position": 30, "ends": 5, "long": 5, "wide": 10})
    if way == "text":
        place = dice.randrange(len(ring))
        ring[place] = odd_position(dice, ring[place])
        return ring
    odd = odd_ring_of_pairs(dice, ring, way)
    return [session.ground.spelled(position) if position in ring else position for position in odd]


def odd_ring_of_pairs(dice, ring, way):
    """A ring that is odd in a way."""
    if way == "open":
        return dice.choice([ring[:-1], [*ring[:-1], [ring[0][0], ring[0][1] + 1]]])
    if way == "short":
        return ring[: dice.randint(0, 4)]
    if way == "closed":
        return [ring[0], *ring[1 : dice.randint(1, 3)], ring[0]]
    if way == "position":
        place = dice.randrange(len(ring))
        return [*ring[:place], dice.choice(JUNK + POSITIONS), *ring[place + 1 :]]
    if way == "ends":
        position = dice.choice(POSITIONS)
        return [position, *ring[1:-1], position]
    if way == "long":
        middle = [[number % 7, number % 11] for number in range(dice.choice([4093, 4094, 4095]))]
        return [ring[0], *middle, ring[0]]
    return [*WIDE_RING, WIDE_RING[0]]


def odd_pattern(session):
    """A pattern that is empty, too long, or has an odd name or value."""
    dice = session.dice
    pattern = session.town.pattern()
    way = dice.choice(["empty", "name", "long value", "kind", "all", "many"])
    if way == "empty":
        return {}
    if way == "all":
        return {name: "x" for name in ELEMENTS}
    if way == "many":
        return {f"e{number}": "v" for number in range(dice.choice([128, 129]))}
    if way == "name":
        return pattern | {dice.choice(UNKNOWN_ELEMENTS): "x"}
    return pattern | {dice.choice(ELEMENTS): dice.choice(JUNK if way == "kind" else TOO_LONG_VALUES + LONG_VALUES)}


def odd_tokens(session):
    """A set that is empty, about as large as it may be, has a token twice, or an odd one."""
    dice, tokens = session.dice, session.tokens.token_set()
    way = dice.by_weight({"empty": 1, "many": 4, "twice": 4, "text": 8, "kind": 3})
    if way == "empty":
        return []
    if way == "many":
        return session.tokens.many(dice.choice([63, 64, 65, 66]))
    if way == "twice":
        return dice.choice([[*tokens, tokens[0]], [tokens[-1], *tokens], [tokens[0]] * 65])
    odd = dice.choice(NO_IDS + ODD_IDS + HALVES if way == "text" else JUNK)
    place = dice.randint(0, len(tokens))
    return [*tokens[:place], odd, *tokens[place:]]


def odd_locations(session, old):
    """Locations of which one is odd, or stands twice."""
    dice = session.dice
    locations = list(old) if old and isinstance(old, list) else session.requests.locations()
    place = dice.randrange(len(locations))
    location = locations[place]
    if not location or not isinstance(location, dict):
        return [session.requests.location()]
    way = dice.by_weight({"junk": 8, "kind": 17, "missing": 10, "twice": 7, "content": 58})
    if way == "twice":
        return [*locations, location]
    if way == "junk":
        locations[place] = dice.choice(JUNK)
    elif way == "kind":
        locations[place] = location | {dice.choice(["id", "profile", "srsName", "pos", "address", "token"]): dice.choice(JUNK)}
    elif way == "missing":
        name = dice.choice(list(location))
        locations[place] = {other: location[other] for other in location if other != name}
    else:
        locations[place] = location | odd_content(session, location)
    return locations


def odd_content(session, location):
    """An odd position, an odd address or an odd token; now and then all as it is, under the name of another profile."""
    dice = session.dice
    if dice.chance(0.08):
        return {"profile": dice.choice([GEODETIC, CIVIC, TOKEN, *PROFILES])}
    if "token" in location:
        return {"token": dice.choice(NO_IDS + ODD_IDS + HALVES + JUNK)}
    if "address" not in location:
        if dice.chance(0.7):
            return {"pos": odd_position(dice, session.ground.point())}
        return {"pos": dice.choice(POSITIONS)}
    address = session.town.address()
    way = dice.choice(["empty", "kind", "unknown", "null", "long"])
    if way == "empty":
        return {"address": {}}
    if way == "unknown":
        return {"address": {dice.choice(UNKNOWN_ELEMENTS): "x"}}
    if way == "long":
        return {"address": session.town.long_address(address)}
    name = dice.choice(ELEMENTS + UNKNOWN_ELEMENTS)
    return {"address": address | {name: None if way == "null" else dice.choice(JUNK)}}
