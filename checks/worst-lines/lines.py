"""Lines to begin a search for the slowest with, and how they are changed on the way."""
import json

from maps import MAPPINGS, SERVICE, STEP, line, pattern, publish, square, tokens

MOST_BYTES = 1_048_576
NEW = MAPPINGS + 7


def point(latitude, longitude):
    """A location that is a point."""
    return {"id": "p", "profile": "geodetic-2d", "pos": [latitude, longitude]}


def address(**pairs):
    """A location that is an address."""
    return {"id": "q", "profile": "civic", "address": pairs}


def token(name):
    """A location that is a token."""
    return {"id": "t", "profile": "x-token", "token": name}


def find(*locations, service=SERVICE, **more):
    """A question for a service at a place."""
    return {"findService": {"service": service, "location": list(locations), **more}}


def ring_of(count):
    """A ring of so many positions that holds the middle of the map."""
    half = count // 2
    west = [[number - half // 2, -STEP] for number in range(half)]
    return {"profile": "geodetic-2d", "polygon": [*west, *([at, STEP] for at, _ in reversed(west[: count - half - 1])), west[0]]}


def long_address(pairs, size):
    """An address of so many pairs of long texts, the known elements first."""
    known = "country A1 A2 A3 A4 A5 A6 PRM PRD RD STS POD POM HNO LMK FLR NAM PC BLD UNIT ROOM SEAT PLC PCN".split()
    names = [*known, *(f"e{number}".ljust(size, "x") for number in range(pairs))][:pairs]
    return address(**{name: "v" * size for name in names})


def questions():
    """Requests of all kinds."""
    middle, nowhere = point(STEP // 2, STEP // 2), point(899_000_000, 0)
    home = address(country="US", A1="NJ", A3="Leonia", RD="Street 7", HNO="1")
    deep = SERVICE + ".a.b.c.d.e.f"
    yield find(middle)
    yield find(nowhere)
    yield find(middle, service=deep)
    yield find(nowhere, service="urn:service:sos.fire")
    yield find(middle, serviceBoundary="value")
    yield find(home)
    yield find(home, validateLocation=True)
    yield find(home, service=deep, validateLocation=True)
    yield find(long_address(24, 512), validateLocation=True)
    yield find(long_address(128, 500), validateLocation=True)
    yield find(token("building 7, floor 3"))
    yield find(token("hall"), serviceBoundary="value")
    yield find(token("x" * 128), service=deep)
    yield find(middle, path=[f"h{number}.example" for number in range(32)])
    yield find(*({"id": f"u{number}", "profile": f"x{number}"} for number in range(7)), middle)
    yield {"listServicesByLocation": {"service": "urn:service:sos", "location": [middle]}}
    yield {"listServicesByLocation": {"location": [home]}}
    yield {"listServicesByLocation": {"location": [token("hall")]}}
    yield {"listServices": {"service": SERVICE}}
    yield {"listServices": {}}
    yield {"getServiceBoundary": {"key": "k77"}}
    yield {"getServiceBoundary": {"key": "no key"}}


def orders():
    """Desk lines, most of which are refused, so that they can be given again and again."""
    yield json.loads(publish(7, [square(0, 0, STEP)]))
    yield json.loads(publish(NEW, [square(0, 0, STEP)], key="k77"))
    yield json.loads(publish(NEW, [ring_of(4_096)] * 12, key="k77"))
    yield json.loads(publish(NEW, [pattern(A1=f"{number}" * 40, A3="x" * 500) for number in range(256)], key="k77"))
    yield json.loads(publish(NEW, [tokens(*(f"{number:0128}" for number in range(64)))] * 64, key="k77"))
    yield json.loads(publish(NEW, [square(0, 0, STEP)], key="k77", uri=[f"s{number}:{'x' * 4_000}" for number in range(16)]))
    yield {"replace": json.loads(publish(7, [ring_of(4_096)] * 12))["publish"]}
    yield {"replace": json.loads(publish(7, [square(5, 5, STEP)]))["publish"] | {"lastUpdated": "2026-01-01T00:00:00Z"}}
    yield {"withdraw": {"source": "map.example", "sourceId": "nobody", "lastUpdated": "2026-01-01T00:00:00Z"}}
    yield {"commit": {}}


def large():
    """Lines of about 1 MiB, most of which is skipped or refused."""
    question = find(point(0, 0))
    yield question | {"x": list(range(150_000))}
    yield question | {"x": "y" * 1_040_000}
    yield question | {"x": "é" * 500_000}
    yield question | {"x": {f"n{number}": 0 for number in range(70_000)}}
    yield find(point(0, 0), path=["h" * 32_000] * 32)
    yield json.loads(publish(NEW, [ring_of(4_096)] * 64, key="k77"))
    yield json.loads(publish(NEW, [square(0, 0, STEP)] * 9_000, key="k77"))
    yield json.loads(publish(NEW, [tokens(*(f"t{number}" for number in range(100_000)))], key="k77"))
    yield json.loads(publish(NEW, [tokens("t")] * 20_000, key="k77"))
    yield json.loads(publish(NEW, [square(0, 0, STEP)], key="k77", displayName=[{"lang": "en", "text": "x"}] * 30_000))
    yield json.loads(publish(NEW, [square(0, 0, STEP)], key="k77", uri=[f"s{number}:x" for number in range(60_000)]))


def street_lines(name):
    """Requests over a map of streets: what each asks, the most microseconds it may take, a part of its reply, and its line."""
    here = lambda **more: {"country": "US", "A1": "NJ", **more}
    more = {"A2": "Bergen", "A4": "North", "PRD": "N", "STS": "Road", "FLR": "2", "NAM": "Hall", "PC": "07605", "UNIT": "7", "ROOM": "3"}
    found, lost = b'"findServiceResponse"', b'"notFound"'
    if name == "county":
        street = here(A3="Town 77", RD="Street 7", HNO="5")
        asked = [
            ("a street of 566 towns", 20, found, street, False),
            ("a street of 566 towns, 14 elements", 20, found, street | more, False),
            ("a street of 566 towns, in none of them", 20, lost, here(A3="Nowhere", RD="Street 7", HNO="5"), False),
            ("a street of 566 towns, validated", 60, found, street, True),
            ("a street of 566 towns, 14 elements, validated", 60, found, street | more, True),
        ]
    else:
        elsewhere = here(A3="Elsewhere", RD="Lane 777", HNO="5")
        right = here(A3="Leonia", RD="Lane 777", HNO="5")
        other = lost if name == "lanes" else found
        asked = [
            (f"{name}: a street of 40,000", 20, found, right, False),
            (f"{name}: a street of 40,000, validated", 60, found, right, True),
            (f"{name}: in a wrong town", 400, other, elsewhere, False),
            (f"{name}: in a wrong town, validated", 400, other, elsewhere, True),
            (f"{name}: a wrong street", 400, other, here(A3="Leonia", RD="Lane", HNO="5"), False),
            (f"{name}: a wrong street, validated", 400, other, here(A3="Leonia", RD="Lane", HNO="5"), True),
        ]
    for title, most, want, pairs, is_validated in asked:
        yield title, most, want, line(find(address(**pairs), **({"validateLocation": True} if is_validated else {})))


def first_lines():
    """All lines to begin with, of at most 1 MiB."""
    lines = [line(value) for kind in (questions, orders, large) for value in kind()]
    return [text for text in lines if len(text) <= MOST_BYTES]


def grown(dice, value):
    """A value with a text that is longer, a list with more items, or another number."""
    if isinstance(value, str):
        return value * 2 if dice.random() < 0.5 and len(value) < 100_000 else value[: max(1, len(value) // 2)]
    if isinstance(value, bool) or value is None:
        return not value
    if isinstance(value, int):
        return dice.choice([0, STEP // 2, -STEP, 899_999_999, value + 1, -value])
    if isinstance(value, list) and value:
        return value + value[: max(1, 4_096 // len(value))] if dice.random() < 0.4 else changed_item(dice, value)
    if isinstance(value, dict) and value:
        return changed_member(dice, value)
    return value


def changed_item(dice, items):
    """A list with one item changed, or left out."""
    place = dice.randrange(len(items))
    rest = [] if dice.random() < 0.1 else [grown(dice, items[place])]
    return items[:place] + rest + items[place + 1 :]


def changed_member(dice, members):
    """An object with one member changed, left out, or new."""
    name = dice.choice(list(members))
    way = dice.random()
    if way < 0.1:
        return {other: members[other] for other in members if other != name}
    if way < 0.2:
        return members | {name + "x": members[name]}
    return members | {name: grown(dice, members[name])}


def changed(dice, text):
    """Another line like this one, of at most 1 MiB."""
    ((kind, described), *others) = json.loads(text).items()
    new = line({kind: grown(dice, described), **dict(others)})
    return new if len(new) <= MOST_BYTES else text
