"""Streams of lines that are measured: a map, and kinds of requests that ask for it."""
import json
import math

SIDE = 10_000
LONGEST_LINE = 1_048_576
SERVICE = "urn:service:sos.police"
ADDRESS = {"country": "US", "A1": "NJ", "A3": "Leonia", "RD": "Fort Lee Road", "HNO": "5", "PC": "07605"}


def line(name, members):
    """A line of one object with one member."""
    return json.dumps({name: members}, separators=(",", ":"), ensure_ascii=False).encode()


def square(number):
    """The ring of a mapping's square, along a row of squares."""
    low, high = number * SIDE, (number + 1) * SIDE
    return [[0, low], [0, high], [SIDE, high], [SIDE, low], [0, low]]


def round_ring(vertices, lat=400_000_000, lon=0):
    """A ring of so many vertices about a point."""
    ring = [
        [int(lat + 50_000 * math.cos(turn)), int(lon + 50_000 * math.sin(turn))]
        for turn in (2 * math.pi * number / vertices for number in range(vertices))
    ]
    return [*ring, ring[0]]


def district(number):
    """The line that publishes a district of 20 to 400 vertices, beside those of other numbers."""
    row, column = divmod(number, 256)
    ring = round_ring(20 + number * 37 % 381, row * 110_000, column * 110_000)
    return publish(number, {"polygon": ring, "profile": "geodetic-2d"})


def left_to_the_tree(text):
    """A line with one member more, which is ignored and which only the reader of trees takes."""
    return text.replace(b'":{', b'":{"x":0.5,', 1)


def publish(number, region, service=SERVICE):
    """The line that publishes a mapping of one region."""
    return line("publish", {
        "expires": "NO-EXPIRATION", "key": f"K-{number}", "lastUpdated": "2025-12-01T00:00:00Z", "service": service,
        "serviceBoundary": [region], "source": "map.example", "sourceId": f"M-{number}",
        "uri": [f"sip:m{number}@map.example"],
    })


def squares(count):
    """A map of squares."""
    regions = [{"polygon": square(number), "profile": "geodetic-2d"} for number in range(count)]
    return [*(publish(number, region) for number, region in enumerate(regions)), line("commit", {})]


def towns():
    """A map of ten towns, by civic patterns, and the one that the address is in."""
    patterns = [{"country": "US", "A1": "NJ", "A3": f"Town {number}"} for number in range(9)]
    patterns.append({"country": "US", "A1": "NJ", "A3": "leonia"})
    regions = [{"pattern": pattern, "profile": "civic"} for pattern in patterns]
    return [*(publish(number, region) for number, region in enumerate(regions)), line("commit", {})]


def room(number, floor):
    """A token: a place by the name that the map gives it."""
    return f"building {number}, floor {floor}"


def floors(number, count):
    """A set of so many tokens."""
    return {"profile": "x-token", "tokens": [room(number, floor) for floor in range(count)]}


def buildings(count):
    """A map of buildings, by sets of six tokens."""
    return [*(publish(number, floors(number, 6)) for number in range(count)), line("commit", {})]


def large(vertices):
    """A map of ten squares and one ring of many vertices."""
    return [
        *squares(10)[:-1],
        publish(10, {"polygon": round_ring(vertices), "profile": "geodetic-2d"}),
        line("commit", {}),
    ]


def point(number):
    """A location in the middle of a mapping's square."""
    return {"id": "p", "pos": [SIDE // 2, number * SIDE + SIDE // 2], "profile": "geodetic-2d"}


def in_degrees(number):
    """The same location as decimal text."""
    lat, lon = (f"0.{units:07}" for units in point(number)["pos"])
    return point(number) | {"pos": f"{lat} {lon}"}


def token(number):
    """A location on a floor of a building."""
    return {"id": "t", "profile": "x-token", "token": room(number, 3)}


def asks(name, members):
    """One request, again and again."""
    asked = line(name, members)
    return lambda number: asked


def finds(mappings, more=None, location=point):
    """Requests for a place of each mapping in turn."""
    asked = [
        line("findService", {"location": [location(number)], "service": SERVICE} | (more or {})) for number in range(mappings)
    ]
    return lambda number: asked[number % mappings]


def kinds():
    """For each kind: its name, the map, the request of a number, and how many requests are timed."""
    address = {"id": "a", "address": ADDRESS, "profile": "civic"}
    found = {"location": [address], "service": SERVICE}
    center = {"id": "p", "pos": [400_000_000, 0], "profile": "geodetic-2d"}
    long_line = finds(1)(0).ljust(LONGEST_LINE)
    return [
        ("findService by point, 10 mappings", squares(10), finds(10), 100_000),
        ("findService by point, 100 mappings", squares(100), finds(100), 100_000),
        ("findService by point as text, 10 mappings", squares(10), finds(10, location=in_degrees), 100_000),
        ("findService by token, 10 mappings", buildings(10), finds(10, location=token), 100_000),
        ("findService by token, 100 mappings", buildings(100), finds(100, location=token), 100_000),
        ("findService by point, two locations and a path", squares(10), asks("findService", {
            "service": SERVICE, "location": [point(3), address], "path": ["a.example", "b.example"],
        }), 100_000),
        ("findService by address", towns(), asks("findService", found), 50_000),
        ("findService by address, validated", towns(), asks("findService", found | {"validateLocation": True}), 50_000),
        ("findService by value, 400 vertices", large(400), asks("findService", {
            "service": SERVICE, "location": [center], "serviceBoundary": "value",
        }), 20_000),
        ("listServicesByLocation by point", squares(10), asks("listServicesByLocation", {"location": [point(3)]}), 100_000),
        ("listServices, 10 mappings", squares(10), asks("listServices", {}), 100_000),
        ("getServiceBoundary", squares(10), asks("getServiceBoundary", {"key": "K-3"}), 100_000),
        ("falls back: a number that is not whole", squares(10), finds(10, {"x": 0.5}), 50_000),
        ("falls back: no request", squares(10), asks("findServices", {"location": [point(3)]}), 50_000),
        ("publish, 20 to 400 vertices", [], district, 6_000),
        ("publish, 64 tokens", [], lambda number: publish(number, floors(number, 64)), 6_000),
        ("publish, 20 to 400 vertices, falls back", [], lambda number: left_to_the_tree(district(number)), 6_000),
        ("lines of 1 MiB", squares(10), lambda number: long_line, 40),
    ]


def stream(before, request, count):
    """The bytes of a map and so many requests."""
    return b"".join(text + b"\n" for text in [*before, *(request(number) for number in range(count))])
