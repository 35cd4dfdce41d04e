"""Maps of 65,536 mappings, as desk lines: usual ones, and the worst that a desk can make.

A usual map has few mappings that hold one place, few patterns that end in one pair, and few services.
"""
import json

MAPPINGS = 65_536
SIDE = 256
STEP = 1_000_000
SERVICE = "urn:service:sos.police"


def line(value):
    """A value as a line without blanks."""
    return json.dumps(value, separators=(",", ":"), ensure_ascii=False).encode()


def publish(number, regions, service=SERVICE, **more):
    """A publish of a mapping with a number; one with no regions is a default."""
    mapping = {
        "source": "map.example", "sourceId": f"m{number}", "lastUpdated": "2025-12-01T00:00:00Z",
        "expires": "NO-EXPIRATION", "service": service, "uri": [f"sip:m{number}@map.example"],
    }
    mapping |= {"serviceBoundary": regions, "key": f"k{number}"} if regions else {"default": True}
    return line({"publish": mapping | more})


def ring(*positions):
    """A region of a ring."""
    return {"profile": "geodetic-2d", "polygon": [*positions, positions[0]]}


def pattern(**pairs):
    """A region of a pattern."""
    return {"profile": "civic", "pattern": pairs}


def tokens(*names):
    """A region of a token set."""
    return {"profile": "x-token", "tokens": [*names]}


def square(south, west, side):
    """A square, by its corner and its side."""
    return ring([south, west], [south, west + side], [south + side, west + side], [south + side, west])


def corner(number):
    """The corner of a district."""
    return (number // SIDE - SIDE // 2) * STEP, (number % SIDE - SIDE // 2) * STEP


def districts(number):
    """Districts side by side: few of them hold a place."""
    return publish(number, [square(*corner(number), STEP)])


def towns(number):
    """Addresses by state and town: few patterns match an address."""
    return publish(number, [pattern(A1="NJ", A3=f"Town {number}")])


def buildings(number):
    """Tokens for the floors of a building."""
    return publish(number, [tokens(*(f"building {number}, floor {floor}" for floor in range(8)))])


def services(number):
    """Districts of eight services."""
    return publish(number, [square(*corner(number), STEP)], f"{SERVICE}.s{number % 8}")


def one_street(number):
    """Patterns whose last pair stands in 1,024 of them, and in an address; one of these matches it."""
    return publish(number, [pattern(A1="NJ", A3=f"Town {number // 64}", RD=f"Street {number % 64}")])


def own_services(number):
    """Districts, each with a service of its own below one service."""
    return publish(number, [square(*corner(number), STEP)], f"{SERVICE}.s{number}")


def one_place(number):
    """All mappings hold one place."""
    return publish(number, [square(-STEP - number, -STEP - number, 2 * STEP)])


def one_token(number):
    """All mappings hold one token."""
    return publish(number, [tokens(f"building {number}", "hall")])


def defaults(number):
    """All mappings are defaults of one service."""
    return publish(number, [])


def near_misses(number):
    """The bounds of all rings hold a place, and no ring does."""
    return publish(number, [ring([-STEP, -STEP - number], [-STEP, STEP], [STEP, STEP])])


def one_name(number):
    """All patterns have a last pair that an address has, and another pair that it has not."""
    return publish(number, [pattern(A1=f"State {number}", A3="Leonia")])


def deep_services(number):
    """All services are below one service, and begin with the same next label."""
    return publish(number, [square(*corner(number), STEP)], f"{SERVICE}.a.s{number}")


def county(number):
    """The streets of a county: 566 towns whose streets have the same 115 names."""
    return publish(number, [pattern(country="US", A1="NJ", A3=f"Town {number % 566}", RD=f"Street {number // 566}")])


def lanes(number):
    """The streets of one town, each with a name of its own."""
    return publish(number, [pattern(country="US", A1="NJ", A3="Leonia", RD=f"Lane {number}")])


def lanes_of_a_state(number):
    """The same beside one mapping for the whole state."""
    return publish(number, [pattern(country="US", A1="NJ")]) if number == 0 else lanes(number)


STREETS = {"county": (county, 65_000), "lanes": (lanes, 40_000), "lanes of a state": (lanes_of_a_state, 40_001)}
USUAL = {"districts": districts, "towns": towns, "buildings": buildings, "districts of eight services": services}
WORST = {
    "all over one place": one_place, "all with one token": one_token, "near misses of one place": near_misses, "near misses of one name": one_name,
    "1,024 towns with a street of one name": one_street, "all defaults of one service": defaults,
    "a service for each": own_services, "services below one child": deep_services,
}
