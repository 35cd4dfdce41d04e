"""Requests that ask a map of districts, by kinds."""
import random

from maps import SIDE, SOUTH, STRAY, WEST, write_line

# How far a city reaches, in sides of a district: two of three points are no farther from its middle in each direction.
CITY = 1.5


class Questions:
    """Draws requests over a land; the same ones at each run."""

    def __init__(self, land, seed=1):
        self.land = land
        self.dice = random.Random(seed)

    def anywhere(self):
        """A point of any district, however its sides stray."""
        row, column = self.land.place(self.dice.randrange(self.land.mappings // len(self.land.services)))
        inside = lambda: self.dice.randint(STRAY, SIDE)
        return [SOUTH + row * SIDE + inside(), WEST + column * SIDE + inside()]

    def in_a_city(self):
        """A point around the middle of the land, the more often the nearer."""
        spread = lambda lines: int((lines / 2 + self.dice.gauss(0, CITY)) * SIDE)
        return [SOUTH + spread(self.land.rows), WEST + spread(self.land.columns)]

    def hot(self):
        """One and the same point."""
        row, column = self.land.place(self.land.districts // 2)
        return [SOUTH + row * SIDE + SIDE // 2, WEST + column * SIDE + SIDE // 2]

    def service(self):
        """One of the land's services."""
        return self.dice.choice(self.land.services)

    def find(self, location, **more):
        """Asks for a service at a location."""
        return write_line({"findService": {"location": [location], "service": self.service(), **more}})

    def point(self, pos):
        """A location of a point."""
        return {"id": "p", "pos": pos, "profile": "geodetic-2d"}

    def address(self):
        """A location of an address in a town of the land."""
        town = self.dice.randrange(self.land.districts)
        pairs = {"A1": "NJ", "A3": f"Town {town}", "HNO": "5", "RD": "Broad", "country": "US"}
        return {"address": pairs, "id": "a", "profile": "civic"}

    def by_value(self):
        """Asks for the boundary too, of any district."""
        return self.find(self.point(self.anywhere()), serviceBoundary="value")

    def services_at(self):
        """Asks for the services of a point."""
        return write_line({"listServicesByLocation": {"location": [self.point(self.anywhere())], "service": "urn:service:sos"}})

    def services(self):
        """Asks for all services."""
        return write_line({"listServices": {"service": "urn:service:sos"}})

    def boundary(self):
        """Asks for the boundary of a key."""
        return write_line({"getServiceBoundary": {"key": f"K-{self.dice.randrange(self.land.mappings)}"}})

    def mixed(self):
        """Of 20 requests 12 at points, 3 of addresses, one by value, one validated, and one of each other kind."""
        return getattr(self, KINDS[self.dice.choice(MIXED)])()

    def at_anywhere(self):
        """Asks at a point of any district."""
        return self.find(self.point(self.anywhere()))

    def at_a_city(self):
        """Asks at a point around the middle."""
        return self.find(self.point(self.in_a_city()))

    def at_hot(self):
        """Asks at the one point."""
        return self.find(self.point(self.hot()))

    def at_an_address(self):
        """Asks for an address."""
        return self.find(self.address())

    def validated(self):
        """Asks for an address that is to be validated."""
        return self.find(self.address(), validateLocation=True)

    def lines(self, kind, count):
        """So many requests of a kind."""
        return b"".join(getattr(self, KINDS[kind])() for _ in range(count))


# The method that draws a request of each kind.
KINDS = {
    "anywhere": "at_anywhere", "city": "at_a_city", "hot": "at_hot", "addresses": "at_an_address", "validated": "validated",
    "by value": "by_value", "services at": "services_at", "services": "services", "boundary": "boundary", "mix": "mixed",
}
# A mix of 20.
MIXED = ["anywhere"] * 6 + ["city"] * 4 + ["hot"] * 2 + ["addresses"] * 3
MIXED += ["validated", "by value", "services at", "services", "boundary"]
# What the rows of the table say of them.
SHOWN = {
    "anywhere": "points all over the map", "city": "points around a city", "hot": "one hot point",
    "addresses": "addresses", "validated": "addresses, validated", "by value": "points, by value", "mix": "a mix of all kinds",
    "services at": "listServicesByLocation", "services": "listServices", "boundary": "getServiceBoundary",
}
