"""The kinds of requests, and the two maps that they ask: districts of one service, and roads."""
import os
import random
from typing import NamedTuple

from maps import PUBLISHED, SIDE, SOUTH, Land, write_line
from questions import Questions

POLICE, FIRE, PHYSICIAN = "urn:service:sos.police", "urn:service:sos.fire", "urn:service:physician"
COMMIT = write_line({"commit": {}})
DEFAULT = write_line({"publish": {
    "default": True, "expires": "NO-EXPIRATION", "lastUpdated": PUBLISHED, "service": FIRE, "source": "map.example", "sourceId": "standby",
    "uri": ["sip:standby@map.example"],
}})


class Kind(NamedTuple):
    """A kind of request: its words, the method that draws one, and a text that each reply to it has, and no other reply."""

    words: str
    method: str
    mark: bytes


class Districts(Land):
    """So many districts of the police, with a default of the fire brigade."""

    kinds = [
        Kind("findService, found", "at_anywhere", b'"service":"urn:service:sos.police","serviceBoundaryReference":'),
        Kind("not found", "not_found", b'"error":"notFound"'),
        Kind("service not served", "not_served", b'"error":"serviceNotImplemented"'),
        Kind("answered by a default", "by_default", b'"warnings":["defaultMappingReturned"]'),
        Kind("listServices", "services", b'{"listServicesResponse":{"edition":'),
        Kind("listServicesByLocation", "services_at", b'{"listServicesByLocationResponse":{"edition":'),
        Kind("getServiceBoundary", "boundary", b'"serviceBoundary":[{"polygon":[['),
    ]

    def __init__(self, mappings):
        super().__init__(mappings, [POLICE])

    def requests(self, kind, count):
        """So many requests of a kind, the same ones at each call."""
        drawn = OfDistricts(self)
        return b"".join(getattr(drawn, kind.method)() for _ in range(count))


class OfDistricts(Questions):
    """Draws requests over districts."""

    def not_found(self):
        """Asks for a point below the map."""
        _, lon = self.anywhere()
        return self.find(self.point([SOUTH - self.dice.randint(1, SIDE), lon]))

    def not_served(self):
        """Asks for a service that nobody serves."""
        return self.find(self.point(self.anywhere()), service=PHYSICIAN)

    def by_default(self):
        """Asks for a service that has only a default."""
        return self.find(self.point(self.anywhere()), service=FIRE)


class Roads:
    """So many mappings, each of two civic patterns: a road of a town, which two mappings share, and its house 5."""

    kinds = [
        Kind("validation of an address", "validation",
             b'"locationValidation":{"invalid":["HNO"],"unchecked":[],"valid":["country","A1","A3","RD"]}'),
    ]

    def __init__(self, mappings):
        self.mappings = mappings

    def road(self, number, **more):
        """The elements of a mapping's road."""
        return {"A1": "NJ", "A3": f"Town {number // 100}", "RD": f"Road {number // 2}", "country": "US", **more}

    def publishes(self):
        """The lines that publish all mappings."""
        for number in range(self.mappings):
            patterns = [{"pattern": pattern, "profile": "civic"} for pattern in (self.road(number), self.road(number, HNO="5"))]
            yield write_line({"publish": {
                "expires": "NO-EXPIRATION", "key": f"K-{number}", "lastUpdated": PUBLISHED, "service": POLICE, "serviceBoundary": patterns,
                "source": "map.example", "sourceId": f"M-{number}", "uri": [f"sip:m{number}@map.example"],
            }})

    def requests(self, _, count):
        """So many requests to validate house 6 of a road, the same ones at each call."""
        dice = random.Random(1)
        locations = ({"address": self.road(dice.randrange(self.mappings), HNO="6"), "id": "a", "profile": "civic"} for _ in range(count))
        return b"".join(
            write_line({"findService": {"location": [location], "service": POLICE, "validateLocation": True}}) for location in locations)


class File(NamedTuple):
    """A file of desk lines, how many these are, and of how many bytes."""

    path: str
    lines: int
    size: int


def write_file(land, path):
    """Writes a map: its mappings, the default and a commit."""
    count = 2
    with open(path, "wb") as file:
        for line in land.publishes():
            count += 1
            file.write(line)
        file.write(DEFAULT + COMMIT)
    return File(path, count, os.path.getsize(path))
