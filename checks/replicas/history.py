"""Commits that are drawn from a seed, each line one that a server takes, and the questions that clients ask about them."""
import datetime
import json
import random

SOURCE, SERVICES = "map.example", ["urn:service:sos.police", "urn:service:sos.fire"]
NAMES, MOST_EDITS = 40, 4
# Rectangles lie on a grid of this many steps of a degree.
STEPS, DEGREE = 12, 10_000_000
BEGIN = datetime.datetime(2025, 12, 1)
LIST = b'{"listServices":{}}'


def line(kind, value):
    """A desk line."""
    return json.dumps({kind: value}, sort_keys=True, separators=(",", ":"))


def questions():
    """Requests about points all over the grid."""
    asked = [LIST]
    for number in range(0, STEPS * STEPS, 2):
        place = {"id": "p", "pos": [number // STEPS * DEGREE + 5, number % STEPS * DEGREE + 5], "profile": "geodetic-2d"}
        asked.append(json.dumps({"findService": {"service": SERVICES[number % 4 // 2], "location": [place]}}).encode())
    return asked


class History:
    """Draws commits, one after another."""

    def __init__(self, seed):
        self.dice, self.turn, self.held = random.Random(seed), 0, {}

    def stamp(self):
        """A stamp that is later than all before."""
        return (BEGIN + datetime.timedelta(seconds=self.turn)).isoformat() + "Z"

    def mapping(self, name):
        """A mapping of a name, somewhere on the grid."""
        south, west = (self.dice.randrange(STEPS) * DEGREE for _ in "ab")
        north, east = south + self.dice.randint(1, 3) * DEGREE, west + self.dice.randint(1, 3) * DEGREE
        ring = [[south, west], [south, east], [north, east], [north, west], [south, west]]
        return {
            "source": SOURCE, "sourceId": name, "key": f"{name}-{self.turn}", "expires": "NO-EXPIRATION", "lastUpdated": self.stamp(),
            "service": self.dice.choice(SERVICES), "uri": [f"sip:{name}-{self.turn}@map.example"],
            "serviceBoundary": [{"polygon": ring, "profile": "geodetic-2d"}],
        }  # fmt: skip

    def edit(self):
        """An edit, later than all before."""
        self.turn += 1
        name = f"m{self.dice.randrange(NAMES)}"
        if name not in self.held:
            self.held[name] = True
            return line("publish", self.mapping(name))
        if self.dice.random() < 0.3:
            del self.held[name]
            return line("withdraw", {"source": SOURCE, "sourceId": name, "lastUpdated": self.stamp()})
        return line("replace", self.mapping(name))

    def commit(self):
        """The edits of a commit."""
        return [self.edit() for _ in range(self.dice.randint(1, MOST_EDITS))]
