"""Draws request lines, of which many are about mappings that are held."""
from places import CIVIC, GEODETIC, TOKEN
from samples import JUNK, KEYS, PROFILES, SYSTEMS

KINDS = {"findService": 20, "listServicesByLocation": 6, "listServices": 3, "getServiceBoundary": 4}


class Requests:
    """The request lines of a session."""

    def __init__(self, session):
        self.session = session
        self.dice = session.dice
        self.theme = session.theme
        self.name = session.name

    def request(self):
        """A request line."""
        kind = self.dice.by_weight(KINDS)
        request = {}
        if kind == "getServiceBoundary":
            earlier_keys = self.session.edits.keys
            request["key"] = self.dice.choice(earlier_keys or KEYS if self.dice.chance(0.9) else KEYS)
        elif kind == "findService" or self.dice.chance(0.6):
            request["service"] = self.session.service(0.35)
        if kind in ("findService", "listServicesByLocation"):
            request["location"] = self.locations()
        if kind == "findService":
            request |= self.wishes()
        if self.dice.chance(0.12):
            request["path"] = self.path()
        return {kind: request}

    def wishes(self):
        """The optional members of findService alone."""
        wishes = {}
        if self.dice.chance(0.6):
            wishes["validateLocation"] = self.dice.chance(0.9)
        if self.dice.chance(0.4):
            wishes["serviceBoundary"] = self.dice.choice(["value", "value", "reference"])
        if self.dice.chance(0.05):
            wishes["recursive"] = self.dice.choice(JUNK)
        return wishes

    def locations(self):
        """One location or a few, mostly of different profiles; now and then as many as there may be, or one more."""
        if self.dice.chance(0.02):
            count = self.dice.choice([6, 7, 8])
            others = [{"id": f"u{number}", "profile": f"x{number}"} for number in range(count)]
            return self.dice.sample([*others, self.location()], count + 1)
        locations = [self.location()]
        while self.dice.chance(0.2):
            location = self.location()
            if all(location["profile"] != other["profile"] for other in locations) or self.dice.chance(0.05):
                locations.append(location)
        return locations

    def location(self):
        """A location of any profile."""
        theme = self.theme
        usual = {GEODETIC: 2 * theme.rings, CIVIC: 2 * theme.patterns, TOKEN: 2 * theme.tokens, "other": 0.3}
        profile = self.dice.by_weight(usual if self.dice.chance(0.93) else {GEODETIC: 1, CIVIC: 1, TOKEN: 1, "other": 1})
        location = {"id": self.dice.choice(["p", "q", "", "é", '"']), "profile": profile}
        if profile == GEODETIC:
            location["pos"] = self.session.ground.position_asked()
        elif profile == CIVIC:
            location["address"] = self.session.town.address()
        elif profile == TOKEN:
            location["token"] = self.session.tokens.token()
        else:
            location |= {"profile": self.dice.choice(PROFILES), "pos": self.dice.choice(JUNK)}
        if self.dice.chance(0.08):
            location["srsName"] = self.dice.choice(SYSTEMS)
        if self.dice.chance(0.03):
            location.setdefault(self.dice.choice(["pos", "address", "token"]), self.dice.choice(JUNK))
        return location

    def path(self):
        """A path: with and without the server's name or a text like it, and about as long as it may be."""
        way = self.dice.choice(["usual", "usual", "loop", "no loop", "long"])
        if way == "loop":
            return ["a", self.dice.choice([self.name.upper(), self.name.lower(), self.name, self.name.title()])]
        if way == "no loop":
            return [self.dice.choice([self.name + " ", self.name + ".", "", "é", "lo\u017ft.example", "\x00"])]
        if way == "long":
            return [f"h{number}" for number in range(self.dice.choice([31, 32, 33]))]
        return self.dice.choice([["a.example", "b"], []])
