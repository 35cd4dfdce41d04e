"""Draws desk lines, of which many are about what earlier ones are about."""
import datetime

from drawn_texts import respelled
from places import CIVIC, GEODETIC, TOKEN
from samples import DISPLAY_TEXTS, IDS, JUNK, KEYS, LANGUAGES, NUMBERS, ODD_IDS, ODD_SOURCES, SOURCES, STAMPS, URIS

KINDS = {"publish": 16, "replace": 5, "withdraw": 3, "publish again": 2, "commit": 7}
KINDS_AT_DESK = {"publish": 8, "replace": 5, "withdraw": 4, "publish again": 4, "commit": 3}
KINDS_OF_WITHDRAWALS = {"publish": 4, "replace": 5, "withdraw": 7, "publish again": 10, "commit": 4}
FRACTIONS = ["", ".0", ".5", ".000000001", ".50"]
SHIFTS = [0, 0, 0, 1, -1, 3600, 86_400, -86_400, 31 * 86_400, -31 * 86_400]
LATER = [1, 3600, 3600, 86_400]


def same_instant(dice, stamp):
    """A stamp at the instant of another, with more or fewer zeros at the end of its fraction."""
    digits = stamp[20:-1].rstrip("0")
    digits += "0" * dice.randint(0, 9 - len(digits))
    return stamp[:19] + ("." + digits if digits else "") + "Z"


def near(dice, stamp, shifts=SHIFTS):
    """A stamp at the instant of another, in another spelling or a little beside it."""
    nanoseconds = int((stamp[20:-1] or "0").ljust(9, "0"))
    try:
        moment = datetime.datetime.fromisoformat(stamp[:19]) + datetime.timedelta(seconds=dice.choice(shifts))
    except OverflowError:
        return stamp
    beside = bounded_fraction(nanoseconds + dice.choice([0, 0, 1, -1]))
    return moment.isoformat() + dice.choice(["", stamp[19:-1], beside, beside[:2], beside[:4], ".999999999"]) + "Z"


def bounded_fraction(nanoseconds):
    """The text of a fraction of a second."""
    return f".{max(0, min(999_999_999, nanoseconds)):09}"


class Edits:
    """The desk lines of a session, and the identities, keys, mappings and withdrawals of those before."""

    def __init__(self, session):
        self.session = session
        self.dice = session.dice
        self.theme = session.theme
        self.identities, self.keys, self.mappings, self.withdrawals = [], [], {}, []
        self.clock = 0

    def stamp(self):
        """A stamp that is mostly later than those before it."""
        if self.dice.chance(0.25):
            beside = near(self.dice, self.session.now)
            return self.dice.choice([beside, self.dice.choice(STAMPS), "2025-12-01T00:00:00Z"])
        self.clock += self.dice.choice([1, 1, 1, 0])
        second = self.dice.choice([0, 0, 0, 1])
        moment = datetime.datetime(2025, 12, 1, second=second) + datetime.timedelta(hours=self.clock)
        return moment.isoformat() + self.dice.choice(["", *FRACTIONS]) + "Z"

    def stamp_after(self, identity):
        """A stamp that is mostly later than that of an earlier mapping of the identity."""
        old = self.mappings.get(identity)
        if old is None or self.dice.chance(0.5):
            return self.stamp()
        return near(self.dice, old["lastUpdated"], LATER)

    def expires(self):
        """When a mapping expires, often about the moment of the session."""
        way = self.dice.by_weight({"without end": 12, "no cache": 3, "near": 1 if self.theme.is_dense else 4, "any": 1})
        if way == "without end":
            return "NO-EXPIRATION"
        if way == "no cache":
            return "NO-CACHE"
        return near(self.dice, self.session.now) if way == "near" else self.dice.choice(STAMPS)

    def identity(self, old):
        """A source and a sourceId; in this share those of an earlier line."""
        if self.identities and self.dice.chance(old):
            return self.dice.choice(self.identities)
        source = self.dice.choice(ODD_SOURCES if self.dice.chance(0.03) else SOURCES)
        usual = self.dice.choice(IDS) + str(self.dice.randrange(4))
        self.identities.append((source, self.dice.choice(ODD_IDS) if self.dice.chance(0.05) else usual))
        return self.identities[-1]

    def key(self):
        """A key, now and then that of an earlier line."""
        if self.keys and self.dice.chance(0.1):
            return self.dice.choice(self.keys)
        usual = self.dice.choice(KEYS) + self.dice.choice(["", *map(str, range(99))])
        self.keys.append(self.dice.choice(ODD_IDS) if self.dice.chance(0.03) else usual)
        return self.keys[-1]

    def region(self):
        """A region of the kinds that the theme is about."""
        kind = self.dice.by_weight({GEODETIC: self.theme.rings, CIVIC: self.theme.patterns, TOKEN: self.theme.tokens})
        if self.dice.chance(0.02):
            kind = self.dice.choice([CIVIC, TOKEN])
        if kind == GEODETIC:
            return {"polygon": self.session.ground.ring(), "profile": GEODETIC}
        if kind == TOKEN:
            return {"profile": TOKEN, "tokens": self.session.tokens.token_set()}
        return {"pattern": self.session.town.pattern(), "profile": CIVIC}

    def regions(self):
        """The regions of a mapping; now and then as many of a kind as it may have, or one more, and others behind them."""
        if self.dice.chance(0.007):
            many = [self.region()] * self.dice.choice([64, 64, 65, 256, 257])
            return many + [self.region()] * self.dice.choice([0, 0, 1, 40])
        count = self.dice.choice([1, 2, 3, 4, 6, 9] if self.theme.is_dense else [1, 1, 1, 2, 2, 3, 5])
        return [self.region() for _ in range(count)]

    def mapping(self, identity, stamp=None):
        """A mapping of an identity, with this stamp or with any."""
        source, source_id = identity
        mapping = {
            "source": source,
            "sourceId": source_id,
            "lastUpdated": stamp or self.stamp(),
            "expires": self.expires(),
            "service": self.session.service(0.1),
            "uri": self.uris(),
        }
        if self.dice.chance(0.15):
            mapping["default"] = True
        else:
            mapping |= {"serviceBoundary": self.regions(), "key": self.key()}
        if self.dice.chance(0.04):
            mapping.setdefault("default", False)
        if self.dice.chance(0.1):
            mapping["serviceNumber"] = self.dice.choice(NUMBERS)
        if self.dice.chance(0.1):
            mapping["displayName"] = [self.display_name() for _ in range(self.dice.choice([0, 1, 2, 16, 17]))]
        self.mappings[identity] = mapping
        return mapping

    def uris(self):
        """URIs of one to three schemes."""
        drawn = self.dice.choices(URIS, k=self.dice.choice([1, 1, 1, 2, 3]))
        return list({uri.split(":")[0].lower(): uri for uri in drawn}.values())

    def display_name(self):
        """A display name."""
        return {"lang": self.dice.choice(LANGUAGES), "text": self.dice.choice(DISPLAY_TEXTS)}

    def mapping_again(self):
        """A mapping of an earlier identity, mostly with something of the earlier one."""
        identity = self.identity(1)
        old = self.mappings.get(identity)
        mapping = self.mapping(identity, self.stamp_after(identity))
        if old is None or self.dice.chance(0.2):
            return mapping
        if self.dice.chance(0.5):
            mapping["service"] = old["service"]
        if "serviceBoundary" in old and "serviceBoundary" in mapping:
            mapping["serviceBoundary"] = self.regions_again(old["serviceBoundary"], mapping["serviceBoundary"])
            mapping["key"] = self.dice.choice([old["key"], mapping["key"]])
        return mapping

    def regions_again(self, old, new):
        """The old regions, those in another order, with one twice, with one that is spelled otherwise or new, or the new ones."""
        way = self.dice.by_weight({"old": 20, "order": 15, "twice": 10, "spelling": 18, "one": 7, "new": 30})
        if way == "order":
            return self.dice.sample(old, len(old))
        if way == "twice":
            return [*old, self.dice.choice(old)]
        if way in ("spelling", "one"):
            place = self.dice.randrange(len(old))
            region = self.region_again(old[place]) if way == "spelling" else self.region()
            return [*old[:place], region, *old[place + 1 :]]
        return old if way == "old" else new

    def region_again(self, region):
        """A region of the same points, addresses or tokens that is written in another way, or one that is much alike."""
        if "polygon" in region:
            ring = region["polygon"]
            again = [respelled(self.dice, position) for position in ring]
            turned = self.dice.choice([ring, again, again, ring[::-1], [*ring[1:], ring[1]]])
            return {"polygon": turned, "profile": GEODETIC}
        if "tokens" in region:
            return {"profile": TOKEN, "tokens": self.tokens_again(region["tokens"])}
        pattern = {name: self.session.town.respelled(value) for name, value in region["pattern"].items()}
        return {"pattern": self.dice.choice([pattern, region["pattern"]]), "profile": CIVIC}

    def tokens_again(self, tokens):
        """The same tokens, those in another order, one less, one more, or all in another case."""
        others = dict.fromkeys([*tokens, self.session.tokens.one()])
        swapped = dict.fromkeys(token.swapcase() for token in tokens)
        shuffled = self.dice.sample(tokens, len(tokens))
        return self.dice.choice([tokens, shuffled, shuffled, tokens[1:] or tokens, list(others), list(swapped)])

    def withdrawal(self):
        """A withdrawal, mostly of an earlier identity."""
        identity = self.identity(0.9)
        stamp = self.stamp_after(identity)
        self.withdrawals.append((identity, stamp))
        return {"source": identity[0], "sourceId": identity[1], "lastUpdated": stamp}

    def beside(self, identity):
        """An identity, or one that differs from it in the source alone or in the sourceId alone."""
        source, source_id = identity
        way = self.dice.by_weight({"the same": 7, "source": 2, "sourceId": 1})
        if way == "source":
            source = self.dice.choice([*SOURCES, source.upper()])
        if way == "sourceId":
            source_id = self.dice.choice([source_id.swapcase(), *(other for _, other in self.identities)])
        self.identities.append((source, source_id))
        return source, source_id

    def published_again(self):
        """A mapping that was withdrawn, as it was or stamped about its withdrawal, or one of an identity beside it."""
        if not self.withdrawals:
            return self.mapping(self.identity(0.12))
        identity, stamp = self.dice.choice(self.withdrawals[-4:])
        old = self.mappings.get(identity)
        if old is not None and self.dice.chance(0.15):
            return old
        about = same_instant(self.dice, stamp) if self.dice.chance(0.2) else near(self.dice, stamp)
        return self.mapping(self.beside(identity), about)

    def edit(self):
        """A desk line."""
        kind = self.dice.by_weight(self.theme.edits)
        if kind == "commit":
            return {kind: {"member": self.dice.choice(JUNK)} if self.dice.chance(0.1) else {}}
        if kind == "withdraw":
            return {kind: self.withdrawal()}
        if kind == "publish again":
            return {"publish": self.published_again()}
        if kind == "replace" and self.dice.chance(0.95):
            return {kind: self.mapping_again()}
        return {kind: self.mapping(self.identity(0.12))}
