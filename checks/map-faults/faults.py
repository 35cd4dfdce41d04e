"""Cuts faults into a map on purpose, each with the findings that it must give, and those that it may."""
import copy
import os
import sys

sys.path.insert(0, f"{os.path.dirname(os.path.dirname(os.path.dirname(os.path.realpath(__file__))))}/tools")

from county import NOW, POLICE, SOURCE, mapping, region
from maptools.places import is_inside

# What is seen where areas do not meet.
BETWEEN = ("gap", "overlap", "sliver", "crack")


class Cut:
    """A map into which faults are cut.

    `must` lists the kind and the sourceIds of each finding that is wanted, `may` kinds that may also be found, each with the
    sourceIds that its own are among.
    """

    def __init__(self, county):
        self.county, self.dice = county, county.dice
        self.mappings = {one["sourceId"]: one for one in county.mappings()}
        self.must, self.may, self.spelt = [], [], {}

    def name(self, row, column):
        """The sourceId of a district."""
        return f"D{row * self.county.columns + column + 1:03}"

    def around(self, row, column):
        """The sourceIds of the districts that have a border with one inside the county."""
        return {self.name(row + north, column + east) for north, east in ((-1, 0), (1, 0), (0, -1), (0, 1))}

    def want(self, kind, *names):
        """A finding that is wanted."""
        self.must.append((kind, frozenset(names)))

    def want_spelling(self, kind, spelling, name):
        """A misspelling, which is one finding for all that have it."""
        names = self.spelt.setdefault((kind, spelling), set())
        if names:
            self.must.remove((kind, frozenset(names)))
        names.add(name)
        self.want(kind, *names)

    def allow(self, kinds, names):
        """Findings that may come, too."""
        self.may += [(kind, frozenset(names)) for kind in kinds]

    def ring(self, name):
        """The first ring of a district, which may be changed."""
        return self.mappings[name]["serviceBoundary"][0]["polygon"]

    def set_ring(self, name, ring):
        """Another first ring for a district, closed again."""
        self.mappings[name]["serviceBoundary"][0]["polygon"] = [list(position) for position in [*ring, ring[0]]]

    def border(self, row, column):
        """The border to the eastern neighbour, from south to north."""
        return self.county.borders[(row, column + 1), (row + 1, column + 1)]

    def open_ring(self, name):
        """The positions of a district's first ring, each once."""
        return [tuple(position) for position in self.ring(name)[:-1]]

    def replace(self, name, old, *new):
        """Puts positions in the place of one."""
        ring = self.open_ring(name)
        place = ring.index(old)
        self.set_ring(name, ring[:place] + list(new) + ring[place + 1 :])

    def answer_is_open(self, row, column):
        """The district's area is open now."""
        self.want("gap", *self.around(row, column))


def pair(cut, row, column):
    """A district and its eastern neighbour."""
    return cut.name(row, column), cut.name(row, column + 1)


def pushed(cut, row, column, kind, way):
    """Moves a position of one side's border, to the west (-1) or to the east (1)."""
    one, other = pair(cut, row, column)
    old = cut.dice.choice(cut.border(row, column)[1:-1])
    cut.replace(one, old, (old[0], old[1] + way * round(cut.county.size * cut.dice.uniform(0.05, 0.2))))
    cut.want(kind, one, other)


def gap(cut, row, column):
    """A border that one of two neighbours draws further inside."""
    pushed(cut, row, column, "gap", -1)


def overlap(cut, row, column):
    """A border that one of two neighbours draws too far out."""
    pushed(cut, row, column, "overlap", 1)


def sliver(cut, row, column):
    """A border that two neighbours draw a metre or two apart."""
    one, other = pair(cut, row, column)
    step = cut.dice.choice((-1, 1)) * cut.dice.randint(30, 300)
    for latitude, longitude in cut.border(row, column)[1:-1]:
        cut.replace(one, (latitude, longitude), (latitude, longitude + step))
    cut.want("sliver", one, other)


def crack(cut, row, column):
    """A position on a border that only one of two neighbours names, rounded."""
    one, other = pair(cut, row, column)
    border = cut.border(row, column)
    place = cut.dice.randrange(len(border) - 1)
    begin, end = border[place], border[place + 1]
    middle = (begin[0] + end[0]) // 2, (begin[1] + end[1]) // 2
    ring = cut.open_ring(one)
    at = ring.index(begin)
    cut.set_ring(one, ring[: at + 1] + [middle] + ring[at + 1 :])
    if held_near(begin, middle, end):
        cut.want("crack", one, other)


def held_near(begin, middle, end):
    """Whether a thin triangle holds a whole point: each row is looked at, around both of its sides."""
    edges = list(zip((begin, middle, end), (middle, end, begin)))
    for row in range(min(begin[0], end[0]), max(begin[0], end[0]) + 1):
        column = begin[1] + (row - begin[0]) * (end[1] - begin[1]) // (end[0] - begin[0] or 1)
        if any(is_inside(edges, (row, longitude)) for longitude in range(column - 3, column + 4)):
            return True
    return False


def missing(cut, row, column):
    """A district that is not there."""
    del cut.mappings[cut.name(row, column)]
    cut.answer_is_open(row, column)


def swapped(cut, row, column):
    """Latitude for longitude."""
    name = cut.name(row, column)
    cut.set_ring(name, [position[::-1] for position in cut.open_ring(name)])
    cut.want("far-away", name)
    cut.answer_is_open(row, column)


def double(cut, row, column):
    """An area under two identities."""
    name = cut.name(row, column)
    again = copy.deepcopy(cut.mappings[name])
    again.update(sourceId=f"X{name}", key=f"X{name}-1", displayName=[{"lang": "en", "text": f"X{name}"}])
    if cut.dice.random() < 0.5:
        again["serviceBoundary"][0]["polygon"].reverse()
    cut.mappings[again["sourceId"]] = again
    cut.want("same-area", name, again["sourceId"])


def drawn_twice(cut, row, column):
    """A ring that is drawn twice."""
    name = cut.name(row, column)
    cut.set_ring(name, cut.open_ring(name) * 2)
    cut.want("ring-twice", name)
    cut.answer_is_open(row, column)


def crossed(cut, row, column):
    """A loop in a border: the ring crosses itself."""
    one, other = pair(cut, row, column)
    border = cut.border(row, column)
    place = cut.dice.randrange(1, len(border) - 2)
    begin, end = border[place], border[place + 1]
    west = min(begin[1], end[1]) - cut.county.size // 10
    step = (end[0] - begin[0]) // 4
    cut.replace(one, begin, begin, (end[0] - step, west), (begin[0] + step, west))
    cut.want("self-crossing", one)
    cut.want("gap", one)
    cut.want("gap", one, other)


def no_area(cut, row, column):
    """A polygon of nothing."""
    name = cut.name(row, column)
    (latitude, longitude), step = cut.open_ring(name)[0], cut.dice.randint(1, 1000)
    line = [(latitude, longitude), (latitude + step, longitude + step), (latitude + 2 * step, longitude + 2 * step), (latitude, longitude)]
    cut.mappings[name]["serviceBoundary"].append(region(line))
    cut.want("no-area", name)


def simplified(cut, row, column):
    """A border of which each of two neighbours keeps every other position: it opens and overlaps, where both or one of them are."""
    one, other = pair(cut, row, column)
    between = cut.border(row, column)[1:-1]
    for name, left_out in ((one, between[::2]), (other, between[1::2])):
        cut.set_ring(name, [position for position in cut.open_ring(name) if position not in left_out])
    cut.allow(BETWEEN, [one, other])


def spike(cut, row, column):
    """A ring that runs out and back."""
    name = cut.name(row, column)
    old = cut.dice.choice(cut.border(row, column)[1:-1])
    tip = old[0] + cut.dice.randint(-5000, 5000), old[1] + cut.dice.randint(8000, 20000)
    cut.replace(name, old, old, tip, old)
    cut.want("spike", name)


def repeated(cut, row, column):
    """A position that is given twice."""
    name = cut.name(row, column)
    old = cut.dice.choice(cut.open_ring(name))
    cut.replace(name, old, old, old)
    cut.want("repeated-position", name)


def own_overlap(cut, row, column):
    """A hole that is given as a second polygon."""
    name = cut.name(row, column)
    latitude, longitude = (sum(values) // len(values) for values in zip(*cut.open_ring(name)))
    size = cut.dice.randint(2000, 10000)
    hole = [(latitude, longitude), (latitude, longitude + size), (latitude + size, longitude + size), (latitude, longitude)]
    cut.mappings[name]["serviceBoundary"].append(region(hole))
    cut.want("own-overlap", name)


def service(cut, row, column, written=("sos.polcie", "sos.polic", "sos.plice")):
    """A misspelt service."""
    name = cut.name(row, column)
    spelling = cut.dice.choice(written)
    cut.mappings[name]["service"] = f"urn:service:{spelling}"
    cut.want_spelling("service-spelling", spelling, name)
    cut.answer_is_open(row, column)
    cut.allow(["no-default"], [])


def scheme(cut, row, column, written=("spi", "si", "sipp", "tell")):
    """A misspelt scheme."""
    name = cut.name(row, column)
    spelling = cut.dice.choice(written)
    cut.mappings[name]["uri"] = [f"{spelling}:{name}@police.example"]
    cut.want_spelling("uri-scheme", spelling, name)


def tokens(cut, row, column, written=(("space {0}", "space {0} "), ("Hall {0}", "hall {0}"), ("a {0}", "a  {0}"))):
    """Tokens that differ in white space or case."""
    names = pair(cut, row, column)
    for name, token in zip(names, cut.dice.choice(written)):
        cut.mappings[name]["serviceBoundary"].append({"profile": "x-token", "tokens": [token.format(names[0])]})
    cut.want("token-alike", *names)


def same_token(cut, row, column):
    """A token of two mappings."""
    names = pair(cut, row, column)
    for name in names:
        cut.mappings[name]["serviceBoundary"].append({"profile": "x-token", "tokens": [f"room {row} {column}"]})
    cut.want("token-overlap", *names)


def source_ids(cut, row, column):
    """SourceIds that differ in case."""
    name, other = pair(cut, row, column)
    cut.mappings[other]["sourceId"] = name.lower()
    cut.mappings[name.lower()] = cut.mappings.pop(other)
    cut.want("source-id-alike", name, name.lower())


def keys(cut, row, column):
    """Keys that differ in white space."""
    name, other = pair(cut, row, column)
    cut.mappings[other]["key"] = f"{name}-1 "
    cut.want("key-alike", name, other)


def display_name(cut, row, column):
    """An empty name, or one of two districts."""
    name, other = pair(cut, row, column)
    if cut.dice.random() < 0.5:
        cut.mappings[name]["displayName"][0]["text"] = " "
        cut.want("display-name-empty", name)
    else:
        cut.mappings[other]["displayName"] = cut.mappings[name]["displayName"]
        cut.want("display-name-same", name, other)


def future(cut, row, column):
    """A stamp in the future."""
    name = cut.name(row, column)
    cut.mappings[name]["lastUpdated"] = "2026-06-01T00:00:00.000000001Z"
    cut.want("future-stamp", name)


def expired(cut, row, column):
    """A mapping that has expired."""
    name = cut.name(row, column)
    cut.mappings[name]["expires"] = NOW
    cut.want("expired", name)
    cut.answer_is_open(row, column)


def expiring(cut, row, column):
    """A mapping that expires soon."""
    name = cut.name(row, column)
    cut.mappings[name]["expires"] = "2026-06-30T23:59:59Z"
    cut.want("expiring", name)


def add_pattern(cut, name, *patterns):
    """Gives a mapping patterns."""
    cut.mappings[name]["serviceBoundary"] += [{"profile": "civic", "pattern": pattern} for pattern in patterns]


def double_pattern(cut, row, column):
    """A pattern that a mapping has twice, but for case."""
    name = cut.name(row, column)
    add_pattern(cut, name, {"A1": name, "RD": "Main"}, {"RD": " MAIN", "A1": name.lower()})
    cut.want("pattern-double", name)


def unreachable_pattern(cut, row, column):
    """A pattern that a shorter one makes needless."""
    name = cut.name(row, column)
    add_pattern(cut, name, {"A1": name, "RD": "Main"}, {"A1": name})
    cut.want("pattern-unreachable", name)


def address(cut, row, column):
    """An address that two mappings answer for."""
    name, other = pair(cut, row, column)
    add_pattern(cut, name, {"A1": name})
    add_pattern(cut, other, {"A1": f" {name.lower()} ", "RD": "Main"})
    cut.want("address-overlap", name, other)


def exact_position(cut, row, column):
    """No fault: a position just on a border that only one of two neighbours names."""
    name = cut.name(row, column)
    (lat0, lon0), (lat1, lon1) = cut.border(row, column)[:2]
    if (lat1 - lat0) % 2 == 0 and (lon1 - lon0) % 2 == 0:
        cut.replace(name, (lat0, lon0), (lat0, lon0), ((lat0 + lat1) // 2, (lon0 + lon1) // 2))


FAULTS = [
    gap, overlap, sliver, crack, simplified, missing, swapped, double, drawn_twice, crossed, no_area, spike, repeated, own_overlap, service,
    scheme, tokens, same_token, source_ids, keys, display_name, future, expired, expiring, double_pattern, unreachable_pattern, address,
    exact_position,
]
