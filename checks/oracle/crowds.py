"""Sessions over hundreds of mappings whose boundaries overlap in all ways, and the comparison of a million of their lines.

The rings share edges, have vertices on each other's edges, spikes, and positions that stand twice; they cross themselves, are
walked twice, and lie along the poles and the 180th meridian. The points that are asked lie on all that, beside it and between.
"""
import functools

import mappings
from comparing import kinds_of, lostd
from drawn_edits import Edits
from grounds import Ground, bounded
from many_lines import Judged, compare_many
from oracle import LONGEST_LINE, Replay, cut
from places import GREATEST_LATITUDE, GREATEST_LONGITUDE, inside
from sessions import Session, Theme
from texts import moment_of

FIRST = [150, 250, 400]
LINES = 2_500
RINGS = 70
BATCH = 16
SHAPES = {
    "box": 20, "triangle": 15, "slanted": 15, "spike": 8, "bow tie": 8, "star": 6, "twice": 4, "pole": 6, "meridian": 6,
    "keyhole": 6, "split": 12, "any": 14,
}


class CrowdedGround(Ground):
    """A few latitudes and longitudes, and many rings over them."""

    rings = ()

    def __init__(self, dice, is_grid):
        super().__init__(dice, is_grid)
        for _ in range(RINGS):
            self.rings.append(self.new_ring())

    def new_ring(self):
        """A ring of some shape, begun anywhere and walked either way."""
        ring = self.shape(self.dice.by_weight(SHAPES))
        start = self.dice.randrange(len(ring) - 1)
        ring = [*ring[start:-1], *ring[: start + 1]]
        return ring[::-1] if self.dice.chance(0.4) else ring

    def shape(self, name):
        """A closed ring of a shape."""
        one, two, three, four = (self.position() for _ in range(4))
        if name == "box":
            return self.box()
        if name == "triangle":
            return [one, two, three, one]
        if name == "slanted":
            return [one, two, three, four, one]
        if name == "spike":
            return [one, two, three, four, three, one]
        if name == "bow tie":
            return [one, two, [one[0], two[1]], [two[0], one[1]], one]
        if name == "star":
            five = [self.position() for _ in range(5)]
            return [*five[::2], *five[1::2], five[0]]
        if name == "twice":
            return [one, two, three, one, two, three, one]
        if name == "pole":
            return self.at_pole(one[0])
        if name == "meridian":
            return self.at_meridian(one, two)
        if name == "keyhole":
            return self.with_hole()
        if name == "split":
            return self.split()
        return [one, *(self.position() for _ in range(self.dice.randint(3, 9))), one]

    def at_pole(self, latitude):
        """All longitudes from a latitude to a pole."""
        pole = self.dice.choice([-1, 1]) * GREATEST_LATITUDE
        west, east = -GREATEST_LONGITUDE, GREATEST_LONGITUDE
        return [[latitude, west], [latitude, east], [pole, east], [pole, west], [latitude, west]]

    def at_meridian(self, one, two):
        """A box up to the 180th meridian, from either side."""
        edge = self.dice.choice([-1, 1]) * GREATEST_LONGITUDE
        return [[one[0], edge], [two[0], edge], [two[0], two[1]], [one[0], one[1]], [one[0], edge]]

    def with_hole(self):
        """A box with a hole that a seam joins to its edge."""
        outer, inner = self.box(), self.box()
        return [*outer, *inner[::-1], outer[0]]

    def split(self):
        """An earlier ring with a vertex on one of its edges, or a little beside it."""
        if not self.rings:
            return self.box()
        ring = self.dice.choice(self.rings)
        place = self.dice.randrange(len(ring) - 1)
        middle = [(one + other) // 2 for one, other in zip(ring[place], ring[place + 1])]
        if self.dice.chance(0.3):
            middle[1] += self.dice.choice([-1, 1])
        between = [bounded(middle[0], GREATEST_LATITUDE), bounded(middle[1], GREATEST_LONGITUDE)]
        return [*ring[: place + 1], between, *ring[place + 1 :]]


class CrowdedEdits(Edits):
    """Edits of many identities, each with a key of its own."""

    def identity(self, old):
        """An identity: in this share that of an earlier line."""
        if self.identities and self.dice.chance(old):
            return self.dice.choice(self.identities)
        self.identities.append(("map.example", f"m{len(self.identities)}"))
        return self.identities[-1]

    def key(self):
        """A key, now and then that of an earlier line."""
        if self.keys and self.dice.chance(0.02):
            return self.dice.choice(self.keys)
        self.keys.append(f"k{len(self.keys)}")
        return self.keys[-1]


class Crowd(Session):
    """A session of a seed over hundreds of mappings."""

    themes = {
        "points": Theme(6, 0.01, 0.002, rings=8, patterns=0, tokens=0),
        "points of a grid": Theme(3, 0.01, 0.002, rings=8, patterns=0, tokens=0, is_grid=True),
        "points and addresses": Theme(3, 0.01, 0.002, rings=3, tokens=0),
        "all kinds": Theme(3, 0.01, 0.002, rings=2, tokens=2),
    }
    kind_of_ground, kind_of_edits = CrowdedGround, CrowdedEdits

    def values(self):
        """Hundreds of publishes and a commit; then questions, with an edit or a commit among them now and then."""
        for _ in range(self.dice.choice(FIRST)):
            yield {"publish": self.edits.mapping(self.edits.identity(0))}
        yield {"commit": {}}
        for _ in range(LINES):
            yield self.edits.edit() if self.dice.chance(0.06) else self.requests.request()

    def line(self, value, with_blanks):
        """The bytes of a line, now and then as long as a line may be, or longer."""
        line = super().line(value, with_blanks)
        if self.dice.chance(0.0002):
            return line.ljust(LONGEST_LINE + self.dice.choice([-1, 0, 1, 2]))
        return line


def remember():
    """Has the oracle keep what it found out of a ring and a point, and of a stamp: a session asks the same again and again."""
    inside_again = functools.lru_cache(1 << 17)(inside)
    mappings.inside = lambda ring, point: inside_again(tuple(ring), point)
    mappings.moment_of = functools.lru_cache(1 << 12)(moment_of)


def judge(seed):
    """What is judged of the session of a seed; the figure is how many mappings were held at most."""
    crowd = Crowd(seed)
    replay = Replay(crowd.name, crowd.now)
    most, replies = 0, []
    for line in cut(crowd.given):
        replies += replay.replies(line + b"\n")
        most = max(most, len(replay.published.mappings))
    is_same = lostd(crowd.given, crowd.name, crowd.now) == b"".join(replies)
    return Judged(seed, len(replies), kinds_of(replies), most, is_same or replay.has_member_twice)


def compare_crowds(wanted, first):
    """Compares sessions until so many lines were compared; how many sessions are the same, how many not, and kinds."""
    passed, failed, kinds, figures = compare_many(judge, Crowd, wanted, first, BATCH, remember)
    print(f"at most {max(figures)} mappings were held")
    return passed, failed, kinds
