"""What the places of a session are drawn from: a few positions, civic pairs and tokens, so that they meet often."""
import unicodedata

from drawn_texts import odd_position, position_text
from places import ELEMENTS, GREATEST_LATITUDE, GREATEST_LONGITUDE
from samples import (
    LONG_VALUES, NO_IDS, ODD_IDS, TOKENS, TOO_LONG_VALUES, UNKNOWN_ELEMENTS, USUAL_ELEMENTS, USUAL_VALUES, VALUES,
)

STEPS = [1, 2, 10, 1000, 262_144, 10_000_000, 100_000_000]
FAR_OUT = [900_000_001, -900_000_001, 0, 2**63 - 1, -(2**63), 1_800_000_001, -1_800_000_001]


def bounded(number, greatest):
    """The number, or the bound that it is past."""
    return max(-greatest, min(greatest, number))


def evenly_spaced(dice, greatest, count, step):
    """Numbers about 0, and now and then the bounds and their neighbours."""
    numbers = [step * number for number in range(-2, count - 2)]
    if dice.chance(0.3):
        numbers[0] = -greatest
    if dice.chance(0.3):
        numbers[-1] = greatest
    if dice.chance(0.1):
        numbers[:2] = [-greatest, 1 - greatest]
    if dice.chance(0.1):
        numbers[-2:] = [greatest - 1, greatest]
    return numbers


def near_cells(dice, greatest, count, cell, are_close):
    """Numbers at the borders of square cells of a grid, one beside them, or half a cell away."""
    most = greatest // cell + 1
    first = dice.randint(-most, most)
    borders = [first + number if are_close else dice.randint(-most, most) for number in range(count)]
    return [bounded(border * cell + dice.choice([0, 0, -1, 1, cell // 2]), greatest) for border in borders]


class Ground:
    """The latitudes, longitudes and rings of a session."""

    def __init__(self, dice, is_grid):
        self.dice = dice
        count = dice.randint(3, 6)
        bounds = (GREATEST_LATITUDE, GREATEST_LONGITUDE)
        if is_grid or dice.chance(0.15):
            cell, are_close = 2 ** (18 + 2 * dice.randrange(7)), dice.chance(0.5)
            self.numbers = [near_cells(dice, greatest, count, cell, are_close) for greatest in bounds]
        else:
            step = dice.choice(STEPS)
            self.numbers = [evenly_spaced(dice, greatest, count, step) for greatest in bounds]
        self.rings = [self.new_ring() for _ in range(dice.randint(2, 6))]
        self.share_of_texts = dice.choice([0, 0, 0.1, 0.5, 1])

    def position(self):
        """A latitude and a longitude of the session."""
        return [self.dice.choice(numbers) for numbers in self.numbers]

    def spelled(self, pair):
        """A position as text, in the share of the session, or as a pair."""
        return position_text(self.dice, pair) if self.dice.chance(self.share_of_texts) else pair

    def position_asked(self):
        """A point that is asked for; now and then an odd text."""
        point = self.point()
        return odd_position(self.dice, point) if self.dice.chance(0.05) else self.spelled(point)

    def ring(self):
        """A ring of the session, each position in a spelling of its own."""
        return list(map(self.spelled, self.dice.choice(self.rings)))

    def new_ring(self):
        """A box, turned and begun anywhere, any other ring, or a ring of one position."""
        way = self.dice.by_weight({"box": 55, "any": 40, "one": 5})
        if way == "box":
            return self.box()
        if way == "any":
            ring = [self.position() for _ in range(self.dice.randint(3, 8))]
            return [*ring, ring[0]]
        return [self.position()] * 4

    def box(self):
        """A box, which may be flat."""
        south, north = sorted(self.dice.choices(self.numbers[0], k=2))
        west, east = sorted(self.dice.choices(self.numbers[1], k=2))
        ring = [[south, west], [south, east], [north, east], [north, west], [south, west]]
        if self.dice.chance(0.3):
            ring.reverse()
        return [*ring[1:], ring[1]] if self.dice.chance(0.2) else ring

    def point(self):
        """A point at or beside a corner, an edge or a middle of the rings and positions; now and then out of range."""
        if self.dice.chance(0.02):
            return self.dice.choices(FAR_OUT, k=2)
        one, other = self.dice.choices(self.dice.choice(self.rings), k=2)
        if self.dice.chance(0.45):
            one, other = self.position(), self.position()
        share = self.dice.randint(0, 4)
        between = [(first * share + second * (4 - share)) // 4 for first, second in zip(one, other)]
        beside = [number + self.dice.choice([0, 0, 0, 1, -1]) for number in between]
        return [bounded(beside[0], GREATEST_LATITUDE), bounded(beside[1], GREATEST_LONGITUDE)]


class Town:
    """The elements, values and patterns of a session."""

    def __init__(self, dice):
        self.dice = dice
        self.elements = dice.sample(USUAL_ELEMENTS, dice.choice([2, 3, 4, 6]))
        self.values = dice.choice([USUAL_VALUES[:4], USUAL_VALUES, VALUES])
        self.patterns = []

    def pair(self):
        """A known element and a value."""
        name = self.dice.choice(ELEMENTS if self.dice.chance(0.05) else self.elements)
        return name, self.dice.choice(VALUES + LONG_VALUES if self.dice.chance(0.03) else self.values)

    def pairs(self, most):
        """At least one pair, and at most so many."""
        return dict(self.pair() for _ in range(self.dice.randint(1, most)))

    def pattern(self):
        """A pattern, often with the pairs of an earlier one."""
        pattern = self.pairs(3)
        if self.patterns and self.dice.chance(0.6):
            old = self.dice.choice(self.patterns)
            pattern = pattern | old if self.dice.chance(0.7) else old | dict([self.pair()])
        if len(pattern) < 8:
            self.patterns.append(pattern)
        return pattern

    def respelled(self, value):
        """A value in another spelling, whose comparison text is mostly the same."""
        return self.dice.choice([value.lower(), value.upper(), " " + value, value + "\t", value.replace(" ", "  ")])

    def address(self):
        """An address, often one that a pattern matches or nearly matches."""
        address = self.pairs(6)
        if self.patterns and self.dice.chance(0.75):
            old = self.dice.choice(self.patterns)
            address = address | old if self.dice.chance(0.6) else dict(old)
            for name in address:
                if self.dice.chance(0.2):
                    address[name] = self.respelled(address[name])
            if self.dice.chance(0.25):
                address[self.dice.choice(list(address))] = self.dice.choice(self.values)
        while self.dice.chance(0.25):
            address[self.dice.choice(UNKNOWN_ELEMENTS)] = self.dice.choice(self.values)
        return self.long_address(address) if self.dice.chance(0.02) else address

    def long_address(self, address):
        """An address at a bound of its size, or past it."""
        if self.dice.chance(0.5):
            return {f"e{number}": "v" for number in range(self.dice.choice([126, 127, 128]))} | {"A1": "NJ"}
        name = self.dice.choice(["A1", "X", "n" * 512, "n" * 513, "é" * 256, "é" * 257])
        return address | {name: self.dice.choice([*TOO_LONG_VALUES, *LONG_VALUES, "x"])}


class Tokens:
    """The tokens of a session, and sets of them."""

    def __init__(self, dice):
        self.dice = dice
        self.usual = dice.sample(TOKENS, dice.choice([2, 3, 4, 6]))
        self.share_of_others = dice.choice([0, 0.1, 0.3])

    def beside(self, token):
        """A token that differs from another in case, at an end, or in Unicode's form alone."""
        return self.dice.choice([
            token.swapcase(), token[:-1] or "0", token + "1", token + " ", " " + token, unicodedata.normalize("NFD", token),
        ])

    def one(self):
        """A token of the session, or one beside it."""
        token = self.dice.choice(self.usual)
        return self.beside(token) if self.dice.chance(self.share_of_others) else token

    def token(self):
        """A token that is asked for; now and then one at the bounds of its rule, or past them."""
        return self.dice.choice(ODD_IDS + NO_IDS) if self.dice.chance(0.03) else self.one()

    def token_set(self):
        """A set of a few tokens; now and then as many as it may have."""
        if self.dice.chance(0.02):
            return self.many(64)
        drawn = [self.one() for _ in range(self.dice.choice([1, 1, 2, 2, 3, 5]))]
        if self.dice.chance(0.02):
            drawn.append(self.dice.choice(ODD_IDS))
        return list(dict.fromkeys(drawn))

    def many(self, count):
        """So many tokens, one of which is asked for."""
        tokens = [f"m{number}" for number in range(count)]
        tokens[self.dice.randrange(count)] = self.dice.choice(self.usual)
        return tokens
