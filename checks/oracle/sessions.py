"""Random sessions: a server's name, a moment and lines, drawn from a seed.

The lines of a session are about few identities, services, positions, civic pairs and tokens, so that edits meet earlier
edits and requests meet mappings. Some lines are spoiled, as values (spoiling.py) or as bytes (spelling.py).
"""
from typing import NamedTuple

from drawn_edits import KINDS, KINDS_AT_DESK, KINDS_OF_WITHDRAWALS, Edits
from drawn_requests import Requests
from grounds import Ground, Tokens, Town
from samples import MOMENTS, NO_JSON, ODD_JSON, ODD_SERVICES, SERVER_NAMES, SERVICES
from spelling import Dice, broken, spelled
from spoiling import spoil_line


class Theme(NamedTuple):
    """What a session is mostly about, which edits it has and how many behind the first, and how often a line is spoiled."""

    weight: int = 4
    spoiled: float = 0.02
    broken: float = 0.0
    rings: int = 1
    patterns: int = 1
    tokens: int = 1
    is_dense: bool = False
    is_grid: bool = False
    edits: dict = KINDS
    share: float = 0.35


THEMES = {
    "mixed": Theme(spoiled=0.12, broken=0.04),
    "points": Theme(4, 0.1, 0.01, patterns=0, tokens=0),
    "addresses": Theme(spoiled=0.05, broken=0.01, rings=0, tokens=0),
    "tokens": Theme(spoiled=0.05, broken=0.01, rings=0, patterns=0),
    "faults": Theme(9, spoiled=0.6, broken=0.12),
    "clean": Theme(2, spoiled=0),
    "grid": Theme(3, patterns=0, tokens=0, is_grid=True),
    "desk": Theme(3, 0.05, 0.02, edits=KINDS_AT_DESK, share=0.55),
    "withdrawals": Theme(4, 0.02, 0.01, edits=KINDS_OF_WITHDRAWALS, share=0.8),
    "many points": Theme(rings=6, is_dense=True),
    "many addresses": Theme(patterns=6, is_dense=True),
    "many tokens": Theme(2, tokens=6, is_dense=True),
}


class Session:
    """A session of a seed: name, now and lines."""

    themes, kind_of_ground, kind_of_edits = THEMES, Ground, Edits

    def __init__(self, seed):
        self.dice = dice = Dice(seed)
        self.name = dice.choice([SERVER_NAMES[0], dice.choice(SERVER_NAMES)])
        self.now = dice.choice([MOMENTS[0], dice.choice(MOMENTS)])
        self.theme = self.themes[dice.by_weight({name: theme.weight for name, theme in self.themes.items()})]
        self.ground = self.kind_of_ground(dice, self.theme.is_grid)
        self.town, self.tokens = Town(dice), Tokens(dice)
        self.services = dice.sample(SERVICES[:4], dice.choice([1, 2] if self.theme.is_dense else [1, 2, 3]))
        self.edits, self.requests = self.kind_of_edits(self), Requests(self)
        with_blanks = dice.chance(0.3)
        self.lines = [self.line(value, with_blanks) for value in self.values()]
        self.given = b"\n".join(self.lines) + dice.choice([b"\n"] * 9 + [b""])

    def values(self):
        """The values of the lines: first mostly edits, then a commit, then mostly requests."""
        first = self.dice.randint(4, 14) if self.theme.is_dense else self.dice.choice([0, 2, 3, 4, 5, 6, 8, 10])
        count = self.dice.randint(max(20, first + 5), 40) if self.theme.is_dense else self.dice.randint(5, 40)
        for number in range(count):
            share = 0.9 if number < first else self.theme.share
            if number == first and self.dice.chance(0.95):
                yield {"commit": {}}
            else:
                yield self.edits.edit() if self.dice.chance(share) else self.requests.request()

    def line(self, value, with_blanks):
        """The bytes of a line, perhaps spoiled."""
        if self.dice.chance(self.theme.spoiled):
            value = spoil_line(self, value)
        line = spelled(self.dice, value, with_blanks).encode()
        return broken(self.dice, line, NO_JSON + ODD_JSON) if self.dice.chance(self.theme.broken) else line

    def service(self, odd):
        """A service URN, one of the few of the session or, in this share, another."""
        service = self.dice.choice(self.services)
        if self.dice.chance(odd):
            service += self.dice.choice([".police", ".x", ".fire"])
        elif self.dice.chance(0.1):
            service = self.dice.choice(SERVICES + ODD_SERVICES)
        text = "urn:service:" + service
        if self.dice.chance(0.1):
            text = "".join(self.dice.choice([letter, letter.upper()]) for letter in text)
        return text
