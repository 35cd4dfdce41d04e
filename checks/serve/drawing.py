"""Draws a history: what a desk sends and what clients ask, second by second, from a seed.

No answer depends on the clock: mappings expire long before or long after any run, or never.
"""
from typing import NamedTuple

from drawn_edits import KINDS_AT_DESK, Edits
from drawn_requests import Requests
from grounds import Ground, Tokens, Town
from oracle import LONGEST_LINE
from samples import SERVICES
from server import COMMIT, NAME
from sessions import Session, Theme
from spelling import Dice
from strict_json import NoJson, read_json

LONG_AGO = "2001-01-01T00:00:00Z"
EXPIRES = {"NO-EXPIRATION": 12, "NO-CACHE": 3, LONG_AGO: 1, "9000-01-01T00:00:00.5Z": 2}
MOST_REMEMBERED = 60
FIRST_EDITS = 40
# A wide chapter is one of ten: it asks about many places, and has few commits.
WIDE, WIDE_GROUPS, WIDE_TOWNS, WIDE_REQUESTS = 4, 6, 10, 300


class Chapter(NamedTuple):
    """What is asked in one while of a history, and the desk's groups of lines, each ended by a commit."""

    requests: list
    groups: list


class LiveEdits(Edits):
    """Desk lines whose mappings expire long ago, in a far future, or never."""

    def expires(self):
        return self.dice.by_weight(EXPIRES)


class Endless(Session):
    """A session of as many lines as are wanted, about few identities, services and places."""

    def __init__(self, seed, spoiled=0.1, broken=0.03):
        self.dice = Dice(seed)
        self.name, self.now = NAME, LONG_AGO
        self.theme = Theme(spoiled=spoiled, broken=broken, edits=KINDS_AT_DESK)
        self.move()
        self.edits, self.requests = LiveEdits(self), Requests(self)

    def move(self):
        """Goes on with other places and services."""
        self.ground, self.town, self.tokens = Ground(self.dice, self.dice.chance(0.3)), Town(self.dice), Tokens(self.dice)
        self.services = self.dice.sample(SERVICES[:4], 3)

    def forget(self):
        """Forgets old identities, keys and withdrawals, so that lines are about what was there lately."""
        for names in (self.edits.identities, self.edits.keys, self.edits.withdrawals):
            del names[:-MOST_REMEMBERED]

    def request_line(self):
        """A request, or what became of one."""
        return self.promised(self.requests.request)

    def request_lines(self, count):
        """So many of them."""
        return [self.request_line() for _ in range(count)]

    def desk_line(self):
        """A desk line, or what became of one."""
        return self.promised(self.edits.edit)

    def promised(self, draw):
        """A line whose reply is promised: no object in it names a member twice."""
        while True:
            line = self.line(draw(), self.dice.chance(0.1))
            if b"\n" not in line and not names_twice(line):
                return line

    def group(self):
        """Desk lines up to a commit."""
        lines = [self.desk_line()]
        while lines[-1] != COMMIT:
            lines.append(self.desk_line())
        return lines


def names_twice(line):
    """Whether some object in a line names a member twice."""
    try:
        return read_json(line)[1]
    except NoJson:
        return False


def history(seed, chapters, requests, groups):
    """So many chapters, each of so many requests and groups; the first begins with many edits, and some are wide."""
    session = Endless(seed)
    told = []
    for number in range(chapters):
        if number % 4 == 3:
            session.move()
        session.forget()
        is_wide = number % 10 == WIDE
        drawn = [session.group() for _ in range(WIDE_GROUPS if is_wide else groups)]
        if number == 0:
            drawn.insert(0, [session.desk_line() for _ in range(FIRST_EDITS)] + [COMMIT])
        told.append(Chapter(wide_requests(session) if is_wide else session.request_lines(requests), drawn))
    return told


def wide_requests(session):
    """Requests about many more places than a worker may keep."""
    lines = []
    for _ in range(WIDE_TOWNS):
        session.move()
        lines += session.request_lines(WIDE_REQUESTS)
    return lines


def long_requests():
    """A request as long as a line may be, and one that is a byte longer."""
    front, end = b'{"listServices":{"x":"', b'"}}'
    fill = b"x" * (LONGEST_LINE - len(front) - len(end))
    return [front + fill + end, front + fill + b"x" + end]
