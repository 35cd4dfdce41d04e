"""Judges replies by the oracle: those of the desk, line by line, and those to requests, over the edits they name."""
import datetime
import re

from answers import answer
from desk_lines import is_desk_line
from oracle import BAD_REQUEST, Replay, is_too_long
from request_lines import BadRequest, read_request
from server import BAD_LINE, NAME
from strict_json import NoJson, read_json, write_json

EDITION = re.compile(rb'\{"[A-Za-z]+":\{"edition":([0-9]+)[,}]')
INTERNAL = b'{"errors":{"error":"internalError"}}'
MEMORY = b'{"refused":{"code":20,"name":"Memory"}}'
MOST_SHOWN = 5
MOST_TEXT = 600
LARGE = 10_000


def now():
    """The moment of this machine, as a stamp."""
    return datetime.datetime.now(datetime.timezone.utc).strftime("%Y-%m-%dT%H:%M:%SZ")


def edition_in(reply):
    """The edition that a reply names; None where it names none."""
    found = EDITION.match(reply)
    return int(found[1]) if found else None


def shown(text):
    """A line or a reply for a reader, cut where it is long."""
    whole = text.decode(errors="backslashreplace")
    return whole if len(whole) <= MOST_TEXT else f"{whole[:MOST_TEXT]}.. ({len(text)} bytes)"


def read_or_none(line):
    """The value of a line; None where it is no JSON or too long."""
    try:
        return None if is_too_long(line) else read_json(line)[0]
    except NoJson:
        return None


class Books:
    """The books of the committed editions, as the oracle has them by the desk's lines and what became of them."""

    def __init__(self, moment=None):
        self.oracle = Replay(NAME, moment or now())
        self.by_edition = {0: self.oracle.published}
        self.differences = Differences()
        self.lines = self.accepted = 0
        self.values = {}

    def add(self, line, reply, may_lack_memory=False):
        """A desk line and its reply; a line that was refused for want of memory changes nothing."""
        self.lines += 1
        if may_lack_memory and reply == MEMORY:
            return
        wanted = self.wanted(line)
        self.accepted += wanted.startswith(b'{"staged"')
        self.differences.compare("desk", line, reply, wanted)
        self.by_edition[self.oracle.published.edits] = self.oracle.published

    def wanted(self, line):
        """The oracle's reply to a line at the desk's address, where whatever is no desk line is a bad one."""
        if len(line) > LARGE and line not in self.values:
            self.values[line] = read_or_none(line)
        value = self.values[line] if line in self.values else read_or_none(line)
        if not is_desk_line(value):
            return BAD_LINE
        return write_json(self.oracle.desk_reply(value)).encode()

    def last(self):
        """The edition published last."""
        return self.oracle.published.edits


class Question:
    """A request line, read once."""

    def __init__(self, line, oracle):
        self.line, self.oracle = line, oracle
        try:
            self.request = read_request(read_or_none(line))
        except BadRequest:
            self.request = None

    def wanted(self, book):
        """The oracle's reply over a book."""
        if self.request is None:
            return write_json(BAD_REQUEST).encode()
        return write_json(answer(book, self.oracle.name, self.oracle.moment, self.request)).encode()


class Differences:
    """What was not as wanted: how often, and the first few."""

    def __init__(self):
        self.count, self.first = 0, []

    def add(self, text):
        """One more difference."""
        self.count += 1
        if len(self.first) < MOST_SHOWN:
            self.first.append(text)

    def compare(self, where, line, reply, wanted):
        """A reply that should be another is a difference."""
        if reply != wanted:
            self.add(f"{where}: {shown(line)}\n    lostd:  {shown(reply)}\n    oracle: {shown(wanted)}")

    def compare_reply(self, question, reply, books, where="query"):
        """A reply should be the oracle's over the edition that it names, which a commit must have made."""
        edition = edition_in(reply)
        if edition is not None and edition not in books.by_edition:
            self.add(f"{where}: {shown(question.line)}\n    no commit made edition {edition}: {shown(reply)}")
        else:
            self.compare(where, question.line, reply, question.wanted(books.by_edition[edition or 0]))

    def include(self, other):
        """Counts those of another, too."""
        self.count += other.count
        self.first += other.first[: MOST_SHOWN - len(self.first)]
