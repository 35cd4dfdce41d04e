"""A second, independent reading of the rules of `lostd replay`, to compare the program with.

It follows docs/PROTOCOL.md and docs/DEFINITIONS.md, shares no code with the program, and is written for a reader and not for
speed: each question looks through the whole list of mappings. The rules are in these modules, from the bottom up:
strict_json, texts, places and mappings; book, search and validation; members, desk_lines, request_lines and answers.
"""
from answers import answer
from book import Book, after, refusals
from desk_lines import is_desk_line, read_desk_line
from mappings import CODE_NAMES, Refused
from request_lines import BadRequest, read_request
from strict_json import NoJson, read_json, write_json
from texts import lowered, moment_of

LONGEST_LINE = 1_048_576
BAD_REQUEST = {"errors": {"error": "badRequest"}}


def cut(given):
    """The lines of an input: what stands before each byte 10, and a last piece where it has at least one byte."""
    lines = given.split(b"\n")
    return lines if lines[-1] else lines[:-1]


def is_too_long(line):
    """A line has at most 1,048,576 bytes, the byte 10 not counted."""
    return len(line) > LONGEST_LINE


class Replay:
    """The server of a name at a moment: a book with all accepted edits, and the book that was published last."""

    def __init__(self, name, now):
        self.name = lowered(name)
        self.moment = moment_of(now)
        self.staged = Book()
        self.published = Book()
        self.has_member_twice = False

    def reply(self, line):
        """The reply to one line; a line that is too long or no JSON is no request."""
        if is_too_long(line):
            return BAD_REQUEST
        try:
            value, has_member_twice = read_json(line)
        except NoJson:
            return BAD_REQUEST
        self.has_member_twice |= has_member_twice
        return self.desk_reply(value) if is_desk_line(value) else self.request_reply(value)

    def request_reply(self, value):
        """The answer of the published book, or badRequest."""
        try:
            return answer(self.published, self.name, self.moment, read_request(value))
        except BadRequest:
            return BAD_REQUEST

    def desk_reply(self, value):
        """An edit is staged, a commit publishes all that is staged, or the first code that applies refuses the line."""
        try:
            edit = read_desk_line(value)
            return self.commit() if edit is None else self.stage(edit)
        except Refused as refused:
            return {"refused": {"code": refused.code, "name": CODE_NAMES[refused.code - 1]}}

    def commit(self):
        """All pending edits are published; the edition is the number of edits published."""
        self.published = self.staged
        return {"committed": {"edition": self.published.edits}}

    def stage(self, edit):
        """An edit is checked against the book after all accepted edits, and is pending until the next commit."""
        for code in refusals(self.staged, edit):
            raise Refused(code)
        self.staged = after(self.staged, edit)
        return {"staged": {"pending": self.staged.edits - self.published.edits}}

    def drop_pending(self):
        """What a desk staged and did not commit is dropped when its connection ends."""
        self.staged = self.published

    def replies(self, given):
        """One reply for each line of an input, in the order of the lines, each ended by byte 10."""
        return [write_json(self.reply(line)).encode() + b"\n" for line in cut(given)]


def replay(given, name="lost.example", now="2026-01-01T00:00:00Z"):
    """The output for an input."""
    return b"".join(Replay(name, now).replies(given))
