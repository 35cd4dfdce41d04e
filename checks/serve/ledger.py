"""What a journal must hold, by what its desks sent and were answered: its edits, byte for byte, editions and the map's digest."""
import json

import search
from book import WITHDRAW
from live import Remembering
from maptools.digest import map_digest, mapping_digest
from maptools.texts import lowered
from verdicts import Books, Question, edition_in, shown

NOT_KEPT = b'{"refused":{"code":23,"name":"NotKept"}}'
COMMIT_START = b'{"commit":'


class Ledger:
    """The books of a journal's editions, and the lines of its edits. `unanswered` has what a desk sent behind its last reply."""

    def __init__(self):
        self.books = Books()
        self.differences = self.books.differences
        self.kept, self.waiting, self.editions, self.unanswered = [], [], [0], []
        self.not_kept = 0

    def take(self, line, reply=None):
        """A desk's line, with its reply where it has one. What is not kept changes nothing."""
        if reply == NOT_KEPT:
            self.not_kept += 1
            return
        oracle = self.books.oracle
        staged, published = oracle.staged, oracle.published
        if reply is None:
            self.books.wanted(line)
            self.books.by_edition[self.books.last()] = oracle.published
        else:
            self.books.add(line, reply)
        if oracle.staged is not staged:
            self.waiting.append(line)
        if oracle.published is not published:
            self.kept += self.waiting
            self.waiting = []
            self.editions.append(self.books.last())

    def take_turn(self, turn):
        """What a desk sent on a connection, each line with its reply or None, up to the connection's end or the server's."""
        answered = [pair for pair in turn if pair[1] is not None]
        for line, reply in answered:
            self.take(line, reply)
        self.unanswered = [line for line, _ in turn[len(answered) :]]

    def take_turns(self, turns):
        """What desks sent one after another, each of which begins with nothing pending."""
        for turn in turns:
            self.drop_pending()
            self.take_turn(turn)

    def drop_pending(self):
        """A desk's connection, or the server, has ended: what waits is dropped."""
        self.books.oracle.drop_pending()
        self.waiting = []

    def settle(self, edition):
        """What was sent and not answered was done up to the commit that made an edition, which is published again; whether it can be."""
        before, lines = self.books.last(), iter(self.unanswered)
        while self.books.last() < edition and (line := next(lines, None)) is not None:
            self.take(line)
        self.drop_pending()
        self.unanswered = []
        if self.books.last() != edition:
            self.differences.add(f"edition {edition} is published again, where {before} was answered, and {self.books.last()} can be")
        return self.books.last() == edition

    def digest(self):
        """The digest of the map that is published, by the rules of tools/maptools."""
        held = {}
        for line in self.kept:
            ((kind, described),) = json.loads(line).items()
            identity = (lowered(described["source"]), described["sourceId"])
            held.pop(identity, None)
            if kind != WITHDRAW:
                held[identity] = mapping_digest(described)
        return map_digest(held.values())

    def look_at_page(self, page):
        """The page of a server's health names the edition and the digest."""
        self.differences.compare("/health", b"", page, f"ready\nedition {self.books.last()}\nmap {self.digest()}\n".encode())

    def look_at_file(self, journal):
        """A journal has just the edits that were kept, as they were sent, and their commits."""
        lines = journal.split(b"\n")
        commits = [line for line in lines[:-1] if line.startswith(COMMIT_START)]
        edits = [line for line in lines if not line.startswith(COMMIT_START)]
        if edits != [*self.kept, b""]:
            self.differences.add(f"the journal has {len(edits) - 1} edits, of which {len(self.kept)} are wanted, and others are not")
        editions = [json.loads(line)["commit"]["edition"] for line in commits]
        if editions != self.editions:
            self.differences.add(f"the journal has commits {editions[-5:]} at its end, and not {self.editions[-5:]}")

    def judge(self, told):
        """Judges pairs of a request and a reply."""
        by_line = {}
        for line, reply in told:
            by_line.setdefault(line, []).append(reply)
        for line, replies in by_line.items():
            question = Question(line, self.books.oracle)
            search.holds = Remembering()
            for reply in replies:
                self.judge_one(question, reply)

    def judge_one(self, question, reply):
        """A reply is the oracle's over an edition that is kept."""
        if (edition_in(reply) or 0) > self.books.last():
            self.differences.add(f"a client saw an edition that is lost: {shown(reply)}")
        else:
            self.differences.compare_reply(question, reply, self.books)
