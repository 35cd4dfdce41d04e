"""A journal's disk that fails, as strace has a call fail, and a server that strace kills at a call; each check gives what was wrong, an
empty list where nothing was."""
import contextlib
import itertools
import tempfile
import time

from kept import DeskTalk, begin
from ledger import NOT_KEPT, Ledger
from plain_lines import LIST, differs, publish, question, withdraw
from recorded import CUT, FLUSH, WRITE, Record
from server import COMMIT, Ended
from spelling import Dice
from tearing import TEARS, Crashed

COMMITS, EDITS = 3, 2
# The thread that serves desks also reads the journal at the start, and flushes what it cuts.
FLUSHES_OF_START, FLUSHES_OF_COMMIT, WRITES_OF_COMMIT = 1, 2, EDITS + 2
LEFT = "left"
# What desks send one after another while the server is killed: one leaves edits, another one sends some that are refused.
TURNS = [
    [publish(1), COMMIT], [publish(2), publish(3), publish(4)], [publish(5), COMMIT, publish(6), publish(7), COMMIT],
    [publish(8), publish(8), withdraw(0), COMMIT],
]
ASKED = [LIST, *map(question, range(max(COMMITS * EDITS, len(TURNS[0] + TURNS[2])) + 4))]
SAID, DISK_FAILED = "lostd: --journal: ", "lostd: --journal: the disk failed: "
SOON = 2.0
FAILED, NOT_FAILED = (b"\nlostd_journal_failed %d\n" % number for number in (1, 0))


class Trial:
    """A journal with one commit, over which a server is started of which calls fail."""

    def __init__(self, program, folder):
        self.program, self.folder, self.journal, self.wrong = program, folder, f"{folder}/lost.journal", []
        self.ledger = Ledger()
        with begin(program, self.journal) as server:
            self.ask(server, [publish(0), COMMIT])

    def ask(self, server, lines):
        """Sends a desk's lines on a connection of its own, one by one; the replies. None may be code 23."""
        talk = DeskTalk(0)
        talk.connect(server)
        replies = [self.take(talk, line) for line in lines]
        talk.end()
        self.ledger.drop_pending()
        return replies

    def take(self, talk, line):
        """The reply to a line, which is kept with it."""
        (reply,) = talk.ask([line])
        self.ledger.take(line, reply)
        return reply

    def failing(self, call, number, what="error=EIO"):
        """A server of which each thread's call of this number fails, or kills it."""
        self.before = self.bytes()
        self.record = Record(self.folder, self.journal, "-e", f"inject={call}:{what}:when={number}")
        return begin(self.program, self.journal, record=self.record)

    def bytes(self):
        """The bytes of the journal."""
        with open(self.journal, "rb") as file:
            return file.read()

    def look_at(self, server, metric):
        """Queries go on over what is published, and the pages say what they should."""
        peer = server.connect()
        self.ledger.judge(set(zip(ASKED, peer.ask_all(ASKED))))
        peer.end()
        self.ledger.look_at_page(server.page("/health"))
        self.wrong += [] if metric in server.page("/metrics") else [f"/metrics does not have {metric.decode().strip()}"]

    def look_soon(self, server, metric):
        """The page has this soon: a desk's turn may end a little after its connection."""
        end = time.monotonic() + SOON
        while metric not in server.page("/metrics") and time.monotonic() < end:
            time.sleep(0.02)
        self.wrong += [] if metric in server.page("/metrics") else [f"/metrics does not have {metric.decode().strip()} once the desk has left"]

    def said_once(self, server):
        """One line says that the disk failed; it may come a little after the desk's connection has ended."""
        end = time.monotonic() + SOON
        while not (said := [line for line in server.said() if line.startswith(DISK_FAILED)]) and time.monotonic() < end:
            time.sleep(0.02)
        self.wrong += [] if len(said) == 1 else [f"{len(said)} lines say that the disk failed, and not 1: {server.said()}"]

    def tear(self, kind):
        """Tears what was not flushed."""
        crashed = Crashed(self.before, self.record.calls())
        if kind != LEFT:
            with open(self.journal, "wb") as file:
                file.write(crashed.torn(Dice(kind), kind))

    def again(self, may_be=()):
        """Starts a server over what is left: it has all that was answered `committed`, and what else may be is all or nothing."""
        self.ledger.unanswered = list(may_be)
        with begin(self.program, self.journal) as server:
            self.ledger.settle(server.status()["edition"])
            self.look_at(server, NOT_FAILED)
            self.ledger.look_at_file(self.bytes())

    def end(self, words):
        """What was wrong, with what the trial was."""
        return [f"{words}: {text}" for text in [*self.wrong, *self.ledger.differences.first]]


@contextlib.contextmanager
def trial(program, words, wrong):
    """A trial, whose faults are added to a list."""
    with tempfile.TemporaryDirectory() as folder:
        try:
            one = Trial(program, folder)
            yield one
            wrong += one.end(words)
        except (Ended, OSError) as error:
            wrong.append(f"{words}: {error}")


def groups():
    """The edits of some commits."""
    return [[publish(1 + number * EDITS + place) for place in range(EDITS)] for number in range(COMMITS)]


def failed_flush(program, number, way, wrong):
    """A flush fails: nothing is committed from then on, queries go on, and the commit is kept whole or not at all."""
    with trial(program, f"flush {number} failed, the rest {way}", wrong) as one:
        with one.failing(FLUSH, number) as server:
            talk = DeskTalk(0)
            talk.connect(server)
            for place, group in enumerate(groups()):
                replies = [one.take(talk, line) for line in [*group, COMMIT]]
                if NOT_KEPT in replies:
                    break
            one.wrong += differs("the commit that failed", (place, replies[-1]), ((number - FLUSHES_OF_START - 1) // FLUSHES_OF_COMMIT, NOT_KEPT))
            one.wrong += differs("what came behind it", set(talk.ask([COMMIT, publish(90), COMMIT])), {NOT_KEPT})
            talk.end()
            one.look_soon(server, FAILED)
            talk.connect(server)
            one.wrong += differs("the next desk", set(talk.ask([publish(91), publish(92)])), {NOT_KEPT})
            talk.end()
            one.look_at(server, FAILED)
            one.said_once(server)
            server.kill()
        one.tear(way)
        one.again([COMMIT])


def failed_write(program, number, is_killed, wrong):
    """A write finds no room: that line is refused, and the same line is taken again, or the server is killed."""
    with trial(program, f"write {number} found no room, and the server {'is killed' if is_killed else 'goes on'}", wrong) as one:
        refused = []
        with one.failing(WRITE, number, "error=ENOSPC") as server:
            talk = DeskTalk(0)
            talk.connect(server)
            for line in [line for group in groups() for line in [*group, COMMIT]]:
                if one.take(talk, line) == NOT_KEPT:
                    refused.append(line)
                    if is_killed:
                        break
                    one.wrong += differs("the same line again", one.take(talk, line) == NOT_KEPT, False)
            talk.end()
            one.wrong += differs("lines that were refused", len(refused), 1)
            one.look_at(server, NOT_FAILED)
            one.said_once(server)
            server.kill()
        one.again(line for line in refused if is_killed and line == COMMIT)


def failed_cut(program, is_killed, wrong):
    """What another desk left cannot be cut off."""
    with trial(program, f"a cut failed, and the server {'is killed' if is_killed else 'goes on'}", wrong) as one:
        with one.failing(CUT, 1) as server:
            one.ask(server, [publish(number) for number in range(50, 54)])
            talk = DeskTalk(0)
            talk.connect(server)
            replies = [one.take(talk, line) for line in [publish(60), COMMIT]]
            one.wrong += differs("the commit", replies[-1], NOT_KEPT)
            if not is_killed:
                one.wrong += differs("the commit again", one.take(talk, COMMIT) == NOT_KEPT, False)
            one.look_at(server, NOT_FAILED)
            server.kill()
        one.again([COMMIT] * is_killed)


def failed_start(program, call, number, wrong):
    """A flush at the start fails: no server begins, and the next one does."""
    with trial(program, f"{call} {number} failed at a start", wrong) as one:
        try:
            one.failing(call, number).stop()
            one.wrong.append("the server began")
        except Ended as ended:
            one.wrong += [] if SAID in str(ended) else [f"it said {ended}"]
        one.wrong += differs("the journal is as it was", one.bytes() == one.before, True)
        one.again()


def killed_at(program, call, number, way, wrong):
    """The server is killed before a call: all that was answered is there, and what was not is there or not. Whether it was killed."""
    with trial(program, f"killed before {call} {number}, the rest {way}", wrong) as one:
        talk, is_over = DeskTalk(0), False
        with one.failing(call, number, "signal=KILL") as server, contextlib.suppress(Ended, OSError):
            for lines in TURNS:
                talk.connect(server)
                for line in lines:
                    talk.ask([line])
                talk.end()
            is_over = True
        one.ledger.take_turns(talk.turns)
        one.tear(way)
        one.again(one.ledger.unanswered)
    return not is_over


def killed_at_calls(program, is_long):
    """the server killed before each of its calls on the journal in turn, and what it did not flush torn: nothing is lost"""
    wrong, ways = [], [LEFT, *TEARS]
    for call, first in ((WRITE, 1), (CUT, 1), (FLUSH, FLUSHES_OF_START + 1)):
        for number in itertools.count(first):
            tried = ways if is_long else [LEFT, ways[1 + number % len(TEARS)]]
            if not all([killed_at(program, call, number, way, wrong) for way in tried]):
                break
    return wrong


def failed_flushes(program, is_long):
    """each flush of some commits failing in turn: code 23 from then on, old replies, and after a crash all of that commit or nothing"""
    wrong, ways = [], [LEFT, *TEARS]
    for number in range(FLUSHES_OF_START + 1, FLUSHES_OF_START + COMMITS * FLUSHES_OF_COMMIT + 1):
        for way in ways if is_long else [LEFT, ways[1 + number % len(TEARS)]]:
            failed_flush(program, number, way, wrong)
    return wrong


def full_disks(program, is_long):
    """each write of some commits finding no room in turn: code 23, and the same line again, or a crash, loses nothing"""
    wrong = []
    for number in range(1, COMMITS * WRITES_OF_COMMIT + 1):
        for is_killed in (False, True):
            failed_write(program, number, is_killed, wrong)
    return wrong


def failed_cuts(program, is_long):
    """what another desk left cannot be cut off: code 23, and the same commit again, or a crash, loses nothing"""
    wrong = []
    for is_killed in (False, True):
        failed_cut(program, is_killed, wrong)
    return wrong


def failed_starts(program, is_long):
    """each flush of a start failing: the server says so and does not begin, and the next one does"""
    wrong = []
    for call, number in (("fsync", 1), ("fsync", 2), (FLUSH, 1)):
        failed_start(program, call, number, wrong)
    return wrong


CHECKS = [killed_at_calls, failed_flushes, full_disks, failed_cuts, failed_starts]
