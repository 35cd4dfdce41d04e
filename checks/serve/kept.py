"""A server over a journal that is killed, and the desk and the clients that speak with it until then."""
import contextlib
import os
import signal
import threading
import time

from clients import NO_EDITION
from live import committed
from recorded import Record
from server import PATIENCE, Ended, Peer, Standing
from verdicts import edition_in

WORKERS = 2
BATCHES, PAUSE = [1, 1, 2, 5, 12], 0.001


class Kept(Standing):
    """A server over a journal. A record says what it writes; and it may be killed so many seconds after its beginning."""

    def __init__(self, program, journal, *more, record=None, kill_after=None):
        self.record, self.is_killed = record, False
        self.timer = None if kill_after is None else threading.Timer(kill_after, self.kill_early)
        super().__init__(program, WORKERS, "--journal", journal, *more, under=record.words() if record else ())

    def begun(self):
        if self.timer:
            self.timer.start()

    def kill_early(self):
        """Kills the server, unless it has ended."""
        self.is_killed = self.process.poll() is None
        self.kill()

    def kill(self):
        """Ends the server as a crash does, wherever it is."""
        with contextlib.suppress(ProcessLookupError):
            if self.process.poll() is None:
                os.kill(self.watched(), signal.SIGKILL)
        self.process.wait(PATIENCE)

    def watched(self):
        """The number of the server's process, which strace may have begun."""
        while self.record and self.process.poll() is None:
            if number := self.record.number():
                return number
        return self.process.pid

    def stop(self):
        if self.timer:
            self.timer.cancel()
        self.kill()
        super().stop()


def begin(program, journal, *more, **options):
    """A server over a journal; None where it was killed before it was ready."""
    server = Kept.__new__(Kept)
    try:
        server.__init__(program, journal, *more, **options)
    except Ended:
        if not server.is_killed:
            raise
        return None
    return server


class DeskTalk:
    """What the desks of a server sent: for each connection the lines, each with its reply or None. `told` is the edition of the last
    commit that was answered, and `replies` is how many replies came."""

    def __init__(self, told):
        self.turns, self.told, self.replies = [], told, 0

    def connect(self, server):
        """A new connection, which begins with nothing pending."""
        self.peer = server.desk()
        self.turns.append([])

    def ask(self, lines):
        """Sends lines at once; their replies are kept, as many as came."""
        turn, first = self.turns[-1], len(self.turns[-1])
        turn += [[line, None] for line in lines]
        try:
            replies = self.peer.ask_all(lines)
        except (Ended, OSError):
            self.note(turn[first:], self.peer.came())
            raise
        self.note(turn[first:], replies)
        return replies

    def note(self, pairs, replies):
        """Keeps replies, each to its line."""
        for pair, reply in zip(pairs, replies):
            pair[1] = reply
            self.replies += 1
            self.told = committed(reply, self.told)

    def end(self):
        """Ends the connection, and waits until the server has."""
        self.peer.end()


class ClientTalk(threading.Thread):
    """A client that asks requests until the server is gone; each different reply is kept."""

    def __init__(self, port, requests, dice, desk):
        super().__init__(daemon=True)
        self.port, self.requests, self.dice, self.desk = port, requests, dice, desk
        self.replies, self.told, self.falls = 0, set(), []

    def run(self):
        with contextlib.suppress(Ended, OSError):
            peer = Peer(self.port)
            last = 0
            while True:
                lines = self.dice.choices(self.requests, k=self.dice.choice(BATCHES))
                before = max(last, self.desk.told)
                peer.put(b"".join(line + b"\n" for line in lines))
                last = self.look_at(lines, peer, before)
                time.sleep(PAUSE)

    def look_at(self, lines, peer, last):
        """Keeps replies, as many as come, and those that name an edition below an earlier one; the greatest edition so far."""
        try:
            replies, is_ended = peer.take(len(lines)), False
        except (Ended, OSError):
            replies, is_ended = peer.came(), True
        for line, reply in zip(lines, replies):
            edition = edition_in(reply)
            edition = NO_EDITION if edition is None else edition
            self.replies += 1
            self.told.add((line, reply))
            if NO_EDITION < edition < last:
                self.falls.append((line, edition, last))
            last = max(last, edition)
        if is_ended:
            raise Ended("the server is gone")
        return last
