"""Publishes commits at a steady pace through `lost-feed publish --each`, and keeps what it was told of each."""
import re
import select
import subprocess
import threading
import time
from typing import NamedTuple

from fleet import FEED
from history import History
from verdicts import Books

COMMIT = b'{"commit":{}}'
# Seconds: from one commit to the next, until a publish must have ended in some way, and between tries.
PAUSE, PATIENCE, AGAIN = 0.1, 60.0, 0.2
TOLD = re.compile(rb"\d+ edits? in 1 commit: edition (\d+), map ([0-9a-f]{32})\n")


class Told(NamedTuple):
    """A commit that the publisher was told of: when, its edition, its digest and its lines."""

    moment: float
    edition: int
    map: str
    lines: str


def edition_of_log(log):
    """The edition of a log; None where it cannot be reached."""
    ran = subprocess.run([FEED, "status", "--log", log], capture_output=True, text=True, timeout=PATIENCE)
    found = re.match(r"log: edition (\d+)", ran.stdout)
    return int(found[1]) if found else None


class Publisher(threading.Thread):
    """Publishes to an empty log until it is told to end. `books` has the oracle's book of each edition that was sent."""

    def __init__(self, log, program, folder, seed):
        super().__init__(daemon=True)
        self.log, self.said = log, open(f"{folder}/publisher.said", "ab")
        self.words = [FEED, "publish", "--log", log, "--lostd", program, "--state", f"{folder}/state", "--each", "-"]
        self.history, self.books = History(seed), Books()
        self.told, self.restarts, self.untold = [], 0, 0
        self.process, self.is_over, self.trouble = None, threading.Event(), ""

    def run(self):
        """Publishes commit after commit."""
        try:
            while not self.is_over.is_set():
                begun = time.monotonic()
                self.publish(self.history.commit())
                time.sleep(max(0.0, begun + PAUSE - time.monotonic()))
        except Exception as error:  # (whatever ends this thread is a fault of the check)
            self.trouble = f"the publisher: {type(error).__name__}: {error}"
        self.stop_process()

    def foresee(self, lines):
        """Has the oracle take a commit; the edition that it makes."""
        for reply in map(self.books.wanted, [*lines, COMMIT]):
            if b"refused" in reply:
                raise ValueError(f"the oracle refuses what was drawn: {reply!r}")
        self.books.by_edition[self.books.last()] = self.books.oracle.published
        return self.books.last()

    def publish(self, lines):
        """Publishes one commit, however often the database goes away meanwhile."""
        edition = self.foresee([one.encode() for one in lines])
        while not self.is_over.is_set():
            found = self.send(lines)
            if found:
                if int(found[1]) != edition:
                    raise ValueError(f"{found[0]!r} was told, and edition {edition} is due")
                self.told.append(Told(time.monotonic(), edition, found[2].decode(), "\n".join(lines)))
                return
            if (edition_of_log(self.log) or 0) >= edition:
                self.untold += 1
                return
            time.sleep(AGAIN)

    def send(self, lines):
        """Gives a commit to the process; what it said, or None where it ended instead."""
        if self.process is None:
            pipes = {"stdin": subprocess.PIPE, "stdout": subprocess.PIPE, "stderr": self.said}
            self.process, self.restarts = subprocess.Popen(self.words, **pipes), self.restarts + 1
        try:
            self.process.stdin.write("".join(f"{one}\n" for one in lines).encode() + COMMIT + b"\n")
            self.process.stdin.flush()
            answer = self.process.stdout.readline() if select.select([self.process.stdout], [], [], PATIENCE)[0] else b""
        except BrokenPipeError:
            answer = b""
        if not TOLD.fullmatch(answer):
            self.stop_process()
        return TOLD.fullmatch(answer)

    def stop_process(self):
        """Ends the process."""
        if self.process is not None:
            self.process.kill()
            self.process.wait()
            for pipe in (self.process.stdin, self.process.stdout):
                try:
                    pipe.close()
                except BrokenPipeError:
                    pass
            self.process = None

    def last_told(self):
        """The edition told last."""
        return self.told[-1].edition if self.told else 0

    def end(self):
        """Ends it."""
        self.is_over.set()
        self.join(PATIENCE)
