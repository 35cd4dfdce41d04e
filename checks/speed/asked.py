"""Requests with the replies that a server gives, whichever edition these name, and a desk that commits beside them."""
import contextlib
import os
import re
import subprocess
import time

from building.faults import Fault
from edits import COMMITTED, STAGED, Edits
from kinds import COMMIT
from measuring import compiled
from server import Peer
from sides import FOUND, write_pairs

HERE = os.path.dirname(os.path.realpath(__file__))
EDITION = re.compile(rb'"edition":(\d+)')
COMMITS_A_SECOND, LEAST_COMMITS, MARGIN, PATIENCE = 100, 90, 0.2, 120


def of_any_edition(reply, digits):
    """A reply that may name any edition of so many digits, as asking.h has it."""
    return EDITION.sub(b'"edition":' + bytes(digits), reply)


class Asked:
    """Requests that find a mapping, and a server's replies."""

    def __init__(self, port, lines, path):
        peer, self.path = Peer(port), path
        self.lines = lines.splitlines()
        self.replies = peer.ask_all(self.lines)
        peer.end()
        for line, reply in zip(self.lines, self.replies):
            if not reply.startswith(FOUND):
                raise Fault(f"lostd finds nothing: {line.decode()} gets {reply.decode(errors='replace')[:200]}")

    def write(self, digits=None):
        """Writes them for the programs in C: with any edition of so many digits, or with that of the replies; the path of the file."""
        replies = self.replies if digits is None else [of_any_edition(reply, digits) for reply in self.replies]
        write_pairs([(line + b"\n", reply + b"\n") for line, reply in zip(self.lines, replies)], self.path)
        return self.path


def begun(path, *words):
    """A program that runs with these words, and tells what it notes."""
    return subprocess.Popen([path, *map(str, words)], stdout=subprocess.PIPE, stderr=subprocess.PIPE, text=True)


class Waits:
    """The program that notes how long each reply takes; it is compiled into a folder."""

    def __init__(self, folder):
        self.path = compiled(f"{HERE}/waits.c", folder)

    def begin(self, *words):
        """Begins to ask."""
        return begun(self.path, *words)

    def end(self, process):
        """How many replies came, and the nanoseconds within which half of them and 99 of a hundred did."""
        try:
            told, said = process.communicate(timeout=PATIENCE)
        except subprocess.TimeoutExpired:
            process.kill()
            process.communicate()
            raise Fault(f"lostd did not reply for {PATIENCE} seconds") from None
        if process.returncode:
            raise Fault(f"lostd, asked line by line: {said.strip() or f'status {process.returncode}'}")
        return [int(number) for number in told.split()]

    def ask(self, port, pairs, seconds):
        """The same of a server that is asked for so long."""
        return self.end(self.begin(pairs, port, seconds))


class Desk:
    """The desk of a server of districts. It publishes one beside them, and replaces it again and again."""

    def __init__(self, waits, server, land, folder):
        self.waits, self.port, self.path = waits, server.desk_port, f"{folder}/edits"
        self.edits, self.edition, self.number = Edits(land), 0, land.mappings
        self.send(self.edits.lines("publish", 1))
        self.commit(2)

    def replacement(self):
        """The line of the next replacement."""
        return self.edits.replacement(self.number)

    def commit(self, count):
        """Commits so many replacements as fast as it goes."""
        self.send(b"".join(self.replacement() + COMMIT for _ in range(count)))

    def send(self, lines):
        """Sends edits and commits. With the first ones the second copy of the book catches up with the map."""
        peer = Peer(self.port)
        replies = peer.ask_all(lines.splitlines())
        peer.end()
        for reply in replies:
            if not reply.startswith((STAGED, COMMITTED)):
                raise Fault(f"lostd refuses an edit: {reply.decode(errors='replace')[:200]}")
        self.edition = int(EDITION.search(replies[-1])[1])

    def digits(self, seconds):
        """How many digits each edition of the next so many seconds has."""
        due = self.due(seconds)
        while len(str(self.edition)) < len(str(self.edition + due)):
            self.commit(min(due, 10 ** len(str(self.edition)) - self.edition))
        return len(str(self.edition))

    def due(self, seconds):
        """The most commits of so many seconds."""
        return int((seconds + 2 * MARGIN) * COMMITS_A_SECOND) + 2

    @contextlib.contextmanager
    def committing(self, seconds):
        """Commits 100 times a second while something takes so many seconds; a list that then holds the nanoseconds of a commit."""
        digits, found = self.digits(seconds), []
        committed = COMMITTED + bytes(digits) + b"}}\n"
        pairs = [pair for _ in range(self.due(seconds)) for pair in ((self.replacement(), STAGED + b"\n"), (COMMIT, committed))]
        write_pairs(pairs, self.path)
        process = self.waits.begin(self.path, self.port, seconds + 2 * MARGIN, 1_000_000 // COMMITS_A_SECOND)
        try:
            time.sleep(MARGIN)
            yield found
            count, *spans = self.waits.end(process)
        finally:
            if process.poll() is None:
                process.kill()
                process.communicate()
        if count < LEAST_COMMITS * seconds:
            print(f"note: the desk committed {count} times in {seconds + 2 * MARGIN:.1f} seconds, since it waited for its replies", flush=True)
        self.edition += count
        found += spans
