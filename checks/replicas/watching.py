"""What clients are told through HAProxy, and what each server shows while it is in rotation."""
import random
import threading
import time
from typing import NamedTuple

from server import Ended, Peer
from verdicts import edition_in, shown

CLIENTS, LINES, PAUSE = 4, 20, 0.05
LOOK = 0.25
PATIENCE = 5


class Seen(NamedTuple):
    """A server in rotation: when, its name, its edition and the digest of its map."""

    moment: float
    name: str
    edition: int
    map: str


class Asking(threading.Thread):
    """A client: asks over one connection after another, and keeps each different reply, with when it came first and last."""

    def __init__(self, port, lines, seed):
        super().__init__(daemon=True)
        self.port, self.lines, self.dice = port, lines, random.Random(seed)
        self.replies, self.count, self.lost, self.falls = {}, 0, 0, []
        self.is_over = threading.Event()

    def run(self):
        """Asks on and on."""
        while not self.is_over.is_set():
            try:
                self.ask_some(Peer(self.port))
            except (Ended, OSError):
                self.lost += 1
                time.sleep(PAUSE)

    def ask_some(self, peer):
        """Asks over one connection, on which no edition may fall."""
        last = 0
        try:
            for line in self.dice.choices(self.lines, k=LINES):
                peer.put(line + b"\n")
                reply = peer.take(1, PATIENCE)[0]
                self.keep(line, reply)
                edition = edition_in(reply) or 0
                if edition < last:
                    self.falls.append(f"edition {edition} came after {last} on one connection: {shown(line)}")
                last = max(last, edition)
                time.sleep(PAUSE)
        finally:
            peer.socket.close()

    def keep(self, line, reply):
        """Keeps a reply."""
        now = time.monotonic()
        self.count += 1
        self.replies[(line, reply)] = (self.replies.get((line, reply), (now, now))[0], now)


class Sampling(threading.Thread):
    """Looks again and again which servers are in rotation, and what they show."""

    def __init__(self, balancer, members):
        super().__init__(daemon=True)
        self.balancer, self.members, self.seen = balancer, members, []
        self.is_over = threading.Event()

    def run(self):
        """Looks on and on. A server counts that is in rotation before and after it says where it stands."""
        while not self.is_over.is_set():
            before = self.balancer.rotation()
            standing = {one.name: one.standing() for one in self.members if one.name in before}
            after = self.balancer.rotation()
            now = time.monotonic()
            self.seen += [Seen(now, name, *where) for name, where in standing.items() if where and name in after]
            time.sleep(LOOK)


class Watch:
    """All clients, and who looks."""

    def __init__(self, balancer, members, lines):
        self.clients = [Asking(balancer.front, lines, seed) for seed in range(CLIENTS)]
        self.sampling = Sampling(balancer, members)
        self.threads = [*self.clients, self.sampling]

    def start(self):
        """Begins."""
        for thread in self.threads:
            thread.start()

    def end(self):
        """Ends."""
        for thread in self.threads:
            thread.is_over.set()
        for thread in self.threads:
            thread.join(60)
