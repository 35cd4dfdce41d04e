"""Refuses each growth of memory in turn in `lostd serve` with a map, two desks one after another, a client and a status.

The map has two mappings. The first desk withdraws one and leaves that behind; the second withdraws it too, and commits; the
client asks then, and the status is asked for its health. Each reply is as where nothing is refused; or it says that memory was
refused, and the same line again is answered as ever. Where the growth comes before the server is ready, it ends, and says so.
A connection that the server ends is made again, once. Where what the first desk left behind could not be dropped, the server
says so, and the second desk's withdrawal is refused, since it is pending already.
"""
import http.client
import subprocess
import time
from collections import Counter

from server import Ended, Standing
from serving import INTERNAL, MEMORY, OUT_OF_MEMORY, PROGRAM, TOP, Wrong, variables

MAP = f"{TOP}/examples/maps/two-districts.jsonl"
WITHDRAW = b'{"withdraw":{"source":"map.example","sourceId":"B","lastUpdated":"2025-12-02T00:00:00Z"}}'
COMMIT = b'{"commit":{}}'
STAGED = b'{"staged":{"pending":1}}'
UNKNOWN = b'{"refused":{"code":14,"name":"IdentityUnknown"}}'
COMMITTED = b'{"committed":{"edition":3}}'
# A server without an end makes no end of growths: so many in a row that nobody notices are behind the last that matters.
QUIET = 100
PATIENCE = 5
LEFT = "lostd: memory ran out: the last desk's pending edits could not be dropped, and the next desk's commit publishes them"
with open(f"{TOP}/examples/one-mapping.jsonl", "rb") as session:
    QUESTION = session.read().splitlines()[2]
with open(f"{TOP}/examples/one-mapping.expected", "rb") as replies:
    FOUND = replies.read().splitlines()[2].replace(b'"edition":1', b'"edition":3')


class Run:
    """A server with one growth refused, and those that it serves."""

    def __init__(self, server, refused):
        self.server, self.refused = server, refused
        self.ways = Counter()

    def ask(self, connect, peer, line):
        """The reply to a line, over another connection where the server ended the first; and the connection."""
        try:
            return peer.ask(line), peer
        except (Ended, OSError):
            if self.ways["a connection ended"]:
                raise
            self.ways["a connection ended"] += 1
            peer = connect()
            return peer.ask(line), peer

    def judge(self, connect, peer, line, wanted):
        """Asks a line, and again where its reply says that memory was refused; the connection."""
        reply, peer = self.ask(connect, peer, line)
        if reply in (INTERNAL, MEMORY):
            self.ways[reply.decode()] += 1
            reply, peer = self.ask(connect, peer, line)
        if reply != wanted:
            raise Wrong(f"growth {self.refused}: {line!r} gives {reply!r} and not {wanted!r}; it said {self.server.said()}")
        return peer

    def desks(self):
        """The first desk leaves an edit behind, and the second commits one."""
        first = self.judge(self.server.desk, self.server.desk(), WITHDRAW, STAGED)
        first.end()
        second = self.server.desk()
        reply, second = self.ask(self.server.desk, second, WITHDRAW)
        if reply == MEMORY:
            self.ways[reply.decode()] += 1
            reply, second = self.ask(self.server.desk, second, WITHDRAW)
        # What is said goes by a thread of its own, and may come after the reply.
        end = time.monotonic() + (PATIENCE if reply == UNKNOWN else 0)
        while not (is_left := LEFT in self.server.said()) and time.monotonic() < end:
            time.sleep(0.01)
        self.ways["left pending"] += is_left
        if reply != (UNKNOWN if is_left else STAGED):
            raise Wrong(f"growth {self.refused}: the second desk gets {reply!r}; it said {self.server.said()}")
        self.judge(self.server.desk, second, COMMIT, COMMITTED).end()

    def health(self):
        """Asks for the health of the server, twice where the first answer is none."""
        for _ in range(2):
            asking = http.client.HTTPConnection("127.0.0.1", self.server.status_port, timeout=60)
            try:
                asking.request("GET", "/health")
                if asking.getresponse().status == 200:
                    return
            except (OSError, http.client.HTTPException):
                pass
            finally:
                asking.close()
            self.ways["no health"] += 1
        raise Wrong(f"growth {self.refused}: there is no health")

    def run(self):
        """All of it."""
        self.desks()
        self.judge(self.server.connect, self.server.connect(), QUESTION, FOUND).end()
        self.health()


def has_ended(server):
    """Whether the server ends by itself, and says that memory ran out."""
    try:
        status = server.process.wait(20)
    except subprocess.TimeoutExpired:
        return False
    return status == 1 and OUT_OF_MEMORY in server.said()


def run(library, refused):
    """In which ways a server went where this growth is refused, and what it said."""
    given = {"LD_PRELOAD": library, "REFUSE": str(refused)}
    with variables(given):
        try:
            server = Standing(PROGRAM, 1, "--map", MAP)
        except Ended as ended:
            if "lostd: " not in str(ended):
                raise Wrong(f"growth {refused}: {ended}") from None
            return Counter({"not begun": 1}), []
    with server:
        one = Run(server, refused)
        try:
            one.run()
        except (Ended, OSError) as error:
            if has_ended(server):
                return Counter({"ended before the first line": 1}), []
            raise Wrong(f"growth {refused}: {error}; it said {server.said()}") from None
        return +one.ways, server.said()


def sweep(library):
    """How many growths were refused until none of a row of them was noticed, and in how many ways it goes with each refused."""
    ended = Counter()
    refused = quiet = 0
    while quiet < QUIET:
        refused += 1
        ways, _ = run(library, refused)
        if sum(ways.values()) > 2:
            raise Wrong(f"growth {refused}: {ways}")
        quiet = 0 if ways else quiet + 1
        ended += ways or Counter({"not needed": 1})
    return refused - QUIET, ended - Counter({"not needed": QUIET})
