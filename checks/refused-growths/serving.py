"""Refuses each growth of memory in turn in `lostd serve`, while a desk and a client speak with it.

The lines are those of the session replace-withdraw: desk lines over the desk's connection, others over a client's. Each is
answered as in the session; or a question by internalError and a desk line by code 20, and then the same line again as in
the session. Where the growth comes before the server is ready, it ends with one line on standard error. A connection that is
ended by the server is made again; at most one is, and the server says so in one line. Where the growth is one for a worker or
a thread, the server ends before it answers a line.
"""
import contextlib
import os
import sys
from collections import Counter

HERE = os.path.dirname(os.path.realpath(__file__))
TOP = os.path.dirname(os.path.dirname(HERE))
sys.path.append(f"{TOP}/checks/serve")

from server import Ended, Server

PROGRAM = f"{TOP}/crates/lostd/out/lostd"
ROW = f"{TOP}/examples/replace-withdraw"
INTERNAL = b'{"errors":{"error":"internalError"}}'
MEMORY = b'{"refused":{"code":20,"name":"Memory"}}'
OUT_OF_MEMORY = "lostd: memory ran out"
CONNECTIONS = 2
QUESTION = b'{"findService"'


class Wrong(Exception):
    """What should not have come."""


@contextlib.contextmanager
def variables(given):
    """Sets variables of the environment for a while."""
    os.environ.update(given)
    try:
        yield
    finally:
        for name in given:
            del os.environ[name]


def lines_of(ending):
    with open(f"{ROW}.{ending}", "rb") as file:
        return file.read().splitlines()


class Run:
    """A server with one growth refused, its desk and its client."""

    def __init__(self, server, refused):
        self.server, self.refused = server, refused
        self.ways = Counter()
        self.answered, self.has_begun = 0, False

    def connect(self):
        """Connects the desk and the client."""
        self.desk, self.client = self.server.desk(), self.server.connect()

    def ask(self, line):
        """The reply to a line, over another connection where the client's was ended."""
        if not line.startswith(QUESTION):
            reply = self.desk.ask(line)
            self.has_begun = True
            return reply
        try:
            reply = self.client.ask(line)
        except Ended:
            if self.ways["a connection ended"]:
                raise
            self.ways["a connection ended"] += 1
            self.client = self.server.connect()
            reply = self.client.ask(line)
        self.answered += 1
        return reply

    def judge(self, line, wanted):
        """Asks a line; where its reply says that memory was refused, asks it again."""
        reply = self.ask(line)
        if reply == wanted:
            return
        if reply != (INTERNAL if line.startswith(QUESTION) else MEMORY):
            raise Wrong(f"growth {self.refused}: {line!r} gives {reply!r}")
        self.ways[reply.decode()] += 1
        again = self.ask(line)
        if again != wanted:
            raise Wrong(f"growth {self.refused}: {line!r}, given again, gives {again!r}")

    def finish(self):
        """Ends both connections, and looks at how the server ends."""
        self.desk.end()
        self.client.end()
        self.server.use_up()
        ended = self.server.finish()
        faults = len(self.server.said()) if self.refused else 0
        if ended != (0, b"done lines=%d faults=%d\n" % (self.answered, faults)):
            raise Wrong(f"growth {self.refused}: it ends with {ended}, after {self.answered} questions and {faults} faults")
        # The last connection asks nothing, and only the server tells of its end.
        self.ways |= Counter({"a connection ended": faults} if faults else {})


def run(library, refused, count=False):
    """In which ways a server went where this growth is refused, and what it said; 0 refuses none."""
    given = {"LD_PRELOAD": library, "REFUSE": str(refused)} | ({"COUNT": "1"} if count else {})
    with variables(given):
        try:
            server = Server(PROGRAM, 1, CONNECTIONS)
        except Ended as ended:
            if str(ended).count("lostd: ") != 1:
                raise Wrong(f"growth {refused}: {ended}") from None
            return Counter({"not begun": 1}), []
    with server:
        one = Run(server, refused)
        try:
            one.connect()
            for line, wanted in zip(lines_of("jsonl"), lines_of("expected")):
                one.judge(line, wanted)
            one.finish()
        except (Ended, OSError) as error:
            if not one.has_begun and server.finish() == (1, b"") and server.said() == [OUT_OF_MEMORY]:
                return Counter({"ended before the first line": 1}), []
            raise Wrong(f"growth {refused}: {error}; it said {server.said()}") from None
        return one.ways, server.said()


def sweep(library):
    """How many growths a run has, and in how many ways it goes with each refused."""
    ways, said = run(library, 0, count=True)
    if ways:
        raise Wrong(f"with no growth refused: {ways}")
    made = int(said[-1].split()[-1])
    ended = Counter()
    for refused in range(1, made + 1):
        ways, said = run(library, refused)
        if sum(ways.values()) > 1 or len(said) != ways["a connection ended"]:
            raise Wrong(f"growth {refused}: {ways}, and it said {said}")
        ended += ways or Counter({"not needed": 1})
    return made, ended
