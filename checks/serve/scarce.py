"""A live history with little memory: what is answered must be right, or must say that memory was lacking.

The server gets one arena of malloc. With several, and too few addresses for them, each of its small allocations would take a
page of its own.
"""
import random
import tempfile
import time

from clients import CHAPTER_SECONDS, SHORT_LIVES, Run
from drawing import Chapter, history, long_requests
from live import FORK, committed, counted_by, start_clients, tell
from plain_lines import LIST, publish, stamp, withdraw
from places import ELEMENTS
from server import COMMIT, Ended, Server
from strict_json import write_json
from verdicts import INTERNAL, MEMORY, Books

WORKERS = 4
REQUESTS, MOST_REQUESTS = 40, 300
GROUPS = 30
CONNECTIONS_A_SECOND = 20
MOST_LARGE = 1_500
MOST_REFUSED = 6
ROUNDS = 3
LARGE_ASKED = 3
PATTERNS = [1, 4, 10, 30, 60]


def large_mapping(number):
    """A desk line that publishes a mapping of many long patterns, and perhaps a ring of many positions."""
    dice = random.Random(number)
    regions = [{"profile": "civic", "pattern": long_pattern(dice, number)} for _ in range(dice.choice(PATTERNS))]
    if dice.random() < 0.3:
        ring = [[dice.randint(-1_000, 1_000), dice.randint(-1_000, 1_000)] for _ in range(dice.choice([100, 4_000]))]
        regions.append({"profile": "geodetic-2d", "polygon": [*ring, ring[0]]})
    mapping = {
        "source": "large.example", "sourceId": f"large{number}", "key": f"large{number}", "expires": "NO-EXPIRATION",
        "lastUpdated": stamp(0), "service": "urn:service:large", "uri": ["sip:large@map.example"],
        "serviceBoundary": regions,
    }
    return write_json({"publish": mapping}).encode()


def long_pattern(dice, number):
    """A pattern of all elements, with long values."""
    return {name: f"{number} {dice.randrange(1_000_000)} " + "v" * dice.choice([100, 490]) for name in ELEMENTS}


def at_turn(line, turn):
    """The same desk line with the stamp of a later turn."""
    return line.replace(stamp(0).encode(), stamp(turn).encode(), 1)


def withdrawal(number, turn):
    """A desk line that withdraws it."""
    identity = {"source": "large.example", "sourceId": f"large{number}", "lastUpdated": stamp(turn)}
    return write_json({"withdraw": identity}).encode()


class ScarceDesk:
    """A desk that publishes until memory is refused again and again, withdraws, and begins again."""

    def __init__(self, desk, run):
        self.desk, self.run = desk, run
        self.told, self.lines, self.held, self.fills = [], {}, [], 0

    def ask(self, *lines):
        """Sends lines; the reply to the last one."""
        replies = self.desk.ask_all(list(lines))
        self.told += zip(lines, replies)
        for reply in replies:
            self.run.told.value = committed(reply, self.run.told.value)
        return replies[-1]

    def play(self):
        """Fills and empties the server until the time is over."""
        groups = [group for chapter in self.run.chapters for group in chapter.groups]
        while self.run.passed() < self.run.seconds:
            self.fill()
            for _ in range(4):
                self.ask(*groups.pop() if groups else [COMMIT])
                time.sleep(0.02)
            self.empty()
            time.sleep(0.05)

    def fill(self):
        """Publishes large mappings, each with its commit, until memory was refused some times."""
        self.fills += 1
        refused = 0
        for number in range(MOST_LARGE):
            line = self.lines.setdefault(number, large_mapping(number))
            reply = self.ask(at_turn(line, 2 * self.fills))
            if reply.startswith(b'{"staged"'):
                self.held.append(number)
            refused += (reply == MEMORY) + (self.ask(COMMIT) == MEMORY)
            if refused >= MOST_REFUSED or self.run.passed() > self.run.seconds:
                return

    def empty(self):
        """Withdraws the large mappings, each with its commit, where memory allows."""
        left = []
        for number in self.held:
            if not self.ask(withdrawal(number, 2 * self.fills + 1)).startswith(b'{"staged"'):
                left.append(number)
            self.ask(COMMIT)
        self.held = left


def chapters_of(seed, seconds):
    """The chapters: usual requests, some for large boundaries, and lines about as long as may be."""
    dice, chapters = random.Random(seed), []
    for chapter in history(seed, int(seconds / CHAPTER_SECONDS) + 1, REQUESTS, GROUPS):
        keys = [dice.choice([0, 1, 2, 5, 10, 20, 50]) for _ in range(LARGE_ASKED)]
        large = [b'{"getServiceBoundary":{"key":"large%d"}}' % key for key in keys]
        usual = dice.sample(chapter.requests, min(len(chapter.requests), MOST_REQUESTS))
        requests = usual + large + dice.choice([[], long_requests()])
        chapters.append(Chapter(dice.sample(requests, len(requests)), chapter.groups))
    return chapters


def look_afterwards(server, desk, differences):
    """Once memory is there again, edits and requests are answered as ever; how many lines a last connection asked."""
    for _ in range(ROUNDS):
        desk.empty()
    for line in (publish(1), COMMIT, withdraw(1), COMMIT):
        if desk.ask(line) == MEMORY:
            differences.add(f"afterwards: memory was refused to the desk: {line.decode()}")
    peer = server.connect()
    if INTERNAL in peer.ask_all([LIST] * 1_000):
        differences.add("afterwards: a reply was internalError")
    peer.end()
    return 1_000


def run_scarce(program, megabytes, seconds, clients, seed):
    """Runs a live history with so many megabytes, and judges it; whether all was right or said that memory was lacking."""
    chapters = chapters_of(seed, seconds)
    each = int(seconds * CONNECTIONS_A_SECOND) + 10
    with tempfile.TemporaryDirectory() as folder:
        with Server(program, WORKERS, clients * each + 1, megabytes=megabytes) as server:
            told = FORK.RawValue("Q", 0)
            run = Run(server.queries, chapters, time.monotonic(), seconds, each, seed, folder, told, SHORT_LIVES, True)
            started = start_clients(run, clients)
            desk = ScarceDesk(server.desk(), run)
            books = Books()
            try:
                desk.play()
            except Ended as ended:
                books.differences.add(f"the desk's connection: {ended}")
            counted = counted_by(started)
            passed = run.passed()
            server.made = sum(one.connections for one in counted)
            end_scarce(server, desk, counted, books.differences)
        return tell(books, desk.told, counted, passed, chapters, folder, True)


def end_scarce(server, desk, counted, differences):
    """Looks whether the server is well again, and how it ends."""
    try:
        lines = look_afterwards(server, desk, differences)
        desk.desk.end()
        server.use_up()
    except (Ended, OSError) as error:
        differences.add(f"afterwards: {error}")
        lines = 0
    lines += sum(one.replies_of_ended_well for one in counted)
    ended_early = sum(one.ended_early for one in counted)
    for wrong in server.done(lines, ended_early):
        differences.add(f"end: {wrong}; it said {server.said()[:5]}")
    wants = sum(one.wants_of_memory for one in counted)
    desk_wants = sum(reply == MEMORY for _, reply in desk.told)
    print(
        f"memory was refused to {wants} requests, {desk_wants} desk lines and {ended_early} connections; the "
        f"map was filled {desk.fills} times"
    )
    if not desk_wants:
        differences.add("memory was never refused to the desk: give less of it")
