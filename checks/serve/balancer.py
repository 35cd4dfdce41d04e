"""HAProxy before two servers, by the section of docs/OPERATING.md as it is written there, while each of them is killed in turn."""
import contextlib
import os
import re
import signal
import tempfile
import threading
import time
import urllib.request
from typing import NamedTuple

from plain_lines import LIST, publish, question
from processes import Program, await_port
from server import COMMIT, Ended, Peer, Running, free_ports
from verdicts import Books, Question, shown

TOP = os.path.dirname(os.path.dirname(os.path.dirname(os.path.realpath(__file__))))
PAGE = f"{TOP}/docs/OPERATING.md"
SECTION = re.compile(r"```text\n([^`]*^listen lost\n[^`]*)```", re.MULTILINE)
HOSTS = ["127.0.0.2", "127.0.0.3"]
WORKERS, CLIENTS, PAUSE = 32, 8, 0.005
PATIENCE = 15
# Seconds: before the first kill, and from one event to the next. HAProxy takes a server back after a few good looks.
BEFORE, BETWEEN = 3.0, 8.0
MAPPINGS, FEWEST = 20, 1_000
MOST_SHOWN = 5


class Wrong(Exception):
    """Why the section cannot be tried."""


class Places(NamedTuple):
    """The port of the balancer, and those of both servers, each of which has an address of its own."""

    front: int
    queries: int
    status: int


class Asked(NamedTuple):
    """When a connection was begun and ended, the request, and its reply or what went wrong."""

    begun: float
    ended: float
    line: bytes
    reply: bytes
    trouble: str


def section(places):
    """The section of the page, with addresses of this machine."""
    with open(PAGE, encoding="utf-8") as file:
        found = SECTION.search(file.read())
    if not found:
        raise Wrong(f"{PAGE} has no block of text with `listen lost`")
    text = found[1]
    for written, here in (
        ("bind :5222", f"bind 127.0.0.1:{places.front}"), ("10.0.0.5:5222", f"{HOSTS[0]}:{places.queries}"),
        ("10.0.0.6:5222", f"{HOSTS[1]}:{places.queries}"), ("port 5224", f"port {places.status}"),
    ):
        if written not in text:
            raise Wrong(f"the block of {PAGE} has no {written!r}")
        text = text.replace(written, here)
    return text


class Behind:
    """The two servers behind the balancer, each of which begins with the map."""

    def __init__(self, program, places, map_file):
        self.program, self.places, self.map_file = program, places, map_file
        self.running, self.kills = [], []

    def begin_all(self):
        """Begins both."""
        for host in HOSTS:
            self.running.append(self.begin(host))

    def begin(self, host):
        """A server at an address of its own."""
        words = ["--queries", f"{host}:{self.places.queries}", "--status", f"{host}:{self.places.status}"]
        return Running(self.program, [*words, "--map", self.map_file, "--workers", str(WORKERS)])

    def kill(self, number):
        """Kills one of them; the while that it took to die is kept."""
        begun = time.monotonic()
        self.running[number].signal(signal.SIGKILL)
        self.kills.append((begun, time.monotonic()))

    def begin_again(self, number):
        """Starts one again that was killed."""
        self.running[number].stop()
        self.running[number] = self.begin(HOSTS[number])

    def accepted(self, number):
        """How many connections one of them has had."""
        with urllib.request.urlopen(f"http://{HOSTS[number]}:{self.places.status}/metrics", timeout=PATIENCE) as page:
            return int(re.search(rb"^lostd_connections_total ([0-9]+)", page.read(), re.MULTILINE)[1])

    def stop(self):
        """Ends both."""
        for server in self.running:
            server.stop()


class Clients:
    """Clients that ask one request a connection, again and again until they are told to end."""

    def __init__(self, port, lines):
        self.port, self.lines, self.told, self.is_over = port, lines, [], threading.Event()
        self.threads = [threading.Thread(target=self.ask_on, args=(number,)) for number in range(CLIENTS)]

    def __enter__(self):
        for thread in self.threads:
            thread.start()
        return self

    def __exit__(self, *_):
        self.is_over.set()
        for thread in self.threads:
            thread.join()

    def ask_on(self, number):
        """What one client does."""
        while not self.is_over.is_set():
            number += 1
            self.told.append(self.ask(self.lines[number % len(self.lines)]))
            time.sleep(PAUSE)

    def ask(self, line):
        """Asks one request over a connection of its own."""
        begun, reply, trouble = time.monotonic(), b"", ""
        try:
            peer = Peer(self.port)
            peer.put(line + b"\n")
            reply = peer.take(1, PATIENCE)[0]
            peer.end(PATIENCE)
        except (Ended, OSError) as error:
            trouble = f"{type(error).__name__}: {error}"
        return Asked(begun, time.monotonic(), line, reply, trouble)


def mapped():
    """The lines of a map, and the books after them."""
    lines, books = [*map(publish, range(MAPPINGS)), COMMIT], Books()
    for number, line in enumerate(lines, 1):
        is_commit = line == COMMIT
        books.add(line, b'{"committed":{"edition":%d}}' % MAPPINGS if is_commit else b'{"staged":{"pending":%d}}' % number)
    return lines, books


def judged(told, kills, books):
    """What is wrong with what clients were told. A connection that was open when a server was killed may be lost."""
    lost = [one for one in told if one.trouble]
    excused = [one for one in lost if any(one.begun <= dead and begun <= one.ended for begun, dead in kills)]
    slowest = max((one.ended - one.begun for one in told if not one.trouble), default=0.0)
    print(
        f"    {len(told)} connections; {len(excused)} were lost that were open when a server was killed, and "
        f"{len(lost) - len(excused)} others; the slowest of the rest took {slowest:.2f} seconds"
    )
    wrong = [f"lost {one.begun - kills[0][0]:+.2f} s from the first kill: {one.trouble}" for one in lost if one not in excused]
    wanted = {one.line: Question(one.line, books.oracle).wanted(books.by_edition[MAPPINGS]) for one in told}
    wrong += [f"{shown(one.line)}: {shown(one.reply)}" for one in told if not one.trouble and one.reply != wanted[one.line]]
    wrong += [] if len(excused) <= CLIENTS * len(kills) else [f"{len(excused)} connections were open when a server was killed"]
    return wrong + ([] if len(told) >= FEWEST else [f"there were {len(told)} connections alone"]) + books.differences.first


def kill_in_turn(behind):
    """Kills one server, starts it again, and kills the other one; what was wrong."""
    time.sleep(BEFORE)
    behind.kill(0)
    time.sleep(BETWEEN)
    behind.begin_again(0)
    time.sleep(BETWEEN)
    wrong = [] if behind.accepted(0) else ["the server that was started again got no connection"]
    behind.kill(1)
    time.sleep(BETWEEN)
    return wrong


def killed_behind_haproxy(program, is_long):
    """docs/OPERATING.md's HAProxy before two servers that are killed in turn, one connection a request: none is lost"""
    places = Places(*free_ports(3))
    lines, books = mapped()
    with contextlib.ExitStack() as stack:
        folder = stack.enter_context(tempfile.TemporaryDirectory())
        for name, text in (("map.jsonl", b"\n".join([*lines, b""])), ("haproxy.cfg", section(places).encode())):
            with open(f"{folder}/{name}", "wb") as file:
                file.write(text)
        behind = Behind(program, places, f"{folder}/map.jsonl")
        stack.callback(behind.stop)
        behind.begin_all()
        balancer = stack.enter_context(Program(["/usr/sbin/haproxy", "-W", "-f", f"{folder}/haproxy.cfg"]))
        await_port(places.front, balancer)
        with Clients(places.front, [LIST, *map(question, range(MAPPINGS + 1))]) as clients:
            wrong = kill_in_turn(behind)
    return (wrong + judged(clients.told, behind.kills, books))[:MOST_SHOWN]


CHECKS = [killed_behind_haproxy]
