"""Compares the programs over TCP, in turns: one connection, so many lines at a time."""
import contextlib
import select
import socket
import subprocess
import threading
import time

from programs import PIECE, Failed, file_pieces, processor_seconds
from questions import Questions
from replays import Turns, in_turns, maps_of, need_same, row

DEPTHS = {1: 4_000, 16: 32_000}
WORKERS, PATIENCE = 4, 60.0


def free_port():
    """A port of this machine that nobody uses."""
    with socket.socket() as one:
        one.bind(("127.0.0.1", 0))
        return one.getsockname()[1]


def connect(port):
    """A connection to a port."""
    peer = socket.create_connection(("127.0.0.1", port), timeout=PATIENCE)
    peer.setsockopt(socket.IPPROTO_TCP, socket.TCP_NODELAY, 1)
    return peer


class Serving:
    """A server that runs, with a connection that asks."""

    def __init__(self, program):
        self.program = program
        self.queries, self.desk = free_port(), free_port()
        words = program.serve_words(self.queries, self.desk, WORKERS)
        self.process = subprocess.Popen(words, stdout=subprocess.PIPE, bufsize=0)

    def __enter__(self):
        said = b""
        if select.select([self.process.stdout], [], [], PATIENCE)[0]:
            said = self.process.stdout.readline()
        if said != b"ready\n":
            self.process.kill()
            raise Failed(f"{self.program.title} serve was not ready: status {self.process.wait()}")
        self.peer = connect(self.queries)
        return self

    def __exit__(self, *_):
        self.peer.close()
        self.process.kill()
        self.process.communicate()

    def load(self, path, count):
        """Sends the desk lines of a file; their replies."""
        with connect(self.desk) as desk:
            writer = threading.Thread(target=lambda: [desk.sendall(piece) for piece in file_pieces(path)], daemon=True)
            writer.start()
            replies = self.take(desk, count)
            writer.join()
        return replies

    def take(self, peer, count):
        """So many replies."""
        taken = []
        while count > 0:
            piece = peer.recv(PIECE)
            if not piece:
                raise Failed(f"{self.program.title} serve ended a connection")
            count -= piece.count(b"\n")
            taken.append(piece)
        return b"".join(taken)

    def ask(self, groups, depth):
        """The replies to groups of so many lines, each sent when the one before was answered, and both times it took."""
        begun, spent = time.perf_counter(), processor_seconds(self.process)
        told = []
        for group in groups:
            self.peer.sendall(group)
            told.append(self.take(self.peer, depth))
        return b"".join(told), time.perf_counter() - begun, processor_seconds(self.process) - spent


def compare_depth(servers, land, depth, rounds):
    """Asks both servers in turns, and prints two rows."""
    count = DEPTHS[depth]
    lines = Questions(land).lines("anywhere", count)
    each = lines.splitlines(keepends=True)
    groups = [b"".join(each[first : first + depth]) for first in range(0, count, depth)]
    clock, processor = [], []
    for number in range(rounds + 1):
        told = in_turns(number, servers, lambda server: server.ask(groups, depth))
        need_same(lines, [replies for replies, *_ in told])
        clock.append([count / seconds for _, seconds, _ in told])
        processor.append([count / max(seconds, 1e-9) for *_, seconds in told])
    for what, rates in (("by the clock", clock), ("by processor time", processor)):
        turns = Turns(rates[1:])
        middles = [f"{one:,.0f}" for one in turns.middles()]
        row(f"{land.mappings:,}", f"depth {depth}, {what}", middles, f"{turns.ratio():.2f}")


def compare_servers(programs, sizes, given, folder):
    """Compares the servers at each size, and prints the table."""
    print(f"Over TCP, points all over the map, one connection: replies a second, the middle of {given.rounds} rounds in turn.")
    row("mappings", "lines at a time", ("lostd", "plain"), "lostd / plain")
    for land, path, count in maps_of(sizes, folder):
        with contextlib.ExitStack() as stack:
            servers = [stack.enter_context(Serving(program)) for program in programs]
            need_same(b"", [server.load(path, count) for server in servers])
            for depth in DEPTHS:
                compare_depth(servers, land, depth, given.rounds)
