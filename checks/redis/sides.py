"""The two servers that are asked, and the questions: what each of them is sent, and what it must reply."""
import re
import socket
import struct
import subprocess
from typing import NamedTuple

from building.faults import Fault
from maps import Land
from processes import Program, await_port, free_port
from questions import Questions
from server import PATIENCE, Peer, Running, addresses, free_ports

REDIS = "/usr/bin/redis-server"
# No persistence, one thread, and what it says where it can be read.
ALONE = ["--bind", "127.0.0.1", "--save", "", "--appendonly", "no", "--io-threads", "1", "--logfile", "/dev/stderr"]
FOUND = b'{"findServiceResponse":'
# Longer than any run.
IDLE = ["--idle", "86400"]


class Lostd(Running):
    """lostd with a map."""

    title = "lostd"

    def __init__(self, program, path, workers=1, *more):
        self.queries, self.desk_port = free_ports(2)
        words = [*addresses(self.queries, self.desk_port), "--map", path, "--workers", str(workers), *IDLE, *more]
        super().__init__(program, words)
        self.port = self.queries


class Redis(Program):
    """redis with values under keys."""

    title = "redis"

    def __init__(self, pairs):
        self.port = free_port()
        super().__init__([REDIS, "--port", str(self.port), *ALONE], stdout=subprocess.DEVNULL)
        try:
            await_port(self.port, self)
            self.keep(pairs)
        except BaseException:
            self.end()
            raise

    def keep(self, pairs):
        """Sets each key to its value."""
        with socket.create_connection(("127.0.0.1", self.port), PATIENCE) as peer:
            peer.sendall(b"".join(command(b"SET", key, value) for key, value in pairs))
            peer.shutdown(socket.SHUT_WR)
            with peer.makefile("rb") as replies:
                said = replies.read()
        if said != b"+OK\r\n" * len(pairs):
            raise Fault(f"redis does not keep a value: {said[-200:].decode(errors='replace').strip()}")


def redis_version():
    """The version of redis."""
    said = subprocess.run([REDIS, "--version"], capture_output=True, text=True, check=True).stdout
    found = re.search(r"\bv=(\S+)", said)
    return found[1] if found else "of an unknown version"


def command(*words):
    """A command of redis as bytes."""
    return b"*%d\r\n" % len(words) + b"".join(b"$%d\r\n%s\r\n" % (len(word), word) for word in words)


def key_of(number, size):
    """A key of which a GET has so many bytes, or one fewer."""
    room = size - len(command(b"GET", b""))
    return (b"%d:" % number).ljust(room - len(b"%d" % room) + 1, b"k")


class Asked(NamedTuple):
    """Pairs of a request and its reply for lostd; for redis of a key and its value, and of a GET and its reply."""

    lines: list
    kept: list
    commands: list

    def about(self):
        """How long requests and replies are."""

        def size(pairs, place):
            return round(sum(len(pair[place]) for pair in pairs) / len(pairs))

        asked, told = ([size(pairs, place) for pairs in (self.lines, self.commands)] for place in (0, 1))
        return f"requests of {asked[0]} and {asked[1]} bytes, replies of {told[0]} and {told[1]}"


def write_map(mappings, path):
    """Writes a map of so many mappings, without the edit behind it; the land that it maps."""
    land = Land(mappings)
    with open(path, "wb") as file:
        file.writelines(land.publishes())
        file.write(b'{"commit":{}}\n')
    return land


def draw(land, count, port):
    """So many questions all over a land, with what lostd replies."""
    lines, peer = Questions(land).lines("anywhere", count).splitlines(), Peer(port)
    replies = peer.ask_all(lines)
    peer.end()
    for line, reply in zip(lines, replies):
        if not reply.startswith(FOUND):
            raise Fault(f"lostd finds nothing: {line.decode()} gets {reply.decode(errors='replace')[:200]}")
    kept = [(key_of(number, len(line) + 1), reply) for number, (line, reply) in enumerate(zip(lines, replies))]
    return Asked(
        [(line + b"\n", reply + b"\n") for line, reply in zip(lines, replies)],
        kept,
        [(command(b"GET", key), b"$%d\r\n%s\r\n" % (len(value), value)) for key, value in kept],
    )


def write_pairs(pairs, path):
    """Writes requests and replies as load.c reads them."""
    with open(path, "wb") as file:
        for request, reply in pairs:
            file.write(struct.pack("=II", len(request), len(reply)) + request + reply)
