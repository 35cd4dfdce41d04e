"""checks/redis: its command line, its keys, and the program that asks both servers, at servers of these tests."""
from __future__ import annotations

import contextlib
import json
import os
import re
import shutil
import socket
import struct
import subprocess
import sys
import tempfile
import threading
import unittest
from typing import Callable, Tuple

from tests import measuring
from tests.running import TOP

CHECKS = f"{TOP}/checks"
PAIRS = [(b"ask %d\n" % number, b"%d is told\n" % number * number) for number in range(1, 30)]
SIDES = """
import sys
sys.path[:0] = [sys.argv[1] + "/tools", *(f"{sys.argv[1]}/checks/{name}" for name in ("redis", "serve", "oracle", "gateway", "plain-server"))]
from sides import command, key_of, write_pairs
print([len(command(b"GET", key_of(7, size))) for size in range(30, 2000)])
write_pairs([(b"ask %d\\n" % number, b"%d is told\\n" % number * number) for number in range(1, 30)], sys.argv[2])
"""


def answer(peer: socket.socket, spoil: Callable[[int, bytes], bytes]) -> None:
    """Answers the requests of a connection, spoiled in some way."""
    peer.setsockopt(socket.IPPROTO_TCP, socket.TCP_NODELAY, 1)
    with peer, peer.makefile("rb") as lines, contextlib.suppress(OSError):
        for count, line in enumerate(lines):
            peer.sendall(spoil(count, dict(PAIRS)[line]))


def serve(listener: socket.socket, spoil: Callable[[int, bytes], bytes]) -> None:
    """Serves each connection until the listener is closed."""
    while True:
        try:
            peer, _ = listener.accept()
        except OSError:
            return
        threading.Thread(target=answer, args=(peer, spoil), daemon=True).start()


class Redis(measuring.Refusing):
    """Runs it where it measures nothing."""

    check = "redis/run"
    mistakes = (["--rounds", "0"], ["--mappings", "2"], ["--seconds", "x"], ["--only", "all"], ["more"])

    @unittest.skipUnless(shutil.which("taskset"), "there is no taskset")
    def test_one_core(self) -> None:
        core = min(os.sched_getaffinity(0))
        self.assertEqual(self.run_check(front=("taskset", "-c", str(core))),
                         (1, ["redis: the server and the load need a core each, and there is one: use a larger machine"]))


@unittest.skipUnless(shutil.which("cc"), "there is no cc")
class Load(unittest.TestCase):
    """The program that asks, at a server of this process."""

    def setUp(self) -> None:
        made = tempfile.TemporaryDirectory()
        self.addCleanup(made.cleanup)
        self.folder = made.name
        subprocess.run(["cc", "-O1", "-pthread", "-o", f"{self.folder}/load", f"{CHECKS}/redis/load.c"], check=True)
        ran = subprocess.run([sys.executable, "-B", "-c", SIDES, TOP, f"{self.folder}/pairs"], capture_output=True, text=True, check=True)
        self.sizes = ran.stdout

    def load(self, depth: int, spoil: Callable[[int, bytes], bytes]) -> Tuple[int, str, str]:
        with socket.create_server(("127.0.0.1", 0)) as listener:
            threading.Thread(target=serve, args=(listener, spoil), daemon=True).start()
            words = [f"{self.folder}/load", f"{self.folder}/pairs", str(listener.getsockname()[1]), "5", str(depth), "2", "0.5"]
            ran = subprocess.run(words, capture_output=True, text=True, timeout=60)
            return ran.returncode, ran.stdout, ran.stderr

    def test_a_get_is_as_long_as_a_request(self) -> None:
        sizes = json.loads(self.sizes)
        self.assertTrue(all(0 <= wanted - size <= 1 for wanted, size in zip(range(30, 2000), sizes)), sizes)

    def test_replies_are_counted(self) -> None:
        for depth in (1, 16, 29):
            status, told, said = self.load(depth, lambda _, reply: reply)
            self.assertEqual((status, said), (0, ""))
            self.assertGreater(int(told), 0)
            self.assertEqual(int(told) % depth, 0)

    def test_another_reply_is_seen(self) -> None:
        for spoil in (
            lambda count, reply: reply if count < 8 else reply.replace(b"told", b"sold"),
            lambda count, reply: reply if count < 8 else reply + b"\n",
        ):
            self.assertEqual(self.load(4, spoil), (1, "", "the server: a reply is not as it was before\n"))

    def test_any_digit(self) -> None:
        with open(f"{self.folder}/pairs", "wb") as file:
            for request, reply in PAIRS:
                wanted = re.sub(rb"[0-9]", b"\0", reply)
                file.write(struct.pack("=II", len(request), len(wanted)) + request + wanted)
        status, told, said = self.load(4, lambda _, reply: reply.replace(b"1", b"7"))
        self.assertEqual((status, said), (0, ""))
        self.assertGreater(int(told), 0)
        self.assertEqual(self.load(4, lambda _, reply: reply.replace(b"1", b"x")), (1, "", "the server: a reply is not as it was before\n"))

    def test_too_few_questions(self) -> None:
        self.assertEqual(self.load(30, lambda _, reply: reply)[0], 1)
