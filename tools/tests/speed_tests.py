"""checks/speed: its command line, the program that notes how long replies take, and a small run of the program lostd."""
from __future__ import annotations

import os
import shutil
import socket
import struct
import subprocess
import sys
import tempfile
import threading
import time
import unittest
from typing import List, Tuple

from tests import measuring
from tests.running import TOP, has_serve, lostd

CHECK = f"{TOP}/checks/speed"
# What the server of these tests does: a line of a word and a number gets that number of milliseconds later the number of lines
# so far.
QUESTION, REPLY = b"after %d\n", b"line \0\0\n"
READ = """
import sys
sys.path[:0] = [sys.argv[1] + "/checks/benchmarks"]
import benches
print(getattr(benches, sys.argv[2])(sys.stdin.read())[0])
"""


def serve(listener: socket.socket) -> None:
    """Serves one connection."""
    peer, _ = listener.accept()
    with peer, peer.makefile("rb") as lines:
        for number, line in enumerate(lines, 10):
            time.sleep(int(line.split()[1]) / 1000)
            peer.sendall(b"line %d\n" % number)


class Speed(measuring.Refusing):
    """Runs it where it measures nothing."""

    check = "speed/run"
    mistakes = (["--rounds", "0"], ["--sizes", "3"], ["--sizes", "30,x"], ["--edits", "2000"], ["--seconds", "x"], ["--only", "all"], ["more"])

    @unittest.skipUnless(shutil.which("taskset"), "there is no taskset")
    def test_one_core(self) -> None:
        core = min(os.sched_getaffinity(0))
        status, said = self.run_check("--lostd", "/bin/true", "--only", "cache", front=("taskset", "-c", str(core)))
        self.assertEqual((status, len(said)), (1, 1), said)
        self.assertIn("there is one", said[0])


@unittest.skipUnless(shutil.which("cc"), "there is no cc")
class Waits(unittest.TestCase):
    """The program that notes how long each reply takes, at a server of this process."""

    def setUp(self) -> None:
        made = tempfile.TemporaryDirectory()
        self.addCleanup(made.cleanup)
        self.folder = made.name
        subprocess.run(["cc", "-O1", "-o", f"{self.folder}/waits", f"{CHECK}/waits.c"], check=True)

    def waits(self, delays: List[int], *more: str, reply: bytes = REPLY) -> Tuple[int, List[int], str]:
        with open(f"{self.folder}/asked", "wb") as file:
            for delay in delays:
                line = QUESTION % delay
                file.write(struct.pack("=II", len(line), len(reply)) + line + reply)
        with socket.create_server(("127.0.0.1", 0)) as listener:
            threading.Thread(target=serve, args=(listener,), daemon=True).start()
            words = [f"{self.folder}/waits", f"{self.folder}/asked", str(listener.getsockname()[1]), "0.4", *more]
            ran = subprocess.run(words, capture_output=True, text=True, timeout=60)
            return ran.returncode, [int(number) for number in ran.stdout.split()], ran.stderr

    def test_half_and_99_of_a_hundred(self) -> None:
        status, (count, half, most), said = self.waits([5, 5, 60])
        self.assertEqual((status, said), (0, ""))
        self.assertGreaterEqual(count, 3)
        self.assertGreaterEqual(half, 5_000_000)
        self.assertGreaterEqual(most, 60_000_000)

    def test_commits_alone_are_noted(self) -> None:
        status, (count, half, _), said = self.waits([0, 30] * 40, "50000")
        self.assertEqual((status, said), (0, ""))
        self.assertTrue(1 <= count <= 8, count)
        self.assertGreaterEqual(half, 30_000_000)

    def test_no_edit_is_sent_twice(self) -> None:
        self.assertEqual(self.waits([0, 1], "1000"), (1, [], "waits: there are too few edits\n"))

    def test_another_reply_is_seen(self) -> None:
        for reply in (b"line 1\n", b"line \0x\n", b"line \0\0\0\n", b"lane \0\0\n"):
            self.assertEqual(self.waits([0], reply=reply), (1, [], "the server: a reply is not as it was before\n"))


@unittest.skipUnless(has_serve() and shutil.which("cc"), "there is no program lostd that serves, or no cc")
class Small(unittest.TestCase):
    """A small run of the program, whose lines are those that checks/benchmarks reads."""

    def read_part(self, part: str, reader: str, *words: str) -> str:
        run = [f"{CHECK}/run", "--lostd", str(lostd()), "--only", part, "--rounds", "1", *words]
        ran = subprocess.run(run, capture_output=True, text=True, timeout=300)
        self.assertEqual((ran.returncode, ran.stderr), (0, ""))
        read = subprocess.run([sys.executable, "-B", "-c", READ, TOP, reader], input=ran.stdout, capture_output=True, text=True, timeout=60)
        self.assertEqual((read.returncode, read.stderr), (0, ""), ran.stdout)
        return read.stdout

    def test_lines(self) -> None:
        said = self.read_part("lines", "read_lines", "--sizes", "4,30", "--lines", "20", "--edits", "3", "--no-instructions")
        self.assertIn("\n| Microseconds a line | 4 | 30 |\n", said)

    def test_connections(self) -> None:
        said = self.read_part("connections", "read_connections", "--sizes", "4,30", "--seconds", "0.5")
        self.assertIn("\n| 30 | ", said)
