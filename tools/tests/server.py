"""A server that tests start as an operator does, and connections to it."""
from __future__ import annotations

import re
import select
import signal
import socket
import subprocess
from typing import List, Tuple

from tests.running import lostd

PATIENCE = 60
FREE = "127.0.0.1:0"
READY = b"ready\n"
COMMITTED = re.compile(r"lostd: desk connection from .*: committed [0-9]+ edits?: edition [0-9]+, [0-9]+ mappings, map [0-9a-f]{32}$")


def has_maps() -> bool:
    """Whether the built program reads a map at its start."""
    path = lostd()
    return path is not None and b"--map <FILE>" in subprocess.run([path, "serve", "--help"], capture_output=True, timeout=10).stdout


class Server:
    """A server that is started with these words, and what it says."""

    def __init__(self, words: List[str], given: bytes = b"", workers: int = 2) -> None:
        self.output = ""
        command = [str(lostd()), "serve", "--name", "lost.example", "--workers", str(workers), *words]
        pipes = {"stdin": subprocess.PIPE, "stdout": subprocess.PIPE, "stderr": subprocess.PIPE}
        # A shell may have begun this with SIGHUP ignored.
        self.process = subprocess.Popen(command, **pipes, preexec_fn=lambda: signal.signal(signal.SIGHUP, signal.SIG_DFL))
        if self.process.stdin:
            try:
                self.process.stdin.write(given)
                self.process.stdin.close()
            except BrokenPipeError:
                pass
            self.process.stdin = None

    def __enter__(self) -> Server:
        return self

    def __exit__(self, *_: object) -> None:
        self.process.kill()
        self.process.wait(PATIENCE)
        for pipe in (self.process.stdout, self.process.stderr):
            if pipe:
                pipe.close()

    def first_line(self) -> bytes:
        """The first line on standard output; empty where there is none."""
        output = self.process.stdout
        assert output is not None
        if not select.select([output], [], [], PATIENCE)[0]:
            return b""
        return output.readline()

    def end(self) -> Tuple[int, List[str]]:
        """The status, once it has ended by itself, and the lines on standard error that say something else than commits; keeps what
        else it put out."""
        output, said = self.process.communicate(timeout=PATIENCE)
        self.output = output.decode()
        return self.process.returncode, [line for line in said.decode().splitlines() if not COMMITTED.match(line)]

    def said(self) -> str:
        """The next line on standard error that says something else than that a desk has committed."""
        errors = self.process.stderr
        assert errors is not None
        while True:
            if not select.select([errors], [], [], PATIENCE)[0]:
                raise AssertionError("nothing is said")
            line = errors.readline().decode()
            if not COMMITTED.match(line):
                return line


def ask(connection: socket.socket, line: str) -> str:
    """The reply to a line."""
    connection.settimeout(PATIENCE)
    connection.sendall(line.encode())
    reply = b""
    while not reply.endswith(b"\n"):
        piece = connection.recv(65_536)
        if not piece:
            raise EOFError(f"the server closed after {reply!r}")
        reply += piece
    return reply.decode()


def unix(path: str) -> socket.socket:
    """A connection to a Unix socket."""
    connection = socket.socket(socket.AF_UNIX)
    connection.connect(path)
    return connection


def ended(connection: socket.socket) -> bool:
    """Whether the server ends a connection soon; what comes before is passed over."""
    connection.settimeout(PATIENCE)
    try:
        while connection.recv(65_536):
            pass
    except ConnectionResetError:
        pass
    except socket.timeout:
        return False
    return True
