"""The processes of the gateway: they share a port, and the first one looks after the others."""
from __future__ import annotations

import contextlib
import os
import select
import signal
import socket
import sys
import time
from typing import Callable, Dict, NamedTuple, NoReturn

from maptools.addresses import Tcp

PAUSE, LOOK_AGAIN = 1.0, 0.1

# The signals that tell the processes to end.
ENDING = (signal.SIGTERM, signal.SIGINT)


class Place(NamedTuple):
    """What a process is given: its socket, a pipe to say that it is ready, and one that ends with the first process."""

    listener: socket.socket
    ready: int
    life: int
    is_first: bool


Work = Callable[[Place], None]


def listening_socket(address: Tcp) -> socket.socket:
    """A socket bound to an address that further sockets of these processes can be bound to."""
    family, kind, protocol, _, name = socket.getaddrinfo(*address, type=socket.SOCK_STREAM)[0]
    listener = socket.socket(family, kind, protocol)
    listener.setsockopt(socket.SOL_SOCKET, socket.SO_REUSEADDR, 1)
    listener.setsockopt(socket.SOL_SOCKET, socket.SO_REUSEPORT, 1)
    listener.bind(name)
    return listener


class Family:
    """Processes that do the same work on one port."""

    def __init__(self, address: Tcp, count: int, work: Work) -> None:
        self.count, self.work = count, work
        self.kept = listening_socket(address)
        self.address = address._replace(port=self.kept.getsockname()[1])
        self.children: Dict[int, float] = {}
        self.is_ending = False
        self.ready_here, self.ready_there = os.pipe()
        self.life_there, self.life_here = os.pipe()

    def start_child(self) -> None:
        """Starts one more process, unless all are to end. A signal to end waits until the process is known here: or else
        nobody would tell it, or it would take the signal for one to this process."""
        signal.pthread_sigmask(signal.SIG_BLOCK, ENDING)
        if not self.is_ending:
            is_first = not self.children
            child = os.fork()
            if not child:
                self.be_child(is_first)
            self.children[child] = time.monotonic()
        signal.pthread_sigmask(signal.SIG_UNBLOCK, ENDING)

    def be_child(self, is_first: bool) -> NoReturn:
        """Does the work, and ends; the first of those that run speaks for all."""
        status = 1
        try:
            os.close(self.life_here)
            for number in ENDING:
                signal.signal(number, signal.SIG_DFL)
            signal.pthread_sigmask(signal.SIG_UNBLOCK, ENDING)
            self.work(Place(listening_socket(self.address), self.ready_there, self.life_there, is_first))
            status = 0
        except BaseException as error:  # pylint: disable=broad-except
            print(f"lost-gateway: a process failed: {error!r}", file=sys.stderr, flush=True)
        os._exit(status)

    def end(self, *_: object) -> None:
        """Tells all processes to end once they have answered what they have."""
        self.is_ending = True
        for child in self.children:
            with contextlib.suppress(ProcessLookupError):
                os.kill(child, signal.SIGTERM)

    def await_ready(self) -> bool:
        """Waits until all processes listen; False where one ended before."""
        told = 0
        while told < self.count and self.children:
            if select.select([self.ready_here], [], [], LOOK_AGAIN)[0]:
                told += len(os.read(self.ready_here, self.count))
            child, _ = os.waitpid(-1, os.WNOHANG)
            if child:
                self.children.pop(child, None)
                return False
        return told >= self.count

    def bury(self) -> None:
        """Takes note of a process that ended; another takes its place, unless all are to end."""
        child, _ = os.wait()
        begun = self.children.pop(child, 0.0)
        forget(child)
        if not self.is_ending:
            print(f"lost-gateway: process {child} ended; another takes its place", file=sys.stderr, flush=True)
            time.sleep(max(0.0, PAUSE - (time.monotonic() - begun)))
            self.start_child()

    def run(self) -> int:
        """Runs all processes until they are told to end; the status."""
        for number in ENDING:
            signal.signal(number, self.end)
        for _ in range(self.count):
            self.start_child()
        is_ready = self.await_ready()
        if is_ready:
            print(f"ready {self.address}", flush=True)
        else:
            self.end()
        while self.children:
            self.bury()
        return 0 if is_ready else 1


def forget(child: int) -> None:
    """Forgets which servers were up for a process that ended; what it had counted stays."""
    from prometheus_client import multiprocess

    multiprocess.mark_process_dead(child)
