"""Crowds of connections to a server: they are opened by hundreds at once, from a few addresses of this machine."""
import errno
import resource
import selectors
import socket
import struct
import threading
import time

from plain_lines import LIST
from server import PATIENCE, Ended

FILES_BESIDE = 1_000
ADDRESSES = 16
LINGER_NONE = struct.pack("ii", 1, 0)


def raise_files(count):
    """Lets this process, and those that it begins, have so many files open, where the machine allows it."""
    _, hard = resource.getrlimit(resource.RLIMIT_NOFILE)
    wanted = count + FILES_BESIDE
    if hard != resource.RLIM_INFINITY and wanted > hard:
        resource.setrlimit(resource.RLIMIT_NOFILE, (wanted, wanted))
    else:
        resource.setrlimit(resource.RLIMIT_NOFILE, (wanted, hard))


def address_of(number):
    """One of the addresses of this machine from which connections come."""
    return f"127.0.1.{1 + number % ADDRESSES}"


def connected(port, address="127.0.0.1"):
    """A connection from an address of this machine."""
    one = socket.create_connection(("127.0.0.1", port), PATIENCE, (address, 0))
    one.setsockopt(socket.IPPROTO_TCP, socket.TCP_NODELAY, 1)
    return one


def crowd(port, count):
    """So many connections, from all addresses in turn."""
    return [connected(port, address_of(number)) for number in range(count)]


def close_all(connections):
    """Ends connections."""
    for one in connections:
        one.close()


def reset(one):
    """Throws a connection away, so that the server finds it reset."""
    one.setsockopt(socket.SOL_SOCKET, socket.SO_LINGER, LINGER_NONE)
    one.close()


def end_time(one, patience):
    """After how many seconds the server ends a connection that is sent nothing more; None where it does not in time."""
    begun = time.monotonic()
    one.settimeout(patience)
    try:
        while one.recv(1 << 16):
            one.settimeout(max(0.01, patience - (time.monotonic() - begun)))
    except socket.timeout:
        return None
    except OSError as error:
        if error.errno not in (errno.ECONNRESET, errno.EPIPE):
            raise
    return time.monotonic() - begun


def ended_among(connections):
    """How many of connections the server has ended, as is seen without waiting."""
    ended = 0
    with selectors.DefaultSelector() as selector:
        for one in connections:
            selector.register(one, selectors.EVENT_READ)
        for key, _ in selector.select(0.5):
            key.fileobj.setblocking(False)
            try:
                ended += key.fileobj.recv(1 << 16) == b""
            except BlockingIOError:
                pass
            except OSError:
                ended += 1
    return ended


class Slow(threading.Thread):
    """Sends a space over each of many connections every two seconds."""

    def __init__(self, connections):
        super().__init__(daemon=True)
        self.connections, self.is_over = connections, threading.Event()

    def run(self):
        while not self.is_over.wait(2):
            for one in self.connections:
                try:
                    one.setblocking(False)
                    one.send(b" ")
                except OSError:
                    pass

    def stop(self):
        """Sends no more."""
        self.is_over.set()
        self.join()


class Normal(threading.Thread):
    """A client that asks ten times a second, and over a new connection each time in turn; it keeps how long replies took."""

    def __init__(self, port, wanted):
        super().__init__(daemon=True)
        self.port, self.wanted, self.is_over = port, wanted, threading.Event()
        self.longest, self.count, self.wrong = 0.0, 0, []

    def run(self):
        try:
            with connected(self.port) as kept:
                while not self.is_over.wait(0.1):
                    self.ask(kept)
                    with connected(self.port) as new:
                        self.ask(new)
        except (OSError, Ended) as error:
            self.wrong.append(f"a normal client: {type(error).__name__}: {error}")

    def ask(self, one):
        """Asks over a connection, and keeps how long it took."""
        begun = time.monotonic()
        one.sendall(LIST + b"\n")
        reply = b""
        while not reply.endswith(b"\n"):
            piece = one.recv(1 << 16)
            if not piece:
                raise Ended("it was ended by the server")
            reply += piece
        self.longest = max(self.longest, time.monotonic() - begun)
        self.count += 1
        if reply != self.wanted + b"\n":
            self.wrong.append(f"a normal client was told {reply[:100]}")

    def end(self):
        """What was wrong with what it was told, and with how long it took."""
        self.is_over.set()
        self.join(PATIENCE)
        wrong = self.wrong[:3] + ([] if self.count else ["a normal client was never answered"])
        return wrong + ([] if self.longest < 1 else [f"a reply to a normal client took {self.longest:.2f} s"])
