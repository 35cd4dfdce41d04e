"""Starts lostd serve, and speaks with it over TCP."""
import json
import os
import re
import resource
import select
import signal
import socket
import struct
import subprocess
import tempfile
import time
import urllib.request

NAME = "lost.example"
PATIENCE = 60
PIECE = 1 << 18
COMMIT = b'{"commit":{}}'
BAD_REQUEST = b'{"errors":{"error":"badRequest"}}'
BAD_LINE = b'{"refused":{"code":1,"name":"BadLine"}}'


# What is said of a desk's commit.
COMMITTED = re.compile(r"lostd: desk connection from .*: committed [0-9]+ edits?: edition [0-9]+, [0-9]+ mappings, map [0-9a-f]{32}$")


class Ended(Exception):
    """A connection ended, or was silent for too long, before all its replies came."""


class Peer:
    """One end of a connection: lines are put in, and their replies taken, while both go on at once."""

    def __init__(self, port):
        self.socket = socket.create_connection(("127.0.0.1", port), PATIENCE)
        self.socket.setsockopt(socket.IPPROTO_TCP, socket.TCP_NODELAY, 1)
        self.socket.setblocking(False)
        self.poll = select.poll()
        self.poll.register(self.socket, select.POLLIN)
        self.port = self.socket.getsockname()[1]
        self.to_send = memoryview(b"")
        self.pieces, self.count = [], 0

    def put(self, lines):
        """Lines, each with its newline, are to be sent; as much as the system takes now is sent now."""
        self.to_send = memoryview(bytes(self.to_send) + lines) if self.to_send else memoryview(lines)
        self.send()

    def send(self):
        """Sends as much as the system takes now."""
        try:
            while self.to_send:
                self.to_send = self.to_send[self.socket.send(self.to_send[:PIECE]) :]
        except BlockingIOError:
            pass
        except OSError as error:
            raise Ended(f"it could not be written: {error}") from None

    def receive(self, patience):
        """Waits until something was sent or received; the bytes that were received, or None."""
        self.poll.modify(self.socket, select.POLLIN | (select.POLLOUT if self.to_send else 0))
        ready = self.poll.poll(patience * 1000)
        if not ready:
            raise Ended(f"nothing came for {patience} seconds")
        if self.to_send and ready[0][1] & select.POLLOUT:
            self.send()
        try:
            return self.socket.recv(4 * PIECE)
        except BlockingIOError:
            return None
        except OSError as error:
            raise Ended(f"it could not be read: {error}") from None

    def take(self, count, patience=PATIENCE):
        """The next replies, so many, without their newlines."""
        while self.count < count:
            received = self.receive(patience)
            if received == b"":
                raise Ended("it was ended by the server")
            if received:
                self.pieces.append(received)
                self.count += received.count(b"\n")
        replies = b"".join(self.pieces).split(b"\n", count)
        self.pieces = [replies.pop()]
        self.count -= count
        return replies

    def ask(self, line):
        """The reply to one line."""
        return self.ask_all([line])[0]

    def ask_all(self, lines):
        """The replies to lines that are sent one behind the other."""
        self.put(b"".join(line + b"\n" for line in lines))
        return self.take(len(lines))

    def came(self):
        """The replies that came and were not taken, without their newlines; the server may be gone."""
        try:
            while received := self.socket.recv(4 * PIECE):
                self.pieces.append(received)
        except OSError:
            pass
        return b"".join(self.pieces).split(b"\n")[:-1]

    def end(self, patience=PATIENCE):
        """Ends the lines; what is still received until the server ends the connection."""
        while self.to_send:
            received = self.receive(patience)
            self.pieces.append(received or b"")
        self.socket.shutdown(socket.SHUT_WR)
        return self.rest(patience)

    def rest(self, patience=PATIENCE):
        """What is received until the server ends the connection."""
        while (received := self.receive(patience)) != b"":
            self.pieces.append(received or b"")
        self.socket.close()
        return b"".join(self.pieces)

    def reset(self):
        """Throws the connection away, so that the server finds it reset."""
        self.socket.setsockopt(socket.SOL_SOCKET, socket.SO_LINGER, struct.pack("ii", 1, 0))
        self.socket.close()


def free_ports(count):
    """So many ports that nobody listens on."""
    sockets = [socket.create_server(("127.0.0.1", 0)) for _ in range(count)]
    ports = [taken.getsockname()[1] for taken in sockets]
    for taken in sockets:
        taken.close()
    return ports


class Running:
    """A server that runs. Used in a `with`, it is ended at the end in any case. Another program may start it, by the words `under`."""

    queries = desk_port = None
    made = 0

    def __init__(self, program, words, megabytes=None, errors=None, under=()):
        self.errors = tempfile.TemporaryFile() if errors is None else errors
        self.process = subprocess.Popen(
            [*under, program if under else "lostd", "serve", "--name", NAME, *words],
            executable=None if under else program,
            stdin=subprocess.DEVNULL,
            stdout=subprocess.PIPE,
            stderr=self.errors,
            preexec_fn=lambda: prepare(megabytes),
            env=os.environ | ({"MALLOC_ARENA_MAX": "1"} if megabytes else {}),
        )
        self.begun()
        self.first_line = self.process.stdout.readline()
        if self.first_line != b"ready\n":
            self.stop()
            said = self.said() if errors is None else ""
            raise Ended(f"the server did not begin: {self.first_line!r} {said}")

    def begun(self):
        """What is done while it begins: nothing."""

    def __enter__(self):
        return self

    def __exit__(self, *_):
        self.stop()

    def connect(self):
        """A query connection."""
        self.made += 1
        return Peer(self.queries)

    def desk(self):
        """A desk's connection, which waits where another one is served."""
        return Peer(self.desk_port)

    def said(self):
        """The lines on standard error so far, but for what desks have committed."""
        self.errors.seek(0)
        return [line for line in self.errors.read().decode().splitlines() if not COMMITTED.match(line)]

    def signal(self, number):
        """Sends the server a signal; the status with which it ends."""
        self.process.send_signal(number)
        return self.process.wait(PATIENCE)

    def stop(self):
        """Ends the server, if it runs."""
        if self.process.poll() is None:
            self.process.send_signal(signal.SIGKILL)
            self.process.wait()
        self.process.stdout.close()


class Server(Running):
    """A server of one desk and so many query connections."""

    def __init__(self, program, workers, connections, *more, megabytes=None):
        self.queries, self.desk_port = free_ports(2)
        self.workers, self.connections = workers, connections
        words = [*addresses(self.queries, self.desk_port), "--workers", str(workers), "--connections", str(connections)]
        super().__init__(program, [*words, *more], megabytes)

    def use_up(self):
        """Makes all query connections that are left."""
        while self.made < self.connections:
            peer = self.connect()
            peer.end()

    def finish(self, patience=PATIENCE):
        """Waits for the end of the server; its status and its last lines."""
        try:
            output = self.process.communicate(timeout=patience)[0]
        except subprocess.TimeoutExpired:
            self.stop()
            return None, b"it did not end"
        return self.process.returncode, output

    def done(self, lines, faults):
        """What is wrong with the end of the server, where so many lines and faults are due."""
        wanted = (0, b"done lines=%d faults=%d\n" % (lines, faults))
        ended = self.finish()
        return [] if ended == wanted else [f"it ended with {ended} and not with {wanted}"]


class Standing(Running):
    """A server without end: desks one after another, as many query connections as come, and a status."""

    def __init__(self, program, workers, *more, errors=None, under=(), ports=None):
        self.queries, self.desk_port, self.status_port = ports or free_ports(3)
        words = [*addresses(self.queries, self.desk_port), "--status", f"127.0.0.1:{self.status_port}"]
        super().__init__(program, [*words, "--workers", str(workers), *more], errors=errors, under=under)

    def page(self, path):
        """A page that the server gives of itself."""
        with urllib.request.urlopen(f"http://127.0.0.1:{self.status_port}{path}", timeout=PATIENCE) as page:
            return page.read()

    def status(self):
        """What the server says of itself."""
        return json.loads(self.page("/status"))

    def quiet_status(self):
        """The same once no query connection is open, or after a second."""
        end = time.monotonic() + 1
        while (status := self.status())["connections"]["open"] and time.monotonic() < end:
            time.sleep(0.05)
        return status


def addresses(queries, desk):
    """The words that say on which ports of this machine a server listens."""
    return ["--queries", f"127.0.0.1:{queries}", "--desk", f"127.0.0.1:{desk}"]


def prepare(megabytes):
    """Lets an interrupt end this process, and allows it so many megabytes of addresses; None allows any number.

    What a shell begins in the background without job control ignores interrupts, and all that it begins do.
    """
    signal.signal(signal.SIGINT, signal.SIG_DFL)
    if megabytes is not None:
        resource.setrlimit(resource.RLIMIT_AS, (megabytes << 20, megabytes << 20))


def edition_of(reply):
    """The edition that a reply or a commit's answer names; None where it names none."""
    ((_, members),) = json.loads(reply).items()
    return members.get("edition")
