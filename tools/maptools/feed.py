"""Many lines to the server and their replies, both at once, and how long a desk waits for its turn."""
from __future__ import annotations

import select
import socket
import threading
import time
from typing import BinaryIO, Callable, Iterator, List, Optional, Tuple

from maptools.connection import CHUNK, LOOK_AGAIN, Broken

# Seconds: without a first reply before a desk is told why, and without a further one before the server counts as silent.
NOTICE, USUAL = 2.0, 10.0
OTHER_DESK = "another desk is probably being served"


class Feed:
    """Writes what files have to a connection, in a thread, while the replies are read; counts the lines.

    Afterwards the server is told that no more comes, unless there is more.
    """

    def __init__(self, connection: socket.socket, files: List[BinaryIO], has_more: bool = False) -> None:
        self.connection, self.files, self.has_more = connection, files, has_more
        self.sent = [0 for _ in files]
        self.files_sent, self.trouble = 0, ""
        self.has_ended = threading.Event()
        threading.Thread(target=self.run, daemon=True).start()

    def run(self) -> None:
        """Sends each file whole."""
        try:
            for number, file in enumerate(self.files):
                self.send_file(number, file)
                self.files_sent += 1
            if not self.has_more:
                self.connection.shutdown(socket.SHUT_WR)
        except OSError as error:
            self.trouble = str(error)
        self.has_ended.set()

    def send_file(self, number: int, file: BinaryIO) -> None:
        """Sends what an unbuffered file has, as it comes; a last line without a newline gets one."""
        last = b"\n"
        for piece in pieces_of(file):
            self.sent[number] += piece.count(b"\n")
            self.connection.sendall(piece)
            last = piece[-1:]
        if last != b"\n":
            self.sent[number] += 1
            self.connection.sendall(b"\n")

    def is_answered(self, count: int) -> bool:
        """Whether all was sent, and this many replies are all."""
        return self.has_ended.is_set() and not self.trouble and count == sum(self.sent)


class Patience:
    """How long lines wait for their replies: so many seconds at most.

    Without a number the first reply is waited for without end, since the server serves one desk after another, and each
    further one for the usual time. Once, after a while without the first reply, it is said why none comes.
    """

    def __init__(self, seconds: Optional[float], say: Callable[[str], None]) -> None:
        self.seconds, self.say = seconds, say
        self.since, self.is_said, self.is_served = time.monotonic(), False, False

    def begin_anew(self, is_reply: bool) -> None:
        """A reply came, or no line waits for one."""
        self.since = time.monotonic()
        self.is_served = self.is_served or is_reply

    def limit(self) -> Optional[float]:
        """How many seconds a line may wait now; None without end."""
        return self.seconds or (USUAL if self.is_served else None)

    def look(self, count: int) -> None:
        """Broken where no reply has come for too long, after so many."""
        silent, limit = time.monotonic() - self.since, self.limit()
        if limit is not None and silent > limit:
            why = f", after {count} replies" if self.is_served else f": {OTHER_DESK}, and the server serves one at a time"
            raise Broken(f"no reply in {limit:g} seconds{why}")
        if silent > NOTICE and not self.is_served and not self.is_said:
            self.is_said = True
            self.say(f"no reply yet: {OTHER_DESK}; this one waits for its turn")


def pieces_of(file: BinaryIO) -> Iterator[bytes]:
    """What an unbuffered file has, as it comes."""
    while True:
        piece = file.read(CHUNK)
        if not piece:
            return
        yield piece


def received(connection: socket.socket, feed: Feed) -> Optional[bytes]:
    """What has come; None where nothing came for a moment; empty at the end."""
    try:
        if select.select([connection], [], [], LOOK_AGAIN)[0]:
            return connection.recv(CHUNK)
    except OSError as error:
        raise Broken(f"the connection failed: {error}") from None
    if feed.trouble:
        raise Broken(f"sending failed: {feed.trouble}")
    return None


def replies(connection: socket.socket, feed: Feed, patience: Patience) -> Iterator[Optional[bytes]]:
    """The replies as they come, until each line that was sent has one, and None now and then where none comes.

    Broken where the connection ends before, or where lines wait for their replies too long.
    """
    rest, count = b"", 0
    while not feed.is_answered(count):
        piece = received(connection, feed)
        if piece == b"":
            feed.has_ended.wait(LOOK_AGAIN)
            if feed.is_answered(count):
                return
            raise Broken(f"the server closed the connection after {count} replies")
        if piece or count == sum(feed.sent):
            patience.begin_anew(bool(piece))
        patience.look(count)
        *whole, rest = (rest + (piece or b"")).split(b"\n")
        for line in whole:
            count += 1
            yield line
        if piece is None:
            yield None


def place_of(count: int, sent: List[int], names: List[str]) -> Tuple[str, int]:
    """The file and the number in it of the line that a reply is to."""
    for name, lines in zip(names[:-1], sent):
        if count <= lines:
            return name, count
        count -= lines
    return names[-1], count
