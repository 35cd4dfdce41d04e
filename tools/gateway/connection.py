"""One connection to a server behind: lines go out in order, and each reply is that of the oldest line that waits."""
from __future__ import annotations

import asyncio
from collections import deque
from typing import Any, Callable, Deque, List, Optional

# lostd answers 1,000,000 lines on a connection, and wants clients to stop before.
MOST_LINES = 900_000
# lostd writes its replies once it has answered all lines that it has read: so many at most are on their way, lest it seem silent.
MOST_ON_THEIR_WAY = 64


class Unanswered(Exception):
    """Why a line got no reply."""


class Unreachable(Unanswered):
    """No connection could be made."""


class Silent(Unanswered):
    """The server said nothing for too long."""


class Closed(Unanswered):
    """The server closed the connection before the reply was whole."""


class Connection(asyncio.Protocol):
    """Many lines of many clients may wait on it at a time. Where nothing comes for too long, the connection is given up."""

    def __init__(self, timeout: float, on_end: Callable[[Connection], None]) -> None:
        self.loop = asyncio.get_running_loop()
        self.timeout, self.on_end = timeout, on_end
        self.transport: Any = None
        self.waiting: Deque[asyncio.Future[bytes]] = deque()
        self.to_send: List[bytes] = []
        self.pieces: List[bytes] = []
        self.watch: Optional[asyncio.TimerHandle] = None
        # Since when a reply is due and nothing came; from when the line was really sent, since this process may be late itself.
        self.asked, self.quiet_since, self.is_leaving = 0, self.loop.time(), False

    def connection_made(self, transport: Any) -> None:
        """The connection stands."""
        self.transport = transport

    def ask(self, line: bytes) -> asyncio.Future[bytes]:
        """Sends a line, with its newline; the reply comes without one."""
        future: asyncio.Future[bytes] = self.loop.create_future()
        self.waiting.append(future)
        self.asked += 1
        self.to_send.append(line)
        if len(self.to_send) == 1:
            self.loop.call_soon(self.flush)
        return future

    def flush(self) -> None:
        """Sends the lines of this turn of the loop in one piece, as many as may be on their way."""
        on_their_way = len(self.waiting) - len(self.to_send)
        count = MOST_ON_THEIR_WAY - on_their_way
        if count <= 0 or not self.to_send or self.transport.is_closing():
            return
        self.transport.write(b"".join(self.to_send[:count]))
        del self.to_send[:count]
        if not on_their_way:
            self.quiet_since = self.loop.time()
        if self.watch is None:
            self.watch = self.loop.call_later(self.timeout, self.look)

    def look(self) -> None:
        """Gives the connection up where a line waits and nothing came for too long, and else looks again in time."""
        self.watch = None
        if not self.waiting:
            return
        left = self.quiet_since + self.timeout - self.loop.time()
        if left <= 0:
            self.give_up(Silent(f"no reply in {self.timeout:g} seconds"))
        else:
            self.watch = self.loop.call_later(left, self.look)

    def data_received(self, data: bytes) -> None:
        """Gives each whole reply to the line that it is to."""
        self.quiet_since = self.loop.time()
        *lines, rest = data.split(b"\n")
        if lines and self.pieces:
            lines[0] = b"".join(self.pieces) + lines[0]
            self.pieces.clear()
        if rest:
            self.pieces.append(rest)
        for line in lines:
            if not self.waiting:
                return self.give_up(Closed("a reply came to no line"))
            future = self.waiting.popleft()
            if not future.done():
                future.set_result(line)
        if self.to_send:
            self.flush()
        if self.is_leaving and not self.waiting:
            self.transport.close()

    def connection_lost(self, error: Optional[Exception]) -> None:
        """The connection is over; what waits gets no reply."""
        self.give_up(Closed("the server closed the connection" + (f": {error}" if error else "")))

    def give_up(self, why: Unanswered) -> None:
        """Ends the connection at once, and says why to all lines that wait."""
        self.transport.abort()
        waiting, self.waiting = self.waiting, deque()
        self.to_send.clear()
        for future in waiting:
            if not future.done():
                future.set_exception(why)
        if self.watch:
            self.watch.cancel()
            self.watch = None
        self.on_end(self)

    def leave(self) -> None:
        """Ends the connection once all its lines have their replies."""
        self.is_leaving = True
        if not self.waiting:
            self.transport.close()

    def is_spent(self) -> bool:
        """Whether it is time to take another connection."""
        return self.asked >= MOST_LINES
