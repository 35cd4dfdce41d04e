"""The servers behind, a few connections to each, and which of them a line goes to.

A connection is used once it has answered a first question: where a server has fewer workers than connections, those that no
worker has taken stay unused. While nobody asks, each connection is asked now and then, so that the server keeps it, and one
that has fallen silent is found before a call needs it.
"""
from __future__ import annotations

import asyncio
import json
from typing import Callable, List, NamedTuple, Optional, Tuple

from gateway import asked
from gateway.connection import MOST_ON_THEIR_WAY, Closed, Connection, Unanswered, Unreachable
from maptools.addresses import Tcp as Address

QUESTION = b'{"listServices":{}}\n'
# Seconds: before a server that failed is tried again, and without a reply before a connection is asked.
PAUSE, QUIET = 1.0, 5.0


class Settings(NamedTuple):
    """How many connections each server gets, how many seconds a reply is waited for, and who is told a server's own name."""

    size: int
    timeout: float
    on_name: Callable[[str], None]


class Reply(NamedTuple):
    """A line of reply, and the server that gave it."""

    line: bytes
    server: str


def name_in(line: bytes) -> Optional[str]:
    """The server's own name, which is the last of the path of a reply; None where the line has no path."""
    try:
        ((_, members),) = json.loads(line).items()
        return str(members["path"][-1])
    except (ValueError, KeyError, TypeError, AttributeError, IndexError):
        return None


class Server:
    """A server behind, and its connections that answer."""

    def __init__(self, address: Address, settings: Settings) -> None:
        self.address, self.settings, self.label = address, settings, str(address)
        self.connections: List[Connection] = []
        self.attempt: Optional[asyncio.Task[None]] = None
        self.wanted = asyncio.Event()
        self.keeper: Optional[asyncio.Task[None]] = None

    def start(self) -> None:
        """Begins to keep connections."""
        self.keeper = asyncio.get_running_loop().create_task(self.keep())

    def is_up(self) -> bool:
        """Whether some connection answers."""
        return bool(self.connections)

    def lose(self, connection: Connection) -> None:
        """A connection is over, or is not to be used any more."""
        if connection in self.connections:
            self.connections.remove(connection)
            self.wanted.set()

    async def keep(self) -> None:
        """Opens what is missing, and asks what has been quiet for long, again and again until it is cancelled."""
        while True:
            self.wanted.clear()
            try:
                while len(self.connections) < self.settings.size:
                    await self.try_to_open()
            except Unanswered:
                await asyncio.sleep(PAUSE)
                continue
            try:
                await asyncio.wait_for(self.wanted.wait(), QUIET)
            except asyncio.TimeoutError:
                self.ask_the_quiet()

    def ask_the_quiet(self) -> None:
        """Asks each connection on which nothing waits and nothing came for long; one that is silent gives itself up."""
        now = asyncio.get_running_loop().time()
        for connection in self.connections:
            if not connection.waiting and now - connection.quiet_since > QUIET:
                connection.ask(QUESTION).add_done_callback(lambda future: future.cancelled() or future.exception())

    async def try_to_open(self) -> None:
        """One more connection; those who want one at the same time share the attempt. Unanswered where there is none."""
        if self.attempt is None or self.attempt.done():
            self.attempt = asyncio.get_running_loop().create_task(self.open())
        await asyncio.shield(self.attempt)

    async def open(self) -> None:
        """Opens a connection and asks a first question."""
        loop, settings = asyncio.get_running_loop(), self.settings
        connecting = loop.create_connection(lambda: Connection(settings.timeout, self.lose), *self.address)
        try:
            _, connection = await asyncio.wait_for(connecting, settings.timeout)
        except (OSError, asyncio.TimeoutError) as error:
            raise Unreachable(f"no connection to {self.address}: {error or 'it takes too long'}") from None
        name = name_in(await connection.ask(QUESTION))
        if name is None:
            connection.give_up(Closed("it is no server of these lines"))
            raise Closed(f"{self.address} gave no reply that this gateway knows")
        settings.on_name(name)
        self.connections.append(connection)

    def send(self, line: bytes) -> asyncio.Future[bytes]:
        """Sends a line; its reply."""
        connection = self.open_for_one()
        future = self.ask_over(connection, line)
        if connection.is_spent():
            self.retire(connection)
        return future

    def send_all(self, lines: List[bytes]) -> List[asyncio.Future[bytes]]:
        """Sends lines one behind the other over the connection on which the fewest wait; their replies."""
        connection = self.least_busy()
        futures = [self.ask_over(connection, line) for line in lines]
        if connection.is_spent():
            self.retire(connection)
        return futures

    def ask_over(self, connection: Connection, line: bytes) -> asyncio.Future[bytes]:
        """Sends a line over a connection, and notes it for its query; its reply."""
        future = connection.ask(line)
        asked.note(self.label, line, future)
        return future

    def open_for_one(self) -> Connection:
        """A connection over which lines go out in this turn already, so that one piece has them all; or else the least busy one."""
        for connection in self.connections:
            if connection.to_send and len(connection.waiting) < MOST_ON_THEIR_WAY:
                return connection
        return self.least_busy()

    def least_busy(self) -> Connection:
        """The connection on which the fewest lines wait."""
        least = self.connections[0]
        for other in self.connections:
            if len(other.waiting) < len(least.waiting):
                least = other
        return least

    def retire(self, connection: Connection) -> None:
        """Sends no more over a connection, which ends once its lines have their replies."""
        self.lose(connection)
        connection.leave()

    async def ask(self, line: bytes) -> bytes:
        """The reply to a line; Unanswered where there is none."""
        return (await self.ask_all([line]))[0]

    async def ask_all(self, lines: List[bytes]) -> List[bytes]:
        """The replies to lines that are sent one behind the other over one connection; Unanswered where one has none."""
        if not self.connections:
            await self.try_to_open()
        if not self.connections:
            raise Closed(f"{self.address} closed the connection")
        return list(await asyncio.gather(*self.send_all(lines)))

    async def end(self) -> None:
        """Ends all connections."""
        if self.keeper:
            self.keeper.cancel()
        for connection in list(self.connections):
            connection.leave()


class Pool:
    """All servers, in the order in which they are preferred."""

    def __init__(self, addresses: List[Address], size: int, timeout: float) -> None:
        self.name: Optional[str] = None
        settings = Settings(size, timeout, self.learn_name)
        self.servers = [Server(address, settings) for address in addresses]

    def learn_name(self, name: str) -> None:
        """The own name of the servers, which is the same for all of them."""
        self.name = name

    def start(self) -> None:
        """Begins to keep connections to all servers."""
        for server in self.servers:
            server.start()

    def in_turn(self) -> List[Server]:
        """All servers, those that are up first."""
        return sorted(self.servers, key=lambda server: not server.is_up())

    async def ask(self, line: bytes) -> Reply:
        """The reply to a line, after one try at the next server where the first gives none."""
        first, *others = self.servers if self.servers[0].connections else self.in_turn()
        try:
            return Reply(await (first.send(line) if first.connections else first.ask(line)), first.label)
        except Unanswered as error:
            return await self.ask_next(line, first, others, error)

    async def ask_next(self, line: bytes, first: Server, others: List[Server], why: Unanswered) -> Reply:
        """The reply of the next server.

        One server alone is tried again over another connection, but not where it was silent or could not be reached.
        """
        if not others and not isinstance(why, Closed):
            raise why
        second = self.next_to(first, others)
        return Reply(await second.ask(line), second.label)

    async def ask_burst(self, lines: List[bytes]) -> List[Reply]:
        """The replies to lines of one burst on one connection, after one try at the next server where the first fails."""
        first, *others = self.in_turn()
        try:
            return [Reply(line, first.label) for line in await first.ask_all(lines)]
        except Unanswered as error:
            if not others and not isinstance(error, Closed):
                raise
        second = self.next_to(first, others)
        return [Reply(line, second.label) for line in await second.ask_all(lines)]

    def next_to(self, first: Server, others: List[Server]) -> Server:
        """The next server: one that is up, if there is one."""
        return next((server for server in others if server.is_up()), others[0] if others else first)

    def states(self) -> List[Tuple[str, bool]]:
        """Each server, and whether it answers."""
        return [(server.label, server.is_up()) for server in self.servers]

    async def end(self) -> None:
        """Ends all connections."""
        for server in self.servers:
            await server.end()
