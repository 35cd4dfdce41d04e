"""What a query asked the servers behind: each line, the server that it went to, and when it was sent and answered.

By these the lines of the server's log of answers are found: they have the same text, and a time between both.
"""
from __future__ import annotations

import asyncio
import contextvars
import time
from typing import Dict, List, Optional

SECOND = 1_000_000_000
Line = Dict[str, Optional[str]]
NOTED: contextvars.ContextVar[Optional[List[Line]]] = contextvars.ContextVar("NOTED", default=None)


def begin() -> None:
    """From now on the lines of this task are noted."""
    NOTED.set([])


def noted() -> List[Line]:
    """The lines of this task that were noted."""
    return NOTED.get() or []


def note(server: str, line: bytes, reply: asyncio.Future[bytes]) -> None:
    """Notes a line that is sent, and when its reply comes, if the lines of this task are noted."""
    lines = NOTED.get()
    if lines is None:
        return
    one: Line = {"server": server, "sent": moment(), "replied": None, "request": line.rstrip(b"\n").decode(errors="backslashreplace")}
    lines.append(one)
    reply.add_done_callback(lambda future: note_reply(one, future))


def note_reply(one: Line, reply: asyncio.Future[bytes]) -> None:
    """Notes when a reply came; of a line that gets none, nothing."""
    if not reply.cancelled() and reply.exception() is None:
        one["replied"] = moment()


def moment() -> str:
    """The time, written as in the server's log of answers."""
    second, rest = divmod(time.time_ns(), SECOND)
    return f"{time.strftime('%Y-%m-%dT%H:%M:%S', time.gmtime(second))}.{rest:09d}Z"
