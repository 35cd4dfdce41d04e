"""The log of queries: one JSON line each, for what is asked after a call went wrong."""
from __future__ import annotations

import datetime
import json
import os
from typing import Optional

from gateway import asked
from gateway.answering import Answer


class Journal:
    """A file to which lines are added; each is written at once and in one piece, so that processes can share it."""

    def __init__(self, path: str) -> None:
        self.file = os.open(path, os.O_WRONLY | os.O_APPEND | os.O_CREAT | os.O_CLOEXEC, 0o640)

    def note(self, client: str, forwarded: Optional[str], body: bytes, answer: Answer, seconds: float) -> None:
        """Writes down a query."""
        line = {
            "moment": datetime.datetime.now(datetime.timezone.utc).isoformat(timespec="milliseconds").replace("+00:00", "Z"),
            "client": client,
            "forwardedFor": forwarded,
            "kind": answer.kind,
            "outcome": answer.outcome,
            "edition": answer.edition,
            "server": answer.server,
            "seconds": round(seconds, 6),
            "asked": asked.noted(),
            "askedAtCentreOf": answer.area,
            "detail": answer.detail,
            "request": body.decode(errors="backslashreplace"),
            "reply": answer.xml.decode(),
        }
        os.write(self.file, json.dumps(line, ensure_ascii=False).encode(errors="backslashreplace") + b"\n")
