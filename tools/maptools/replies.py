"""What a line of reply says."""
from __future__ import annotations

import json
from typing import Any, Dict, Tuple

from maptools.connection import Broken
from maptools.layout import error_text
from maptools.refusals import refusal_text

ACCEPTED = ("staged", "committed")


def reply_of(line: bytes) -> Tuple[str, Dict[str, Any]]:
    """The name and the value of a reply; Broken where the line is none."""
    try:
        ((name, value),) = json.loads(line).items()
        return name, dict(value)
    except (ValueError, AttributeError, TypeError):
        raise Broken(f"the server's reply is not a LoST reply: {line[:80]!r}") from None


def refused_text(name: str, reply: Dict[str, Any]) -> str:
    """Why a desk line was not accepted."""
    return refusal_text(reply.get("code", 0), str(reply.get("name"))) if name == "refused" else error_text(reply)
