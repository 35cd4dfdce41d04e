"""What was found, as the messages of errors show it."""
from __future__ import annotations

from typing import Iterable

LONGEST_SHOWN = 60


def shown(text: str) -> str:
    """A text between quotation marks: on one line, and cut where it is long."""
    plain = " ".join(text.split())
    return f"'{plain if len(plain) <= LONGEST_SHOWN else plain[:LONGEST_SHOWN] + '..'}'"


def listed(names: Iterable[str], word: str = "and") -> str:
    """Names as in a sentence: "a, b and c"."""
    *front, last = names
    return f"{', '.join(front)} {word} {last}" if front else last
