"""Lays the status of a server out for reading, whatever members it has."""
from __future__ import annotations

import datetime
import json
import re
from typing import Any, Dict, List, Tuple

SECONDS = re.compile(r"(?<=.)Seconds$")
WORD_STARTS = re.compile(r"(?<=[a-z0-9])(?=[A-Z])")
WORDS = {None: "none", True: "yes", False: "no"}
MOST_SECONDS = 86_400 * 365 * 1000


def printable(text: str) -> str:
    """A text as it is; as JSON where it has what does more to a terminal than to be shown."""
    return text if text.isprintable() else json.dumps(text)


def label_of(name: str) -> str:
    """The name of a member in words: `lastCommit` is the last commit."""
    return printable(WORD_STARTS.sub(" ", SECONDS.sub("", name)).lower())


def value_text(name: str, value: Any) -> str:
    """A value that is no object with members. Seconds are a length of time where the name says so."""
    if value is None or isinstance(value, bool):
        return WORDS[value]
    if SECONDS.search(name) and isinstance(value, (int, float)) and 0 <= value <= MOST_SECONDS:
        return str(datetime.timedelta(seconds=int(value)))
    if isinstance(value, str):
        return printable(value)
    return "none" if value == {} else json.dumps(value)


def aligned(rows: List[Tuple[str, str]], width: int) -> List[str]:
    """Rows of two columns, the first at least so wide."""
    width = max([width, *(len(label) for label, _ in rows)])
    return [f"{label:{width}}  {text}" for label, text in rows]


def status_lines(status: Dict[str, Any]) -> List[str]:
    """The members in their order; what is counted by name is indented, a line for each name, spelled as it comes."""
    width = max((len(label_of(name)) for name in status), default=0)
    lines = []
    for name, value in status.items():
        if isinstance(value, dict) and value:
            parts = [(printable(part), value_text(part, inner)) for part, inner in value.items()]
            lines += [label_of(name), *("  " + line for line in aligned(parts, width - 2))]
        else:
            lines += aligned([(label_of(name), value_text(name, value))], width)
    return lines
