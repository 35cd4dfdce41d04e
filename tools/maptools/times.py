"""The time of this machine, and times with an offset, as stamps in UTC."""
from __future__ import annotations

import datetime
import re
from typing import Optional

from maptools.texts import moment_of

WITH_OFFSET = re.compile(
    r"(\d{4})[-/](\d{2})[-/](\d{2})[Tt ](\d{2}):(\d{2}):(\d{2})(\.\d{1,9})? ?(?:[Zz]|([+-])(\d{2})(?::?(\d{2}))?)", re.ASCII
)
WITHOUT_OFFSET = re.compile(r"\d{4}[-/]\d{2}[-/]\d{2}(?:[Tt ]\d{2}:\d{2}(?::\d{2}(?:\.\d+)?)?)?", re.ASCII)


def now_stamp() -> str:
    """The time of this machine, to the second."""
    return datetime.datetime.now(datetime.timezone.utc).strftime("%Y-%m-%dT%H:%M:%SZ")


def utc_stamp(text: str) -> Optional[str]:
    """A time in UTC as a stamp: one with Z or with an offset such as -05:00, -0500 or -05, in ISO 8601 or as ogr2ogr writes it.

    A stamp stays as it is spelled. None where the text is no such time, or is before the year 1 or after 9999 in UTC.
    """
    if moment_of(text) is not None:
        return text
    parts = WITH_OFFSET.fullmatch(text)
    if not parts:
        return None
    sign, hours, minutes = parts[8], int(parts[9] or 0), int(parts[10] or 0)
    if hours > 23 or minutes > 59:
        return None
    offset = datetime.timedelta(hours=hours, minutes=minutes)
    try:
        local = datetime.datetime(*(int(parts[number]) for number in range(1, 7)))
        moment = local + offset if sign == "-" else local - offset
    except (ValueError, OverflowError):
        return None
    return f"{moment.isoformat()}{parts[7] or ''}Z"


def lacks_offset(text: str) -> bool:
    """Whether a text is a time that does not say where it is the time."""
    return WITHOUT_OFFSET.fullmatch(text) is not None
