"""The texts of docs/PROTOCOL.md: sources, services, stamps, keys, URIs, numbers and positions in degrees."""
from __future__ import annotations

import datetime
import re
import string
from typing import Optional, Tuple

SERVICE_PREFIX = "urn:service:"
LABEL = re.compile(r"[A-Za-z0-9]([A-Za-z0-9-]{0,61}[A-Za-z0-9])?")
STAMP = re.compile(r"([0-9]{4})-([0-9]{2})-([0-9]{2})T([0-9]{2}):([0-9]{2}):([0-9]{2})(?:\.([0-9]{1,9}))?Z")
URI = re.compile(r"([A-Za-z][A-Za-z0-9+.-]*):[!-~]+")
NUMBER = re.compile(r"[0-9*#]{1,64}")
DEGREES = r"(-?[0-9]{1,3})(?:\.([0-9]{1,7}))?"
POSITION = re.compile(f"{DEGREES} +{DEGREES}")
WITHOUT_END = ("NO-CACHE", "NO-EXPIRATION")
LOWER = str.maketrans(string.ascii_uppercase, string.ascii_lowercase)

Moment = Tuple[datetime.datetime, int]
Point = Tuple[int, int]


def lowered(text: str) -> str:
    """ASCII letters in lower case, and all else as it is."""
    return text.translate(LOWER)


def size(text: str) -> int:
    """The length of a text in bytes of UTF-8."""
    return len(text.encode())


def is_unicode(text: str) -> bool:
    """Whether a text can be written as UTF-8: half of a surrogate pair cannot."""
    try:
        text.encode()
    except UnicodeEncodeError:
        return False
    return True


def are_labels(text: str) -> bool:
    """Labels of letters, digits and hyphens, joined by single dots."""
    return all(LABEL.fullmatch(label) for label in text.split("."))


def is_source(text: str) -> bool:
    """A source, and a server's name: 1 to 253 bytes of labels."""
    return size(text) <= 253 and are_labels(text)


def is_id(text: str) -> bool:
    """A sourceId, a key, and a token: 1 to 128 bytes, none below 32 and none 127."""
    return 1 <= size(text) <= 128 and all(byte >= 32 and byte != 127 for byte in text.encode())


def service_of(text: str) -> Optional[str]:
    """A service URN in lower case: the prefix and 1 to 8 labels. None where the text is none."""
    low = lowered(text)
    labels = low[len(SERVICE_PREFIX):]
    is_service = low.startswith(SERVICE_PREFIX) and are_labels(labels) and labels.count(".") <= 7
    return low if is_service else None


def moment_of(text: str) -> Optional[Moment]:
    """The instant of a stamp, to the second and in nanoseconds after it. None where the text is no stamp."""
    parts = STAMP.fullmatch(text)
    if not parts:
        return None
    try:
        second = datetime.datetime(*(int(parts[number]) for number in range(1, 7)))
    except ValueError:
        return None
    return second, int((parts[7] or "").ljust(9, "0"))


def stamp_after(text: str) -> str:
    """The stamp a nanosecond after another one; the same again at the end of time."""
    second, nanoseconds = moment_of(text)
    try:
        second += datetime.timedelta(seconds=(nanoseconds + 1) // 1_000_000_000)
    except OverflowError:
        return text
    return f"{second.isoformat()}.{(nanoseconds + 1) % 1_000_000_000:09d}Z"


def is_expires(text: str) -> bool:
    """One of the two words, or a stamp."""
    return text in WITHOUT_END or moment_of(text) is not None


def scheme_of(text: str) -> Optional[str]:
    """The scheme of a URI in lower case. None where the text is no URI of at most 2,048 bytes."""
    parts = URI.fullmatch(text)
    return lowered(parts[1]) if parts and len(text) <= 2048 else None


def is_number(text: str) -> bool:
    """A service number: 1 to 64 digits, stars and hashes."""
    return NUMBER.fullmatch(text) is not None


def spelled_point(text: str) -> Optional[Point]:
    """The position that a text of degrees spells, in whole units of 1e-7 degrees. None where the text spells none."""
    parts = POSITION.fullmatch(text)
    if not parts:
        return None
    latitude, longitude = (int(parts[number] + (parts[number + 1] or "").ljust(7, "0")) for number in (1, 3))
    return latitude, longitude
