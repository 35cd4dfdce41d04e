"""Features of GeoJSON as they come: a file, features a line each, or a text sequence (RFC 8142).

A file is read whole. Of the other two one text is held at a time, so a long one takes no more memory than a short one.
"""
from __future__ import annotations

import itertools
import json
from typing import Any, BinaryIO, Iterator, List

from maptools.geojson import decimal_of, features_in, features_of
from maptools.lines import refuse_constant

SEPARATOR = b"\x1e"
BYTE_ORDER_MARK = b"\xef\xbb\xbf"
CHUNK = 1 << 16


class NotJson:
    """A text of many that cannot be read, and why."""

    def __init__(self, cause: str) -> None:
        self.cause = cause


def value_of(text: bytes) -> Any:
    """What a text says, with exact numbers; NotJson where it is no JSON."""
    try:
        return json.loads(text.decode(), parse_float=decimal_of, parse_constant=refuse_constant)
    except (ValueError, RecursionError) as error:
        return NotJson(f"is not JSON: {error}")


def texts_of_sequence(file: BinaryIO, begun: bytes) -> Iterator[bytes]:
    """The texts between separators; what is blank is none."""
    rest = begun
    for piece in itertools.chain(iter(lambda: file.read(CHUNK), b""), (SEPARATOR,)):
        if SEPARATOR not in piece:
            rest += piece
            continue
        *whole, rest = (rest + piece).split(SEPARATOR)
        yield from (text for text in whole if text.strip())


def features_in_value(value: Any) -> List[Any]:
    """The features of one text of many: a feature, or those of a collection; what is neither stays as it is."""
    is_known = isinstance(value, dict) and value.get("type") in ("Feature", "FeatureCollection")
    return features_in(value) if is_known else [value]


def first_line(file: BinaryIO) -> bytes:
    """The first line that is not blank, without a mark of byte order; empty where there is none."""
    line = file.readline()
    line = line[len(BYTE_ORDER_MARK) :] if line.startswith(BYTE_ORDER_MARK) else line
    while line and not line.strip():
        line = file.readline()
    return line


def next_line(file: BinaryIO) -> bytes:
    """The next line that is not blank; empty at the end."""
    return next((line for line in file if line.strip()), b"")


def features_of_whole(file: BinaryIO, line: bytes, value: Any) -> List[Any]:
    """The features of a file that is one value, of which a line is read and may be all."""
    rest = file.read()
    is_all = isinstance(value, dict) and not rest.strip()
    return features_in(value) if is_all else features_of((line + rest).decode())


def stream_of(file: BinaryIO) -> Iterator[Any]:
    """The features of a file, in order; NotJson stands for a text of many that cannot be read. NoGeojson where nothing can."""
    line = first_line(file)
    if line.lstrip().startswith(SEPARATOR):
        for text in texts_of_sequence(file, line):
            yield from features_in_value(value_of(text))
        return
    value = value_of(line) if line.rstrip().endswith(b"}") else None
    if not isinstance(value, dict) or value.get("type") != "Feature":
        yield from features_of_whole(file, line, value)
        return
    while line:
        yield from features_in_value(value)
        line = next_line(file)
        value = value_of(line)
