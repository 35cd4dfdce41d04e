"""Bodies that are compressed by gzip."""
from __future__ import annotations

import zlib

GZIP = "gzip"
SPELLINGS = (GZIP, "x-gzip")
# Shorter replies would hardly become shorter.
LEAST_PACKED = 1024
LEVEL, FRAMED = 4, 16 + zlib.MAX_WBITS


class NoGzip(Exception):
    """A body is said to be compressed by gzip, and is not."""


class TooLong(Exception):
    """A body has more bytes than are read."""


def accepts_gzip(accepted: str) -> bool:
    """Whether a header Accept-Encoding takes gzip."""
    quality = {}
    for item in accepted.lower().split(","):
        name, _, parameters = item.partition(";")
        quality[name.strip()] = parameters.replace(" ", "")
    named = [quality[name] for name in SPELLINGS if name in quality] or [quality[name] for name in ("*",) if name in quality]
    return bool(named) and named[0].rstrip(".0") != "q="


def packed(body: bytes) -> bytes:
    """A body compressed."""
    packer = zlib.compressobj(LEVEL, zlib.DEFLATED, FRAMED)
    return packer.compress(body) + packer.flush()


def unpacked(body: bytes, most: int) -> bytes:
    """A body as it was before it was compressed; TooLong where it has more bytes than are read, NoGzip where it is none."""
    pieces, left = [], most
    while body:
        unpacker = zlib.decompressobj(FRAMED)
        try:
            pieces.append(unpacker.decompress(body, left + 1))
        except zlib.error as error:
            raise NoGzip(str(error)) from None
        left -= len(pieces[-1])
        if left < 0:
            raise TooLong
        if not unpacker.eof:
            raise NoGzip("it ends too early")
        body = unpacker.unused_data
    return b"".join(pieces)
