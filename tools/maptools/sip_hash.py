"""SipHash-1-3 under the key 0, by which a journal tells damage: the sum of the bytes of a commit."""
from __future__ import annotations

import struct
from typing import Iterable, Tuple

WORD = (1 << 64) - 1
BEGIN = (0x736F6D6570736575, 0x646F72616E646F6D, 0x6C7967656E657261, 0x7465646279746573)

State = Tuple[int, int, int, int]


def after_rounds(state: State, words: Iterable[Tuple[int]]) -> State:
    """The state after a round for each word."""
    a, b, c, d = state
    for (word,) in words:
        d ^= word
        a = (a + b) & WORD
        b = ((b << 13) | (b >> 51)) & WORD ^ a
        c = (c + d) & WORD
        d = ((d << 16) | (d >> 48)) & WORD ^ c
        a = (((a << 32) | (a >> 32)) + d) & WORD
        d = ((d << 21) | (d >> 43)) & WORD ^ a
        c = (c + b) & WORD
        b = ((b << 17) | (b >> 47)) & WORD ^ c
        c = ((c << 32) | (c >> 32)) & WORD
        a ^= word
    return a, b, c, d


def sip_hash(text: bytes) -> int:
    """The sum of a text, a number of 64 bits."""
    padded = text + bytes(7 - len(text) % 8) + bytes([len(text) % 256])
    a, b, c, d = after_rounds(BEGIN, struct.iter_unpack("<Q", padded))
    a, b, c, d = after_rounds((a, b, c ^ 0xFF, d), [(0,)] * 3)
    return a ^ b ^ c ^ d
