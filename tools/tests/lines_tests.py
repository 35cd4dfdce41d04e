"""The JSON of the lines: what the tools read as the server does, by whichever way they read it."""
from __future__ import annotations

import unittest
from typing import Any

from maptools.lines import LONGEST_LINE, read_line


def value_of(text: str) -> Any:
    """The value of the one member of a line; None where it is no such line."""
    member = read_line(b'{"x":' + text.encode() + b"}")
    return None if member is None else member[1]


def kinds_of(text: str) -> Any:
    """The kinds of the numbers of a list."""
    return [type(number).__name__ for number in value_of(text)]


class Lines(unittest.TestCase):
    """Numbers and depth, on which JSON readers differ."""

    def test_numbers(self) -> None:
        self.assertEqual(kinds_of("[0,-1,-10,10,-0]"), ["int", "int", "int", "int", "float"])
        self.assertEqual(kinds_of("[-0.5,-0e1,1.0,1e1]"), ["float"] * 4)
        self.assertEqual(kinds_of(f"[{'9' * 299},{'9' * 300}]"), ["int", "float"])
        self.assertEqual(value_of('{"day":"2025-01-01","text":"-0"}'), {"day": "2025-01-01", "text": "-0"})
        for text in ("1e309", "-1e309", "9" * 310, "[" + "9" * 400 + "]", "01", "-01", "NaN", "[Infinity]", "-Infinity", "+1", "1."):
            self.assertIsNone(read_line(b'{"x":' + text.encode() + b"}"), text)

    def test_depth(self) -> None:
        for opening, closing in (("[", "]"), ('{"a":', "}"), ('[{"a":', "}]"), ('["]",', "]")):
            levels = 2 if opening == '[{"a":' else 1
            for depth, is_line in ((1, True), (126 // levels, True), (126 // levels + 1, False), (400, False)):
                line = b'{"x":' + (opening * depth + "0" + closing * depth).encode() + b"}"
                self.assertEqual(read_line(line) is not None, is_line, (opening, depth))

    def test_many_lists_that_are_not_deep(self) -> None:
        ring = [[number, -number] for number in range(4_096)]
        self.assertEqual(value_of(str(ring).replace(" ", "")), ring)
        wide = [[[[number]]] for number in range(1_000)]
        self.assertEqual(value_of(str(wide)), wide)
        self.assertIsNone(value_of("[" + "[1,2]," * 500 + "[" * 126 + "]" * 126 + "]"))

    def test_what_is_no_line(self) -> None:
        for line in (b"", b"{}", b"[]", b"7", b'{"a":1,"b":2}', b'{"a":1', b'{"a":"\xff"}', b"\xef\xbb\xbf{}", b'{"a":"\\ud800"}'):
            self.assertIsNone(read_line(line), line)
        self.assertEqual(read_line(b' {"a" : "\\u00e9\\ud83d\\ude00"}\r'), ("a", "\u00e9\U0001f600"))
        front = b'{"a":"'
        self.assertIsNotNone(read_line(front + b"x" * (LONGEST_LINE - len(front) - 2) + b'"}'))
        self.assertIsNone(read_line(front + b"x" * (LONGEST_LINE - len(front) - 1) + b'"}'))
