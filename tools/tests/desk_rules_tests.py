"""The rules that the tools share: against the sessions of examples/, whose replies were worked out by hand."""
from __future__ import annotations

import glob
import json
import unittest
from typing import Any, Dict, List

from maptools.desk_rules import (
    EDITS, GEODETIC, MOST_MAPPINGS, MOST_TRACES, TOKEN, Book, apply_edit, contents_of, edit_fault, empty_book,
)  # fmt: skip
from maptools.lines import read_line
from maptools.refusals import ERRORS, REFUSALS, WARNINGS
from maptools.rings import position_of
from tests.running import TOP


def reply_to(book: Book, line: bytes) -> str:
    """What the rules say of a line: staged, the number of a refusal, committed, badRequest, or other."""
    member = read_line(line)
    if member is None:
        return "badRequest"
    if member[0] not in EDITS:
        return "committed" if member[0] == "commit" and isinstance(member[1], dict) else "1" if member[0] == "commit" else "other"
    fault = edit_fault(book, *member)
    if fault:
        return str(fault.code)
    apply_edit(book, *member)
    return "staged"


def kind_of(reply: Dict[str, Any]) -> str:
    """The same of a reply."""
    if "refused" in reply:
        return str(reply["refused"]["code"])
    if "staged" in reply or "committed" in reply:
        return next(iter(reply))
    return "badRequest" if reply == {"errors": {"error": "badRequest"}} else "other"


class Sessions(unittest.TestCase):
    """Each line of each session of examples/."""

    def test_each_desk_line_is_taken_or_refused_as_its_reply_says(self) -> None:
        desk_lines = 0
        for path in sorted(glob.glob(f"{TOP}/examples/*.jsonl")):
            book = empty_book()
            with open(path, "rb") as lines, open(path.replace(".jsonl", ".expected"), "rb") as replies:
                for number, (line, reply) in enumerate(zip(lines.read().split(b"\n"), replies), 1):
                    expected = kind_of(json.loads(reply))
                    said = reply_to(book, line)
                    # a request may be bad for reasons that are none of a desk line's
                    if (said, expected) != ("other", "badRequest"):
                        self.assertEqual(said, expected, f"{path}, line {number}: {line[:200]!r}")
                    desk_lines += expected not in ("other", "badRequest")
        self.assertGreater(desk_lines, 100)

    def test_the_tables_have_the_names_of_the_protocol(self) -> None:
        with open(f"{TOP}/docs/PROTOCOL.md", encoding="utf-8") as file:
            text = file.read()
        for code, refusal in REFUSALS.items():
            self.assertIn(f"\n| {code} | {refusal.name} |", text)
        for name in (*ERRORS, *WARNINGS):
            self.assertIn(f"\n| `{name}` |", text)


# Texts and the positions that they spell.
POSITIONS = [
    ("0.5 -0.0000001", (5_000_000, -1)),
    ("0.5000000   -000.0000001", (5_000_000, -1)),
    ("-0 -0.0", (0, 0)),
    ("-0.5 007.25", (-5_000_000, 72_500_000)),
    ("90 -180.0000000", (900_000_000, -1_800_000_000)),
]
# Texts that are out of range or spell no position.
NO_POSITIONS = [
    "90.0000001 0", "0 -180.0000001", "", "0", "0 ", ".5 0", "1. 0", "0.50000000 0", " 0 0", "0 0 ", "0 0 0", "+1 0", "0001 0", "1e1 0",
    "0\t0", "0,0", "0 0\n", "- 0", "--1 0", "\u0661 0", "0\u00a00", "5000000,5000000", "0 0x",
]
# Three spellings of one ring, and a ring that is one unit beside it.
RINGS = [
    [[0, 0], [0, 10_000_000], [10_000_000, 5_000_000], [0, 0]],
    ["0 0", "0 1", "1 0.5", "-0 0.0"],
    ["0.0 0", [0, 10_000_000], "1.0000000  0.5", [0, 0]],
]
RING_BESIDE = ["0 0", "0 1.0000001", "1 0.5", "0 0"]


def located(day: int, ring: Any) -> Dict[str, Any]:
    """A mapping of a ring."""
    mapping = {**edit_of("publish", "map.example", "A", DAY % (day, "")), "key": "A-1", "default": False}
    return {**mapping, "serviceBoundary": [{"polygon": ring, "profile": GEODETIC}]}


class Positions(unittest.TestCase):
    """Positions as text."""

    def test_what_a_text_spells(self) -> None:
        for text, position in POSITIONS:
            self.assertEqual(position_of(text), position, text)
        for text in NO_POSITIONS:
            self.assertIsNone(position_of(text), text)

    def test_a_text_that_is_no_position_makes_no_region(self) -> None:
        for text in NO_POSITIONS:
            fault = edit_fault(empty_book(), "publish", located(1, ["0 0", [0, 1], text, "1 1", [0, 0]]))
            self.assertEqual(None if fault is None else fault.code, 9, text)

    def test_a_ring_in_any_spelling_is_the_same_region(self) -> None:
        book = empty_book()
        for day, ring in enumerate(RINGS, 1):
            value = located(day, ring)
            self.assertEqual(contents_of(value, GEODETIC), RINGS[:1])
            kind = "replace" if book.held else "publish"
            self.assertIsNone(edit_fault(book, kind, value))
            apply_edit(book, kind, value)
        fault = edit_fault(book, "replace", located(9, RING_BESIDE))
        self.assertEqual(None if fault is None else fault.code, 17)


# Lists of texts that are token sets, and others that are none.
TOKEN_SETS = [["t1"], ["t2", "t1"], ["t1", "T1", "t1 "], ["z" * 128], ["é" * 64], [f"m{number}" for number in range(64)]]
NO_TOKEN_SETS: List[Any] = [
    [], ["t1", "t1"], ["t1", "t2", "t1"], [""], ["z" * 129], ["é" * 64 + "a"], ["t\x1f"], ["t\x7f"], ["\n"],
    [f"m{number}" for number in range(65)], "t1", None, [1], [None], [["t1"]], {"t1": "t1"},
]


def of_tokens(day: int, *sets: Any) -> Dict[str, Any]:
    """A mapping of token sets."""
    return {**located(day, []), "serviceBoundary": [{"profile": TOKEN, "tokens": tokens} for tokens in sets]}


class Tokens(unittest.TestCase):
    """Token sets."""

    def code_of(self, value: Dict[str, Any], *before: Dict[str, Any]) -> int:
        book = empty_book()
        for kind, edit in zip(("publish", *["replace"] * len(before)), before):
            self.assertIsNone(edit_fault(book, kind, edit))
            apply_edit(book, kind, edit)
        fault = edit_fault(book, "replace" if before else "publish", value)
        return fault.code if fault else 0

    def test_what_is_a_token_set(self) -> None:
        for tokens in TOKEN_SETS:
            self.assertEqual(self.code_of(of_tokens(1, tokens)), 0, tokens)
        for tokens in NO_TOKEN_SETS:
            self.assertEqual(self.code_of(of_tokens(1, ["t1"], tokens)), 9, tokens)

    def test_64_sets_are_taken_and_65_are_not(self) -> None:
        self.assertEqual(self.code_of(of_tokens(1, *[["t1"]] * 64)), 0)
        self.assertEqual(self.code_of(of_tokens(1, *[["t1"]] * 65)), 11)
        self.assertEqual(self.code_of(of_tokens(1, *[["t1"]] * 65, [])), 9)

    def test_other_tokens_and_another_order_are_other_regions(self) -> None:
        old = of_tokens(1, ["t1", "t2"], ["t3"])
        for sets, code in (
            ((["t1", "t2"], ["t3"]), 0), ((["t2", "t1"], ["t3"]), 17), ((["t3"], ["t1", "t2"]), 17), ((["t1", "t2"],), 17),
            ((["T1", "t2"], ["t3"]), 17), ((["t1", "t2", "t3"],), 17), ((["t1"], ["t2"], ["t3"]), 17),
        ):  # fmt: skip
            self.assertEqual(self.code_of(of_tokens(2, *sets), old), code, sets)
            self.assertEqual(self.code_of({**of_tokens(2, *sets), "key": "A-2"}, old), 0, sets)

    def test_kinds_do_not_mix(self) -> None:
        ring, tokens = located(1, RINGS[0]), of_tokens(1, ["t1"])
        one = {**ring, "serviceBoundary": ring["serviceBoundary"] + tokens["serviceBoundary"]}
        other = {**one, "lastUpdated": DAY % (2, ""), "serviceBoundary": one["serviceBoundary"][::-1]}
        self.assertEqual(self.code_of(other, one), 0)
        self.assertEqual(self.code_of({**other, "serviceBoundary": one["serviceBoundary"][:1]}, one), 17)
        for region in ({"profile": TOKEN, "polygon": RINGS[0]}, {"profile": GEODETIC, "tokens": ["t1"]}, {"tokens": ["t1"]}):
            self.assertEqual(self.code_of({**one, "serviceBoundary": [region]}), 9, region)


DAY = "2025-12-0%dT00:00:00%sZ"
# Edits in turn, each with an identity and a stamp, and the code that refuses it, 0 where it is accepted.
WITHDRAWALS = [
    ("publish", "map.example", "A", DAY % (1, ""), 0),
    ("withdraw", "map.example", "A", DAY % (4, ""), 0),
    ("publish", "map.example", "A", DAY % (1, ""), 21),
    ("publish", "MAP.example", "A", DAY % (4, ".0"), 21),
    ("replace", "map.example", "A", DAY % (5, ""), 14),
    ("withdraw", "map.example", "A", DAY % (5, ""), 14),
    ("publish", "other.example", "A", DAY % (1, ""), 0),
    ("publish", "map.example", "a", DAY % (1, ""), 0),
    ("publish", "map.example", "A", DAY % (4, ".000000001"), 0),
    ("publish", "map.example", "A", DAY % (1, ""), 13),
    ("replace", "map.example", "A", DAY % (5, ""), 0),
    ("withdraw", "map.example", "A", DAY % (5, ".00"), 15),
    ("withdraw", "map.example", "A", DAY % (6, ""), 0),
    ("publish", "map.example", "A", DAY % (5, ""), 21),
    ("publish", "map.example", "A", DAY % (7, ""), 0),
]
# The same at a book that remembers one withdrawal less than it may, of other mappings.
MANY_WITHDRAWALS = [
    ("publish", "map.example", "A", DAY % (1, ""), 0),
    ("publish", "map.example", "B", DAY % (1, ""), 0),
    ("withdraw", "map.example", "A", DAY % (2, ""), 0),
    ("withdraw", "map.example", "B", DAY % (2, ""), 22),
    ("withdraw", "map.example", "B", DAY % (1, ""), 15),
    ("withdraw", "map.example", "C", DAY % (2, ""), 14),
    ("replace", "map.example", "B", DAY % (2, ""), 0),
    ("publish", "map.example", "A", DAY % (3, ""), 0),
    ("withdraw", "map.example", "B", DAY % (3, ""), 0),
    ("withdraw", "map.example", "A", DAY % (4, ""), 22),
]


def edit_of(kind: str, source: str, source_id: str, stamp: str) -> Dict[str, Any]:
    """The value of an edit: an identity and a stamp, and for a mapping a default's other members."""
    named = {"source": source, "sourceId": source_id, "lastUpdated": stamp}
    of_default = {"expires": "NO-CACHE", "service": "urn:service:sos", "uri": ["sip:x@map.example"], "default": True}
    return named if kind == "withdraw" else {**named, **of_default}


def code_of(book: Book, kind: str, *said: str) -> int:
    """The code that refuses an edit, which otherwise changes the book; 0 where it is accepted."""
    value = edit_of(kind, *said)
    fault = edit_fault(book, kind, value)
    if fault:
        return fault.code
    apply_edit(book, kind, value)
    return 0


class Withdrawals(unittest.TestCase):
    """What a book remembers of a withdrawal."""

    def compare(self, book: Book, rows: list) -> None:
        for number, (*said, wanted) in enumerate(rows, 1):
            self.assertEqual(code_of(book, *said), wanted, f"row {number}: {said}")

    def test_a_withdrawn_identity_keeps_its_stamp(self) -> None:
        self.compare(empty_book(), WITHDRAWALS)

    def test_so_many_are_remembered_and_no_more(self) -> None:
        book = empty_book()
        book.traces.update({("gone.example", str(number)): DAY % (1, "") for number in range(MOST_TRACES - 1)})
        self.compare(book, MANY_WITHDRAWALS)

    def test_withdrawn_comes_before_full(self) -> None:
        book = empty_book()
        book.traces["map.example", "A"] = DAY % (4, "")
        book.held.update({("held.example", str(number)): {} for number in range(MOST_MAPPINGS)})
        self.assertEqual(code_of(book, "publish", "map.example", "A", DAY % (4, "")), 21)
        self.assertEqual(code_of(book, "publish", "map.example", "A", DAY % (5, "")), 18)

    def test_the_texts_name_both_stamps(self) -> None:
        book = empty_book()
        book.traces["map.example", "A"] = DAY % (4, "")
        fault = edit_fault(book, "publish", edit_of("publish", "map.example", "A", DAY % (1, "")))
        said = "map.example A was withdrawn at 2025-12-04T00:00:00Z, and 2025-12-01T00:00:00Z is not after it"
        self.assertEqual(None if fault is None else fault.what, said)
