"""tools/geojson-to-desk --against: the edits from a map to new data."""
from __future__ import annotations

import json
import os
import tempfile
import unittest
from typing import Any, Dict, List, Tuple

from maptools.desk_map import Reader
from maptools.times import now_stamp
from tests.geojson_files import collection, feature
from tests.running import run_tool

WORDS = ["--source", "map.example", "--service", "urn:service:sos.police", "--uri", "sip:{@id}@map.example", "--source-id", "{@id}",
         "--display", "en={shown?}"]  # fmt: skip
EARLY, LATE = "2026-01-02T00:00:00Z", "2026-01-03T00:00:00Z"


def square(place: float, size: float = 1) -> List[Any]:
    """The coordinates of a square."""
    return [[[place, 0], [place + size, 0], [place + size, size], [place, size], [place, 0]]]


def named(name: str, place: float = 0, size: float = 1, shown: str = "x") -> Dict[str, Any]:
    """A feature."""
    return feature(square(place, size), name, shown=shown)


class Against(unittest.TestCase):
    """A map, and what becomes of it."""

    def setUp(self) -> None:
        folder = tempfile.TemporaryDirectory()
        self.addCleanup(folder.cleanup)
        self.path = f"{folder.name}/map.jsonl"
        self.old = [named("a"), named("b", 2), named("c", 4), named("d", 6)]
        self.write(run_tool("geojson-to-desk", [*WORDS, "--updated", EARLY, "--commit"], collection(self.old))[1])

    def write(self, text: str, mode: str = "w") -> None:
        """Writes the map file, or adds to it."""
        with open(self.path, mode, encoding="utf-8") as file:
            file.write(text)

    def edits(self, features: List[Any], *more: str, updated: str = LATE) -> Tuple[int, List[Tuple[str, str]], str, str]:
        """The status, the edits with the sourceId of each, the lines, and what is said."""
        status, output, said = run_tool("geojson-to-desk", [*WORDS, "--updated", updated, "--against", self.path, *more], collection(features))
        members = [next(iter(json.loads(line).items())) for line in output.splitlines()]
        return status, [(kind, value.get("sourceId", "")) for kind, value in members], output, said

    def held(self) -> Dict[str, Dict[str, Any]]:
        """The outlines that the map file leaves, by sourceId; the server takes each line."""
        left = Reader().read(self.path)
        self.assertEqual(left.complaints, [])
        return {source_id: value for (_, source_id), value in left.book.held.items()}

    def test_the_same_data_makes_no_edit_and_no_commit(self) -> None:
        for updated in (EARLY, LATE, "now"):
            status, edits, _, said = self.edits(self.old[::-1], updated=updated)
            self.assertEqual((status, edits, said), (0, [], "geojson-to-desk: 0 to publish, 0 to replace, 0 to withdraw, 4 unchanged\n"))

    def test_what_is_new_changed_and_gone(self) -> None:
        features = [named("a"), named("b", 2, 1.5), named("c", 4, 1, "other"), named("e", 8)]
        status, edits, output, said = self.edits(features)
        self.assertEqual(edits, [("withdraw", "d"), ("replace", "b"), ("replace", "c"), ("publish", "e"), ("commit", "")])
        self.assertEqual((status, said), (0, "geojson-to-desk: 1 to publish, 2 to replace, 1 to withdraw, 1 unchanged\n"))
        before = self.held()
        self.write(output, "a")
        after = self.held()
        self.assertEqual({name: value["lastUpdated"] for name, value in after.items()}, {"a": EARLY, "b": LATE, "c": LATE, "e": LATE})
        self.assertEqual({name for name in "abc" if before[name]["key"] != after[name]["key"]}, {"b"})
        fresh = run_tool("geojson-to-desk", [*WORDS, "--updated", LATE, "--commit"], collection(features))[1]
        self.write(fresh)
        of_its_time = {"lastUpdated": "", "digest": 0}
        self.assertEqual({name: {**value, **of_its_time} for name, value in self.held().items()}, {name: {**value, **of_its_time} for name, value in after.items()})

    def test_another_key_alone_is_no_edit(self) -> None:
        status, edits, _, _ = self.edits(self.old, "--key", "{@source-id}-other")
        self.assertEqual((status, edits), (0, []))

    def test_a_key_that_goes_from_one_to_another(self) -> None:
        self.write(run_tool("geojson-to-desk", [*WORDS, "--updated", EARLY, "--commit", "--key", "{shown}"], collection([named("a", 0, 1, "k1"), named("b", 2, 1, "k2")]))[1])
        status, edits, output, _ = self.edits([named("a", 5, 1, "k2"), named("b", 7, 1, "k3")], "--key", "{shown}")
        self.assertEqual((status, edits), (0, [("replace", "b"), ("replace", "a"), ("commit", "")]))
        self.write(output, "a")
        self.assertEqual({name: value["key"] for name, value in self.held().items()}, {"a": "k2", "b": "k3"})

    def test_now_is_after_what_is_held(self) -> None:
        self.write(run_tool("geojson-to-desk", [*WORDS, "--updated", "2999-01-01T00:00:00Z", "--commit"], collection(self.old[:2]))[1])
        status, edits, output, _ = self.edits([named("a", 0, 2), named("c")], updated="now")
        self.assertEqual((status, edits), (0, [("withdraw", "b"), ("replace", "a"), ("publish", "c"), ("commit", "")]))
        self.write(output, "a")
        stamps = {name: value["lastUpdated"] for name, value in self.held().items()}
        self.assertEqual(stamps["a"], "2999-01-01T00:00:00.000000001Z")
        self.assertLessEqual(stamps["c"], now_stamp())

    def test_a_stamp_that_did_not_rise_is_a_mistake_that_is_said_once(self) -> None:
        status, edits, _, said = self.edits([named(name, 9, 2) for name in "abcd"], updated=EARLY)
        self.assertEqual((status, edits), (2, []))
        self.assertEqual(said.splitlines()[0], f"geojson-to-desk: --updated: {EARLY} is not after {EARLY}, which {self.path} has for map.example a, and that changed: give a later time, or now")
        self.assertEqual(len(said.splitlines()), 2)

    def test_what_was_withdrawn_comes_back_only_later(self) -> None:
        self.write('{"withdraw":{"source":"map.example","sourceId":"d","lastUpdated":"2026-01-05T00:00:00Z"}}\n{"commit":{}}\n', "a")
        self.assertEqual(self.edits(self.old)[0], 2)
        status, edits, output, _ = self.edits(self.old, updated="now")
        self.assertEqual((status, edits), (0, [("publish", "d"), ("commit", "")]))
        self.write(output, "a")
        self.assertEqual(set(self.held()), set("abcd"))

    def test_what_is_faulty_is_not_withdrawn(self) -> None:
        broken = feature([[[0, 0], [1, 1]]], "a")
        for words, commits in (([], 0), (["--without-faulty"], 1)):
            status, edits, output, said = self.edits([broken, *self.old[1:3]], *words)
            self.assertEqual((status, edits), (3, [("withdraw", "d")] + [("commit", "")] * commits))
            self.assertIn("feature 1 (id 'a'): the polygon, ring 1 has fewer than 4 positions\n", said)
        unknown = {**broken, "id": None}
        status, edits, _, said = self.edits([unknown, *self.old[1:3]], "--without-faulty")
        self.assertEqual((status, edits), (3, []))
        self.assertIn("2 are not withdrawn, since it is unknown which of them were left out\n", said)

    def test_a_map_that_no_server_takes_is_an_error(self) -> None:
        lines = open(self.path, encoding="utf-8").read()
        for text, cause in (
            ("".join(lines.splitlines(keepends=True)[:-1]), "its last line is not a commit"),
            (lines + lines, "line 6: refused with code 13, IdentityHeld"),
            ("{}\n", "line 1: refused with code 1"),
        ):
            self.write(text)
            status, edits, _, said = self.edits(self.old)
            self.assertEqual((status, edits), (1, []))
            self.assertIn(cause, said)
        os.remove(self.path)
        self.assertEqual(self.edits(self.old)[0], 1)


if __name__ == "__main__":
    unittest.main()
