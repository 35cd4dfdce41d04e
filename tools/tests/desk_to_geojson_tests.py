"""tools/desk-to-geojson: there and back is the same map, and an edited feature is an edit."""
from __future__ import annotations

import json
import random
import tempfile
import unittest
from typing import Any, Dict, List, Tuple

from maptools.desk_map import Reader
from maptools.desk_rules import GEODETIC, contents_of
from tests.running import CASES, TOP, run_tool

D = 10_000_000


def ring(*corners: Tuple[int, int]) -> List[List[int]]:
    """A closed ring of positions in whole units, latitude first."""
    return [list(corner) for corner in (*corners, corners[0])]


def polygon(*corners: Tuple[int, int]) -> Dict[str, Any]:
    """A region of one ring."""
    return {"profile": GEODETIC, "polygon": ring(*corners)}


def mapping(name: str, *regions: Dict[str, Any], **more: Any) -> Dict[str, Any]:
    """A mapping of regions; a default where there are none."""
    own = {"serviceBoundary": list(regions), "key": f"{name}/1"} if regions else {"default": True}
    return {
        "source": "Map.Example", "sourceId": name, "lastUpdated": "2026-01-02T00:00:00.5Z", "expires": "NO-CACHE",
        "service": "urn:service:sos.police", "uri": [f"sip:{name}@map.example"], **own, **more,
    }  # fmt: skip


def random_mapping(draw: random.Random, number: int) -> Dict[str, Any]:
    """A mapping with polygons of random positions, in range, and perhaps patterns and tokens."""
    def position() -> Tuple[int, int]:
        return draw.randint(-90 * D, 90 * D), draw.randint(-180 * D, 180 * D)

    regions: List[Dict[str, Any]] = [polygon(*(position() for _ in range(draw.randint(3, 9)))) for _ in range(draw.randint(1, 4))]
    if draw.random() < 0.3:
        regions.insert(0, {"profile": "civic", "pattern": {"country": "US", "A3": " Leonia \t"}})
    if draw.random() < 0.3:
        regions.insert(0, {"profile": "x-token", "tokens": ["hall", "Room é"]})
    return mapping(f"r{number}", *regions)


OUTER = ((0, 0), (0, 9 * D), (9 * D, 9 * D), (9 * D, 0))
HOLE, OTHER = ((D, D), (2 * D, 2 * D), (2 * D, D)), ((5 * D, 5 * D), (6 * D, 6 * D), (6 * D, 5 * D))
KEYHOLE = {"profile": GEODETIC, "polygon": [*ring(*OUTER), *ring(*HOLE), [0, 0], *ring(*OTHER), [0, 0]]}
ALL = [
    mapping("plain", polygon(*OUTER)),
    mapping("holes", KEYHOLE),
    mapping("outside", {"profile": GEODETIC, "polygon": [*ring(*HOLE), *ring(*OUTER), [D, D]]}),
    mapping("touching", {"profile": GEODETIC, "polygon": ring((0, 0), (0, D), (D, D), (0, 0), (0, -D), (-D, -D))}),
    mapping("world", polygon((-90 * D, -180 * D), (-90 * D, 180 * D), (90 * D, 180 * D), (90 * D, -180 * D))),
    mapping("units", polygon((1, -1), (-1, 179 * D + 9999999), (89 * D + 1, 10))),
    mapping("flat", {"profile": GEODETIC, "polygon": [[0, 0]] * 4}),
    mapping("text", {"profile": GEODETIC, "polygon": ["0 0", "0.5 0", "0.5 -0.25", "0.0 0"]}),
    mapping("rest", uri=["sip:a@map.example", "tel:+1"], expires="2027-01-01T00:00:00Z", serviceNumber="911",
            displayName=[{"lang": "en", "text": 'The "rest"\n'}, {"lang": "es", "text": "Policía"}]),
    mapping("civic", {"profile": "civic", "pattern": {"country": "US", "RD": "Main  St"}}, {"profile": "x-token", "tokens": ["a", "A"]}),
]  # fmt: skip


class ThereAndBack(unittest.TestCase):
    """Desk lines, their features, and the desk lines of these."""

    def setUp(self) -> None:
        folder = tempfile.TemporaryDirectory()
        self.addCleanup(folder.cleanup)
        self.folder = folder.name

    def outlines(self, text: str) -> List[Dict[str, Any]]:
        """What desk lines leave, in order."""
        with open(f"{self.folder}/read.jsonl", "w", encoding="utf-8") as file:
            file.write(text)
        left = Reader().read(f"{self.folder}/read.jsonl")
        self.assertEqual(left.complaints, [])
        return list(left.book.held.values())

    def lines(self, mappings: List[Dict[str, Any]]) -> str:
        """Desk lines that publish mappings."""
        return "".join(json.dumps(line) + "\n" for line in [*({"publish": one} for one in mappings), {"commit": {}}])

    def back(self, text: str, *words: str) -> str:
        """The desk lines of features."""
        status, output, said = run_tool("geojson-to-desk", ["--from-desk", "--commit", *words], text)
        self.assertEqual(status, 0, said)
        return output

    def test_there_and_back_is_the_same_map(self) -> None:
        draw = random.Random(7)
        given = self.lines(ALL + [random_mapping(draw, number) for number in range(200)])
        wanted = self.outlines(given)
        for words in ([], ["--lines"]):
            status, features, said = run_tool("desk-to-geojson", words, given)
            self.assertEqual((status, said), (0, ""))
            self.assertEqual(self.outlines(self.back(features)), wanted)
        self.assertEqual(self.outlines(self.back(features, "--decimal")), wanted)

    def test_the_maps_of_the_cases_and_of_the_examples(self) -> None:
        paths = [f"{CASES}/geojson/{name}.jsonl" for name in ("holes", "meridian", "neighbours", "members")]
        for path in [*paths, f"{TOP}/examples/maps/two-districts.jsonl"]:
            with self.subTest(path), open(path, encoding="utf-8") as file:
                given = file.read()
                given += "" if given.endswith('{"commit":{}}\n') else '{"commit":{}}\n'
                self.assertEqual(self.outlines(self.back(run_tool("desk-to-geojson", [], given)[1])), self.outlines(given))

    def test_a_feature_is_what_tools_of_maps_expect(self) -> None:
        document = json.loads(run_tool("desk-to-geojson", [], self.lines(ALL))[1])
        self.assertEqual((document["type"], len(document["features"])), ("FeatureCollection", len(ALL)))
        shown = {feature["properties"]["sourceId"]: feature for feature in document["features"]}
        self.assertEqual(shown["holes"]["geometry"], {"type": "MultiPolygon", "coordinates": [[
            [[0, 0], [9, 0], [9, 9], [0, 9], [0, 0]], [[1, 1], [2, 2], [1, 2], [1, 1]], [[5, 5], [6, 6], [5, 6], [5, 5]],
        ]]})  # fmt: skip
        self.assertEqual(shown["units"]["geometry"]["coordinates"][0][0][:2], [[-1e-7, 1e-7], [179.9999999, -1e-7]])
        self.assertEqual([name for name in shown if shown[name]["geometry"] is None], ["rest", "civic"])
        self.assertEqual(len({tuple(feature["properties"]) for feature in shown.values()}), 1)
        self.assertEqual(len(shown["outside"]["geometry"]["coordinates"][0]), 1)
        uris = [shown[name]["properties"]["uri"] for name in ("plain", "rest")]
        self.assertEqual(uris, ["sip:plain@map.example", '["sip:a@map.example","tel:+1"]'])

    def test_lists_that_a_tool_wrote_as_text_are_read(self) -> None:
        given = self.lines([mapping("a", polygon(*OUTER), {"profile": "civic", "pattern": {"A3": "T"}}, {"profile": "x-token", "tokens": ["x"]},
                                    displayName=[{"lang": "en", "text": "A"}])])  # fmt: skip
        document = json.loads(run_tool("desk-to-geojson", [], given)[1])
        properties = document["features"][0]["properties"]
        as_text = {name: json.dumps(value) for name, value in properties.items() if isinstance(value, list)}
        for written in ({**as_text, "default": None}, {**as_text, "uri": ["sip:a@map.example"]}):
            properties.update(written)
            self.assertEqual(self.outlines(self.back(json.dumps(document))), self.outlines(given))

    def test_what_was_changed_in_the_features_is_an_edit(self) -> None:
        path = f"{self.folder}/map.jsonl"
        given = self.lines(ALL)
        with open(path, "w", encoding="utf-8") as file:
            file.write(given)
        document = json.loads(run_tool("desk-to-geojson", [path])[1])
        features = document["features"]
        features[0]["geometry"]["coordinates"][0][0][1] = [9.5, 0]
        features[1]["properties"]["uri"] = ["sip:other@map.example"]
        del features[3]
        output = self.back(json.dumps(document), "--updated", "now", "--against", path)
        edits = [next(iter(json.loads(line).items())) for line in output.splitlines()]
        self.assertEqual([(kind, value.get("sourceId")) for kind, value in edits], [("withdraw", "touching"), ("replace", "plain"), ("replace", "holes"), ("commit", None)])
        self.assertNotEqual(edits[1][1]["key"], "plain/1")
        self.assertEqual(edits[2][1]["key"], "holes/1")
        self.assertEqual(contents_of(edits[1][1], GEODETIC)[0][1], [0, 95_000_000])
        self.outlines(given + output)

    def test_refused_lines_are_named_and_what_was_replaced_is_not_shown(self) -> None:
        changed = {**ALL[0], "lastUpdated": "2026-01-03T00:00:00Z", "expires": "NO-EXPIRATION"}
        withdrawn = {"source": "map.example", "sourceId": "holes", "lastUpdated": "2026-01-03T00:00:00Z"}
        lines = [{"publish": ALL[0]}, {"publish": ALL[1]}, {"publish": ALL[0]}, {"replace": changed}, {"withdraw": withdrawn}, {"listServices": {}}]
        status, output, said = run_tool("desk-to-geojson", ["--lines"], "".join(json.dumps(line) + "\n" for line in lines))
        self.assertEqual((status, output.count("\n")), (3, 1))
        self.assertEqual(json.loads(output)["properties"]["expires"], "NO-EXPIRATION")
        self.assertEqual(said, "desk-to-geojson: line 3: refused with code 13, IdentityHeld: map.example plain is held\ndesk-to-geojson: line 6: not a desk line\n")

    def test_statuses(self) -> None:
        for words, status in ((["--help"], 0), (["--nothing"], 2), (["/no/such/file"], 1)):
            self.assertEqual(run_tool("desk-to-geojson", words)[0], status)
        for name, wrong in (("uri", "[1"), ("tokens", 7), ("patterns", {"A3": "T"})):
            document = json.loads(run_tool("desk-to-geojson", [], self.lines(ALL[:1]))[1])
            document["features"][0]["properties"][name] = wrong
            status, _, said = run_tool("geojson-to-desk", ["--from-desk"], json.dumps(document))
            self.assertEqual(status, 3)
            self.assertIn(f"feature 1: it has a property {name!r} that is not a list\n", said)


if __name__ == "__main__":
    unittest.main()
