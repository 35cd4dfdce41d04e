"""tools/geojson-to-desk: cases of files, limits, and what `lostd replay` says of the lines."""
from __future__ import annotations

import glob
import json
import os
import unittest
from typing import Any, List

from maptools.desk_rules import apply_edit, contents_of, edit_fault, empty_book
from tests.geojson_files import COMMIT, COMMON, RING, collection, feature
from tests.running import CASES, found_in, lostd, question, read, replay, run_tool, token_question

D = 10_000_000

# Points on and beside the edges of the cases, and what they find, worked out by hand.
KNOWN_POINTS = {
    "neighbours": [
        ((405000000, -740000000), ["west"]),
        ((407000000, -739880001), ["west"]),
        ((407000000, -739880000), ["east"]),
        ((410000000, -739900000), []),
    ],
    "holes": [
        ((0, 0), ["ring"]),
        ((2 * D, 3 * D), []),
        ((1 * D, 2 * D), []),
        ((3 * D, 3 * D), ["ring"]),
        ((6 * D, 7 * D), []),
        ((6 * D, 8 * D), ["ring"]),
        ((5 * D, 5 * D), ["ring"]),
        ((0, 20 * D), ["ring"]),
    ],
    "meridian": [
        ((5 * D, 175 * D), ["jump", "hole", "world"]),
        ((5 * D, 180 * D), ["jump", "hole", "world"]),
        ((5 * D, -170 * D - 1), ["jump", "hole", "world"]),
        ((5 * D, -170 * D), ["world"]),
        ((3 * D, -174 * D), ["jump", "world"]),
        ((15 * D, -175 * D), ["beyond", "world"]),
        ((15 * D, 175 * D), ["beyond", "world"]),
        ((3333334, -180 * D), ["jump", "slanted", "two-prongs", "hole", "world"]),
        ((3333333, -180 * D), ["jump", "slanted-neighbour", "two-prongs", "hole", "world"]),
        ((15000000, -180 * D), ["jump", "hole", "world"]),
        ((25000000, -180 * D), ["jump", "two-prongs", "hole", "world"]),
        ((35 * D, 180 * D), ["world"]),
        ((35 * D, 175 * D), ["touching", "world"]),
        ((-80 * D, 60 * D), ["pole", "world"]),
    ],
    "members": [((1, 2 * D + 1), ["2: B"]), ((1, 2 * D), ["3: the rest"]), ((0, 50 * D), ["3: the rest"])],
}


def arguments_of(name: str) -> List[str]:
    """The words of the command line of a case."""
    path = f"{CASES}/geojson/{name}.args"
    own = read(f"geojson/{name}.args").splitlines() if os.path.exists(path) else COMMON
    return [*own, f"{CASES}/geojson/{name}.geojson"]


def staircase(steps: int) -> List[List[float]]:
    """A closed ring of 2 * steps + 2 positions."""
    corners = [[number / 1000, (number + up) / 1000] for number in range(steps) for up in (0, 1)]
    return [*corners, [0, 90], [0, 0]]


class Cases(unittest.TestCase):
    """Each file of tools/cases/geojson."""

    def test_each_file_gives_the_lines_and_the_faults_that_stand_beside_it(self) -> None:
        names = sorted(os.path.basename(path)[:-8] for path in glob.glob(f"{CASES}/geojson/*.geojson"))
        self.assertEqual(len(names), 5)
        for name in names:
            with self.subTest(name):
                status, output, said = run_tool("geojson-to-desk", arguments_of(name))
                self.assertEqual(output, read(f"geojson/{name}.jsonl"))
                if os.path.exists(f"{CASES}/geojson/{name}.errors"):
                    self.assertEqual((status, said), (3, read(f"geojson/{name}.errors")))
                else:
                    self.assertEqual((status, said.count("\n")), (0, 1))

    @unittest.skipUnless(lostd(), "lostd is not built")
    def test_the_server_takes_each_line_and_finds_what_is_known(self) -> None:
        for name, points in KNOWN_POINTS.items():
            with self.subTest(name):
                lines = run_tool("geojson-to-desk", arguments_of(name))[1].replace(COMMIT, "")
                asked = "".join(question(*point) for point, _ in points)
                replies = replay(lines + '{"commit":{}}\n' + asked)
                count = lines.count("\n")
                self.assertEqual([next(iter(reply)) for reply in replies[: count + 1]], ["staged"] * count + ["committed"])
                self.assertEqual([found_in(reply) for reply in replies[count + 1 :]], [found for _, found in points])


class Limits(unittest.TestCase):
    """What is just taken, and what is just not."""

    def convert(self, features: List[Any], *more: str) -> Any:
        return run_tool("geojson-to-desk", [*COMMON, *more], collection(features))

    def test_a_ring_of_4096_positions_is_taken_and_one_of_4098_is_not(self) -> None:
        status, output, said = self.convert([feature([staircase(2047)], "most"), feature([staircase(2048)], "more")])
        self.assertEqual((status, output.count("\n")), (3, 1))
        self.assertIn("(id 'more'): the polygon has 4,098 positions with its holes, and at most 4,096 are allowed", said)

    def test_64_polygons_are_taken_and_65_are_not(self) -> None:
        polygons = [[[[number, 0], [number, 1], [number + 0.5, 0], [number, 0]]] for number in range(65)]
        status, output, said = self.convert([feature(polygons[:64], "most", "MultiPolygon"), feature(polygons, "more", "MultiPolygon")])
        self.assertEqual((status, output.count("\n")), (3, 1))
        self.assertIn("(id 'more'): it has 65 polygons, and at most 64 are allowed", said)

    def test_a_line_over_one_mebibyte_is_left_out(self) -> None:
        ring = [[-170.1234567 - place / 1e6, -80.1234567 + place / 1e6] for place in range(4094)]
        ring = [*ring, ring[0]]
        status, output, said = self.convert([feature([[ring]] * 12, "long", "MultiPolygon")])
        self.assertEqual((status, output), (3, ""))
        self.assertIn("it makes a line of more than 1,048,576 bytes", said)

    def test_texts_that_the_desk_refuses_are_left_out_by_code(self) -> None:
        for option, value, code in (
            ("--source", "map..example", "code 2, BadSource"),
            ("--source-id", "x" * 129, "code 3, BadSourceId"),
            ("--updated", "2026-02-29T00:00:00Z", "code 4, BadStamp"),
            ("--expires", "never", "code 5, BadExpires"),
            ("--service", "sos.police", "code 6, BadService"),
            ("--uri", "SIP:b@map.example", "code 7, BadUri"),
            ("--service-number", "9-1-1", "code 8, BadNumber"),
            ("--display", "x" * 1025, "code 11, TooLarge"),
            ("--key", "a\x7f", "code 12, BadKey"),
        ):
            with self.subTest(code):
                template = "en={given}" if option == "--display" else "{given}"
                status, output, said = self.convert([feature(RING, given=value)], option, template)
                self.assertEqual((status, output), (3, ""))
                self.assertIn(code, said)

    def test_one_key_for_two_features_is_said(self) -> None:
        features = [feature(RING, "a", code="one"), feature(RING, "b", code="one")]
        status, _, said = self.convert(features, "--key", "{code}")
        self.assertEqual(status, 3)
        self.assertIn("feature 2 (id 'b'): it would be refused with code 16, KeyHeld: feature 1 has the same key, 'one'", said)

    def test_numbers_are_exact_and_unheard_of_ones_are_refused(self) -> None:
        text = collection([feature([[[0, 0], [1, 0], [1, 1], [0, 0]]])])
        exact = text.replace("[1, 0]", "[0.00000024999999999999999999999999999999999999999, 1e-9]")
        self.assertIn("[[0,0],[0,2],[10000000,10000000],[0,0]]", run_tool("geojson-to-desk", COMMON, exact)[1])
        huge = text.replace("[1, 0]", "[1e400000000, 0]")
        self.assertIn("position 2 has a longitude out of range", run_tool("geojson-to-desk", COMMON, huge)[2])
        for spelled in ("NaN", "1e99999999999999999999", "true"):
            status = run_tool("geojson-to-desk", COMMON, text.replace("[1, 0]", f"[{spelled}, 0]"))[0]
            self.assertEqual(status, 3 if spelled == "true" else 1, spelled)

    def test_the_key_changes_with_the_boundary_alone(self) -> None:
        words = [word for pair in zip(COMMON[::2], COMMON[1::2]) if pair[0] != "--key" for word in pair]
        ring = [[0, 0], [1, 0], [1, 1], [0, 0]]
        rings = [([*ring[:2], [1, latitude], ring[3]], colour) for latitude, colour in ((1, 1), (1, 2), (2, 1))]
        texts = [collection([feature([ring], colour=colour)]) for ring, colour in rings]
        keys = [json.loads(run_tool("geojson-to-desk", words, text)[1])["publish"]["key"] for text in texts]
        self.assertEqual(keys[0], keys[1])
        self.assertNotEqual(keys[0], keys[2])

    def test_positions_as_text_are_the_shortest_and_the_key_stays(self) -> None:
        words = [word for pair in zip(COMMON[::2], COMMON[1::2]) if pair[0] != "--key" for word in pair]
        ring = [[0, 0], [-1e-7, 0.5], [-180, 90], [-12.25, -0.05], [100, 10.0], [0.00000024, -1e-8], [0, 0]]
        texts = ["0 0", "0.5 -0.0000001", "90 -180", "-0.05 -12.25", "10 100", "0 0.0000002", "0 0"]
        text = collection([feature([ring])])
        pairs, decimal = (json.loads(run_tool("geojson-to-desk", [*words, *more], text)[1])["publish"] for more in ([], ["--decimal"]))
        self.assertEqual(decimal["serviceBoundary"], [{"polygon": texts, "profile": "geodetic-2d"}])
        self.assertEqual({**decimal, "serviceBoundary": pairs["serviceBoundary"]}, pairs)
        self.assertEqual(contents_of(decimal, "geodetic-2d"), contents_of(pairs, "geodetic-2d"))

    def test_tokens_stand_behind_the_polygons(self) -> None:
        ring = [[[0, 0], [1, 0], [1, 1], [0, 0]]]
        most = ["é" * 64, *(f"m{number}" for number in range(63))]
        for value, tokens in (
            ("t1", ["t1"]), (["t2", "t1"], ["t2", "t1"]), (["t1", "T1", " t1"], ["t1", "T1", " t1"]), (most, most), (None, None), ("", None), ([], None),
        ):  # fmt: skip
            for words in (["--tokens", "rooms"], ["--tokens", "rooms", "--decimal"]):
                with self.subTest((value, words)):
                    status, output, _ = self.convert([feature(ring, rooms=value)], *words)
                    polygon, *others = json.loads(output)["publish"]["serviceBoundary"]
                    self.assertEqual((status, polygon["profile"]), (0, "geodetic-2d"))
                    self.assertEqual(others, [{"profile": "x-token", "tokens": tokens}] if tokens else [])
        self.assertNotIn("x-token", self.convert([feature(ring, rooms="t1")])[1])
        self.assertNotIn("x-token", self.convert([feature(ring, rooms="t1")], "--tokens", "other")[1])

    def test_what_is_no_token_set_is_said_in_a_line_that_names_the_feature(self) -> None:
        ring = [[[0, 0], [1, 0], [1, 1], [0, 0]]]
        no_token = ": a token has 1 to 128 bytes, and no control byte"
        for value, cause in (
            (7, "it has a property 'rooms' that is neither a text nor a list of texts"),
            ([["t1"]], "it has a property 'rooms' that is neither a text nor a list of texts"),
            ({"t1": "t2"}, "it has a property 'rooms' that is neither a text nor a list of texts"),
            (["t1", None], "it has a property 'rooms' that is neither a text nor a list of texts"),
            (["t1", ""], "it has a text that is no token, ''" + no_token),
            ("t\x1f", "it has a text that is no token, 't\\x1f'" + no_token),
            ("t\x7f", "it has a text that is no token, 't\\x7f'" + no_token),
            ("é" * 64 + "a", f"it has a text that is no token, '{'é' * 64}a'" + no_token),
            ("\ud800", "it has a token that is not Unicode text, '\\ud800'"),
            (["t1", "t2", "t1"], "it has the token 't1' twice"),
            ([f"m{number}" for number in range(65)], "it has 65 tokens, and at most 64 are allowed: split it into features"),
        ):
            with self.subTest(value):
                status, output, said = self.convert([feature(ring, "hall", rooms=value)], "--tokens", "rooms")
                self.assertEqual((status, output), (3, ""))
                self.assertEqual(said.splitlines()[0], f"geojson-to-desk: feature 1 (id 'hall'): {cause}")

    def test_a_default_has_no_tokens(self) -> None:
        rest = {"type": "Feature", "id": "rest", "properties": {"is_rest": True, "rooms": "t1"}, "geometry": None}
        status, output, said = self.convert([rest], "--tokens", "rooms", "--default", "is_rest")
        self.assertEqual((status, output), (3, ""))
        self.assertIn("feature 1 (id 'rest'): it is a default, and has tokens\n", said)

    def test_the_key_changes_with_the_tokens(self) -> None:
        words = [word for pair in zip(COMMON[::2], COMMON[1::2]) if pair[0] != "--key" for word in pair]
        ring = [[[0, 0], [1, 0], [1, 1], [0, 0]]]
        texts = [collection([feature(ring, rooms=rooms)]) for rooms in (None, ["t1", "t2"], ["t2", "t1"])]
        keys = [json.loads(run_tool("geojson-to-desk", [*words, "--tokens", "rooms"], text)[1])["publish"]["key"] for text in texts]
        self.assertEqual(len(set(keys)), 3)
        self.assertEqual(keys[0], json.loads(run_tool("geojson-to-desk", words, texts[1])[1])["publish"]["key"])

    @unittest.skipUnless(lostd(), "lostd is not built")
    def test_the_server_finds_a_feature_by_its_tokens(self) -> None:
        ring = [[[0, 0], [1, 0], [1, 1], [0, 0]]]
        features = [feature(ring, "a", rooms=["t1", "t2"]), feature(ring, "b", rooms="t2")]
        lines = run_tool("geojson-to-desk", [*COMMON, "--tokens", "rooms"], collection(features))[1]
        replies = replay(lines + '{"commit":{}}\n' + "".join(map(token_question, ("t1", "t2", "T1"))))
        self.assertEqual([next(iter(reply)) for reply in replies[:3]], ["staged", "staged", "committed"])
        self.assertEqual([found_in(reply) for reply in replies[3:]], [["a"], ["a", "b"], []])

    def test_replace_lines_follow_publish_lines(self) -> None:
        text = collection([feature([[[0, 0], [1, 0], [1, 1], [0, 0]]])])
        later = ["--updated", "2026-01-03T00:00:00Z", "--replace"]
        book = empty_book()
        for words in (COMMON, [*COMMON, *later]):
            ((kind, value),) = json.loads(run_tool("geojson-to-desk", words, text)[1]).items()
            self.assertIsNone(edit_fault(book, kind, value))
            apply_edit(book, kind, value)
        self.assertEqual(kind, "replace")

    def test_flat_steps_run_across_the_map(self) -> None:
        wide = [[[-100, 0], [100, 0], [100, 1], [-100, 1], [-100, 0]]]
        regions = [json.loads(self.convert([feature(wide)], *words)[1])["publish"]["serviceBoundary"] for words in ([], ["--flat"])]
        self.assertEqual([len(region) for region in regions], [2, 1])


class CommandLine(unittest.TestCase):
    """Mistakes on the command line and in whole files."""

    def test_statuses(self) -> None:
        for words, given, status in (
            (["--help"], "", 0),
            ([], "", 2),
            ([*COMMON, "--uri", "sip:{name"], "", 2),
            ([*COMMON, "--display", "name"], "", 2),
            ([*COMMON, "/no/such/file"], "", 1),
            (COMMON, "{", 1),
            (COMMON, '{"type":"Polygon","coordinates":[]}', 1),
            (COMMON, '{"type":"FeatureCollection","crs":{"type":"name","properties":{"name":"EPSG:3857"}},"features":[]}', 1),
            (COMMON, "[" * 100_000, 1),
            (COMMON, '{"type":"FeatureCollection","features":[]}', 0),
        ):
            self.assertEqual(run_tool("geojson-to-desk", words, given)[0], status, (words[-2:], given[:20]))

    def test_a_mistake_is_said_once_and_nothing_is_written(self) -> None:
        text = collection([feature(RING, number, code=f"c{number}", empty=None) for number in range(300)])
        for words, said in (
            (["--source", "map..example"], "--source: 'map..example' is not a source: write labels joined by dots, such as map.example"),
            (["--source-id", ""], "--source-id: '' is not a sourceId: it has 1 to 128 bytes, and no control byte"),
            (["--service", "sos.police"], "--service: 'sos.police' is not a service URN, such as urn:service:sos.police"),
            (["--updated", "2026-02-29T00:00:00Z"], "--updated: '2026-02-29T00:00:00Z' is not a time, such as 2026-11-23T00:00:00Z or 2026-11-23T00:00:00-05:00"),
            (["--updated", "2026-02-28"], "--updated: '2026-02-28' has no offset: write a time in UTC, such as 2026-11-23T00:00:00Z, or add an offset such as -05:00"),
            (["--expires", "never"], "--expires: 'never' is not a time, such as 2026-11-23T00:00:00Z or 2026-11-23T00:00:00-05:00, nor NO-CACHE or NO-EXPIRATION"),
            (["--uri", "sip a:{code}"], "--uri: 'sip a:a' is not a URI: write a scheme, a colon, and no spaces, such as sip:a@psap.example"),
            (["--uri", "police"], "--uri: 'police' is not a URI: write a scheme, a colon, and no spaces, such as sip:a@psap.example"),
            (["--uri", "SIP:b@map.example"], "--uri: two URIs have the scheme sip: a mapping has one for each"),
            (["--service-number", "9-1-1"], "--service-number: '9-1-1' is not a number of 1 to 64 digits, * and #"),
            (["--display", "en=" + "x" * 1025], "--display: it has 1,025 bytes, and at most 1,024 are allowed"),
            (["--display", "en=x"] * 17, "--display: there are 17, and at most 16 are allowed"),
            (["--key", "a\x7f"], "--key: 'a\\x7f' is not a key: it has 1 to 128 bytes, and no control byte"),
            (["--against", "x", "--replace"], "--replace and --against do not go together: --against finds out what is to be replaced"),
        ):
            with self.subTest(said):
                self.assertEqual(run_tool("geojson-to-desk", [*COMMON, *words], text), (2, "", f"geojson-to-desk: {said}\n"))

    def test_a_mistake_that_shows_at_the_features_is_said_once(self) -> None:
        text = collection([feature(RING, number, code=f"c{number}", empty=None) for number in range(300)])
        count = "geojson-to-desk: {} of 300 features became lines\n"
        for words, taken, said in (
            (["--source-id", "{coed}"], 0, "no feature has a value of the property 'coed': did you mean 'code'?"),
            (["--source-id", "{empty}"], 0, "no feature has a value of the property 'empty'"),
            (["--source-id", "{7}"], 0, "no feature has a value of the property '7': there are 'code', 'empty'"),
            (["--source-id", "police"], 1, "--source-id: 'police' is the same for every feature: write a property into it, such as {code}"),
            (["--key", "one"], 1, "--key: 'one' is the same for every feature: write a property into it, such as {code}"),
        ):
            with self.subTest(said):
                status, output, errors = run_tool("geojson-to-desk", [*COMMON, *words, "--commit", "--without-faulty"], text)
                self.assertEqual((status, output.count("\n")), (2, taken))
                self.assertEqual(errors, f"geojson-to-desk: {said}\n{count.format(taken)}")

    def test_a_property_that_is_missing_here_and_there_is_said_each_time(self) -> None:
        features = [feature(RING, number, code=code) for number, code in enumerate((None, "", "c", None))]
        status, output, said = run_tool("geojson-to-desk", [*COMMON, "--source-id", "{code}"], collection(features))
        lines = [f"geojson-to-desk: feature {number} (id '{number - 1}'): it has no value of the property 'code'" for number in (1, 2, 4)]
        self.assertEqual((status, output.count("\n"), said.splitlines()[:-1]), (3, 1, lines))

    def test_of_many_with_like_causes_20_are_named_and_the_rest_counted(self) -> None:
        features = [feature(RING, f"{number} here", note="a" if number > 30 else "") for number in range(1, 61)]
        words = [*COMMON[: COMMON.index("--uri")], "--uri", "sip{note}@x", *COMMON[COMMON.index("--uri") + 2 :]]
        status, output, said = run_tool("geojson-to-desk", words, collection(features))
        lines = said.splitlines()
        # 30 without a note, which wait until feature 31 has one, and 30 whose URI has no scheme.
        self.assertEqual((status, output, len(lines)), (3, "", 20 + 20 + 2 + 1))
        self.assertIn("feature 1 ", lines[0])
        self.assertIn("feature 20 ", lines[19])
        self.assertIn("feature 50 ", lines[39])
        rest = [f"geojson-to-desk: 10 more left out for like reasons, the last of them feature {last}" for last in (30, 60)]
        self.assertEqual([line.partition(" (id")[0] for line in lines[40:42]], rest)

    def test_an_optional_property_that_nothing_has_is_noted(self) -> None:
        status, output, said = run_tool("geojson-to-desk", [*COMMON, "--service-number", "{dail?}"], collection([feature(RING, dial="1")]))
        self.assertEqual((status, output.count("\n")), (0, 1))
        self.assertIn("geojson-to-desk: note: no feature has a value of the property 'dail': did you mean 'dial'?\n", said)

    def test_no_commit_where_a_feature_was_left_out(self) -> None:
        text = collection([feature(RING, "a"), feature([[[0, 0], [1, 1]]], "b")])
        for words, commits, said in (
            ([], 0, "no commit line is written, since something was left out; --without-faulty writes it all the same\n"),
            (["--without-faulty"], 1, ""),
        ):
            status, output, errors = run_tool("geojson-to-desk", [*COMMON, "--commit", *words], text)
            self.assertEqual((status, output.count(COMMIT)), (3, commits))
            self.assertIn(said, errors)
        self.assertEqual(run_tool("geojson-to-desk", [*COMMON, "--commit"], collection([feature(RING)]))[1].count(COMMIT), 1)
