"""tools/desk-to-svg: which edges belong, what points find, and the picture itself."""
from __future__ import annotations

import json
import random
import re
import unittest
import xml.etree.ElementTree as ElementTree
from typing import Any, List, Tuple

from maptools.places import belonging, edges_of, is_inside
from maptools.units import text_of
from tests.running import found_in, lostd, question, read, replay, run_tool, token_question

SVG = "{http://www.w3.org/2000/svg}"


def square(south: int, west: int, north: int, east: int) -> List[Tuple[int, int]]:
    """A closed ring of four corners."""
    return [(south, west), (south, east), (north, east), (north, west), (south, west)]


def belonging_edges(ring: List[Tuple[int, int]]) -> List[Tuple[Tuple[int, int], Tuple[int, int]]]:
    """The edges that belong, each from its lower or western end."""
    return sorted(tuple(sorted(edge)) for edge, belongs in belonging(ring) if belongs)


class Edges(unittest.TestCase):
    """Lower and left edges belong, upper and right ones do not."""

    def test_a_square_has_its_lower_and_its_left_edge_in_both_directions(self) -> None:
        ring = square(0, 0, 10, 10)
        for way in (ring, ring[::-1]):
            self.assertEqual(belonging_edges(way), [((0, 0), (0, 10)), ((0, 0), (10, 0))])

    def test_the_boundary_of_the_picture_in_the_protocol(self) -> None:
        # bottom, right (slanted), upper right, upper left (slanted), left; north is up
        ring = [(0, 80), (0, 300), (130, 340), (230, 200), (140, 80), (0, 80)]
        expected = [((0, 80), (0, 300)), ((0, 80), (140, 80)), ((140, 80), (230, 200))]
        self.assertEqual(belonging_edges(ring), expected)

    def test_the_edges_of_a_hole_belong_the_other_way_round_and_the_way_to_it_is_none(self) -> None:
        ring = [*square(0, 0, 10, 10), *square(2, 3, 6, 7), (0, 0)]
        upper_and_right = [((2, 7), (6, 7)), ((6, 3), (6, 7))]
        self.assertEqual(belonging_edges(ring), sorted([((0, 0), (0, 10)), ((0, 0), (10, 0)), *upper_and_right]))
        self.assertEqual(len(edges_of(ring)), 8)

    def test_a_notch_from_above(self) -> None:
        ring = [(0, 0), (0, 9), (9, 9), (9, 6), (3, 6), (3, 3), (9, 3), (9, 0), (0, 0)]
        self.assertEqual(belonging_edges(ring), [((0, 0), (0, 9)), ((0, 0), (9, 0)), ((3, 6), (9, 6))])

    def test_each_point_is_in_just_one_square_of_a_grid(self) -> None:
        rings = [square(south, west, south + 2, west + 2) for south in (0, 2, 4) for west in (0, 2, 4)]
        for point in [(latitude, longitude) for latitude in range(6) for longitude in range(6)]:
            self.assertEqual(sum(is_inside(zip(ring, ring[1:]), point) for ring in rings), 1, point)

    def test_the_middle_of_each_edge_of_odd_rings_agrees_with_a_plain_walk(self) -> None:
        dice = random.Random(1)
        for _ in range(100):
            ring = [(2 * dice.randrange(20), 2 * dice.randrange(20)) for _ in range(dice.randrange(3, 40))]
            ring.append(ring[0])
            for ((south, west), (north, east)), belongs in belonging(ring):
                middle = (south + north) // 2, (west + east) // 2
                self.assertEqual(belongs, is_inside(zip(ring, ring[1:]), middle))


class Pictures(unittest.TestCase):
    """The whole command over small lists of lines."""

    def draw(self, *words: str, given: str = "") -> Tuple[int, Any, str]:
        status, output, said = run_tool("desk-to-svg", words, given)
        return status, ElementTree.fromstring(output), said

    def texts(self, picture: Any) -> List[str]:
        return [element.text for element in picture.iter(f"{SVG}text")]

    def titles(self, picture: Any) -> List[str]:
        return [element.text for element in picture.iter(f"{SVG}title")][1:]

    def test_published_staged_replaced_and_withdrawn(self) -> None:
        lines = read("svg/edits.jsonl")
        status, picture, said = self.draw(given=lines)
        self.assertEqual((status, self.titles(picture)), (3, ["map.example a (sos.police)", "map.example b&<c> (sos.fire)"]))
        self.assertEqual(said.splitlines(), read("svg/edits.errors").splitlines())
        self.assertIn("2 staged edits are not shown", self.texts(picture))
        self.assertIn("1 without a boundary to draw (defaults, and those with addresses or tokens alone)", self.texts(picture))
        staged = self.draw("--staged", given=lines)[1]
        self.assertEqual(self.titles(staged), ["map.example b&<c> (sos.fire)", "map.example d (sos.police)"])
        self.assertEqual(self.titles(self.draw("--service", "URN:service:sos.Fire", given=lines)[1]), ["map.example b&<c> (sos.fire)"])
        later = self.draw("--now", "2026-07-01T00:00:00Z", given=lines)[1]
        self.assertEqual(self.titles(later), ["map.example a (sos.police)"])

    def test_tokens_alone_are_counted_and_not_drawn(self) -> None:
        lines = [json.loads(line) for line in read("svg/two-squares.jsonl").splitlines()]
        region, stamp = {"profile": "x-token", "tokens": ["t1", "t2"]}, "2026-03-01T00:00:00Z"
        first = next(line["publish"] for line in lines if "serviceBoundary" in line.get("publish", {}))
        both = {**first, "lastUpdated": stamp, "key": "both", "serviceBoundary": [*first["serviceBoundary"], region]}
        alone = {**first, "sourceId": "rooms", "key": "rooms", "serviceBoundary": [region]}
        before = self.draw(given=read("svg/two-squares.jsonl"))[1]
        given = "\n".join(map(json.dumps, [*lines, {"replace": both}, {"publish": alone}, {"commit": {}}]))
        status, picture, said = self.draw(given=given)
        self.assertEqual((status, said), (0, ""))
        self.assertEqual(self.titles(picture), self.titles(before))
        count = sum("serviceBoundary" not in line.get("publish", {"serviceBoundary": 0}) for line in lines) + 1
        self.assertIn(f"{count} without a boundary to draw (defaults, and those with addresses or tokens alone)", self.texts(picture))
        asked = self.draw(given=given + "\n" + token_question("t1"))
        self.assertEqual((asked[0], "asks for no point that can be drawn" in asked[2]), (3, True))

    def test_points_find_what_holds_them(self) -> None:
        words = ["--point", "0,0", "--point", "0.5,1", "--point", "1,0.5", "--point", "-33.9,18.4"]
        texts = self.texts(self.draw(*words, given=read("svg/two-squares.jsonl"))[1])
        for text in read("svg/two-squares.found").splitlines():
            self.assertIn(text, texts)
        units = self.texts(self.draw("--units", "--point", "5000000,10000000", given=read("svg/two-squares.jsonl"))[1])
        self.assertIn("1: 0.5, 1: map.example east (sos.police)", units)

    def test_positions_as_text_are_drawn_as_pairs_are(self) -> None:
        lines = read("svg/two-squares.jsonl").splitlines()
        lines.append(question(5_000_000, 10_000_000).rstrip("\n"))
        pairs = re.compile(r"\[(-?[0-9]+), ?(-?[0-9]+)\]")
        texts = [pairs.sub(lambda pair: f'"{text_of((int(pair[1]), int(pair[2])))}"', line) for line in lines]
        self.assertIn('"pos": "0.5 1"', texts[-1])
        status, output, said = run_tool("desk-to-svg", [], "\n".join(texts))
        self.assertEqual((status, said), (0, ""))
        self.assertEqual(output, run_tool("desk-to-svg", [], "\n".join(lines))[1])

    def test_one_solid_and_one_dashed_path_for_each_mapping(self) -> None:
        picture = self.draw(given=read("svg/two-squares.jsonl"))[1]
        styles = [element.get("class") for element in picture.iter(f"{SVG}path")]
        self.assertEqual([styles.count("d"), styles.count("s")], [3, 3])
        fills = [group.get("fill") for group in picture.iter(f"{SVG}g") if group.get("fill")]
        self.assertEqual(len(set(fills)), 2)

    def test_a_box_shows_what_lies_in_it(self) -> None:
        words = ["--bbox", "-0.5,-0.5,0.5,0.5", "--point", "0.25,0.25", "--point", "0.5,1.5"]
        status, picture, said = self.draw(*words, given=read("svg/two-squares.jsonl"))
        self.assertEqual((status, said), (0, ""))
        whole = self.draw(given=read("svg/two-squares.jsonl"))[1]
        self.assertEqual(self.titles(picture), [title for title in self.titles(whole) if "west" in title])
        texts = self.texts(picture)
        self.assertIn("2: 0.5, 1.5: map.example east (sos.police)", texts)
        self.assertIn("latitude 0.5, longitude -0.5", texts)
        self.assertIn("latitude -0.5, longitude 0.5", texts)
        # (one of the marks is that of the legend)
        marks = [mark for mark in picture.iter(f"{SVG}circle") if mark.get("fill")]
        self.assertEqual((len(marks), texts.count("1"), texts.count("2")), (2, 1, 0))
        self.assertEqual([len(list(where.iter(f"{SVG}clipPath"))) for where in (picture, whole)], [1, 0])
        units = self.draw("--units", "--bbox", "-5000000,-5000000,5000000,5000000", given=read("svg/two-squares.jsonl"))[1]
        self.assertEqual(self.titles(units), self.titles(picture))

    def test_small_areas_among_very_many_have_no_edges(self) -> None:
        lines = []
        for number in range(2_001):
            ring = square(number // 50 * 10, number % 50 * 10, number // 50 * 10 + 10, number % 50 * 10 + 10)
            mapping = {
                "source": "a.example", "sourceId": str(number), "key": str(number), "lastUpdated": "2026-01-01T00:00:00Z",
                "expires": "NO-CACHE", "service": "urn:service:sos.police", "uri": ["sip:a@a.example"],
                "serviceBoundary": [{"profile": "geodetic-2d", "polygon": ring}],
            }  # fmt: skip
            lines.append(json.dumps({"publish": mapping}))
        counts = []
        for some in (lines[:2_000], lines):
            picture = self.draw("--bbox", "-0.0005,-0.0005,0.0005,0.0005", given="\n".join([*some, '{"commit":{}}']))[1]
            self.assertEqual(len(self.titles(picture)), len(some))
            # (the legend has one of each)
            counts.append(sum(path.get("class") in ("s", "d") for path in picture.iter(f"{SVG}path")) - 2)
        self.assertEqual(counts, [4_000, 0])

    def test_no_line_and_no_file(self) -> None:
        self.assertEqual(self.draw(given="")[0], 0)
        mistakes = [(["--point", "91,0"], 2), (["--point", "x"], 2), (["--now", "now"], 2)]
        mistakes += [(["--bbox", box], 2) for box in ("1,2,3", "0,0,0,1", "1,0,0,1", "0,0,91,1", "a,0,1,1")]
        for words, status in ((["/no/such/file"], 1), (["--help"], 0), *mistakes):
            self.assertEqual(run_tool("desk-to-svg", words)[0], status, words)

    @unittest.skipUnless(lostd(), "lostd is not built")
    def test_the_server_finds_the_same_in_odd_rings(self) -> None:
        dice = random.Random(2)
        for _ in range(6):
            lines, asked, points = "", "", []
            for number in range(4):
                ring = [[dice.randrange(9), dice.randrange(9)] for _ in range(dice.randrange(3, 12))]
                mapping = {
                    "source": "a.example", "sourceId": str(number), "key": str(number), "lastUpdated": "2026-01-01T00:00:00Z",
                    "expires": "NO-CACHE", "service": "urn:service:sos.police", "uri": ["sip:a@a.example"],
                    "serviceBoundary": [{"profile": "geodetic-2d", "polygon": [*ring, ring[0]]}],
                }  # fmt: skip
                lines += json.dumps({"publish": mapping}) + "\n"
            for _ in range(20):
                points.append((dice.randrange(9), dice.randrange(9)))
                asked += question(*points[-1])
            replies = replay(lines + '{"commit":{}}\n' + asked)[5:]
            words = [word for point in points for word in ("--point", f"{point[0]},{point[1]}")]
            texts = self.texts(self.draw("--units", *words, given=lines + '{"commit":{}}\n')[1])
            for number, reply in enumerate(replies, 1):
                shown = next(text for text in texts if text.startswith(f"{number}: "))
                self.assertEqual(shown.count("a.example"), len(found_in(reply)), shown)
