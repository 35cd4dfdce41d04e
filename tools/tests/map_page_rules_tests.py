"""tools/map-page: the answers of the page, by its own rules, are those of the program lostd. It needs node and Leaflet."""
from __future__ import annotations

import json
import math
import os
import random
import shutil
import subprocess
import tempfile
import unittest
from typing import Any, Dict, List, Tuple

from maptools.page import LEAFLET
from tests.running import TOOLS, found_in, lostd, question, replay, run_tool

NOW = 1_780_272_000_000  # 2026-06-01T00:00:00Z, the moment of `replay`
POLICE, FIRE, SOS = "urn:service:sos.police", "urn:service:sos.fire", "urn:service:sos"
SERVICES = [POLICE, FIRE, SOS, "urn:service:sos.police.harbour", "urn:service:counseling"]
NORTH, EAST = 900_000_000, 1_800_000_000
# Stamps about the moment, with the words without an end.
EXPIRES = ["NO-EXPIRATION", "NO-CACHE", "2026-06-01T00:00:00Z", "2026-06-01T00:00:00.000000001Z", "2026-05-31T23:59:59.999999999Z", "2026-06-01T00:00:00.0Z", "9999-12-31T23:59:59Z", "0001-01-01T00:00:00Z"]

Ring = List[List[int]]
Question = Tuple[int, int, str]


def mapping(number: int, service: str, rings: List[Ring], **more: Any) -> Dict[str, Any]:
    """A mapping; a default where it has no ring."""
    regions = [{"profile": "geodetic-2d", "polygon": ring} for ring in rings]
    boundary = {"serviceBoundary": regions, "key": f"k{number}"} if regions else {"default": True}
    return {
        "source": "map.example", "sourceId": f"m{number}", "lastUpdated": "2026-01-01T00:00:00Z", "expires": "NO-EXPIRATION",
        "service": service, "uri": [f"sip:m{number}@map.example"], **boundary, **more,
    }  # fmt: skip


def closed(ring: Ring) -> Ring:
    """A ring that ends where it begins."""
    return [*ring, ring[0]]


def lines_of(mappings: List[Dict[str, Any]]) -> str:
    """Desk lines that publish mappings."""
    return "".join(json.dumps({"publish": one}) + "\n" for one in mappings) + '{"commit":{}}\n'


def expected(mappings: str, questions: List[Question]) -> List[Dict[str, Any]]:
    """What lostd answers: the sourceIds, the warnings and the error of each question."""
    replies = replay(mappings + "".join(question(*one) for one in questions))[-len(questions) :]
    return [
        {
            "found": found_in(reply),
            "warnings": reply.get("findServiceResponse", {}).get("warnings", []),
            "error": reply.get("errors", {}).get("error"),
        }
        for reply in replies
    ]


@unittest.skipUnless(shutil.which("node"), "node is not there")
@unittest.skipUnless(os.path.isdir(LEAFLET), "libjs-leaflet is not there")
class Rules(unittest.TestCase):
    """The scripts of the page, run by node over the data that the page carries."""

    maxDiff = None

    def answers(self, lines: str, questions: List[Question]) -> List[Dict[str, Any]]:
        """What the page answers."""
        with tempfile.TemporaryDirectory() as folder:
            with open(f"{folder}/map.jsonl", "w", encoding="utf-8") as file:
                file.write(lines)
            status, page, said = run_tool("map-page", ["--no-findings", f"{folder}/map.jsonl"])
            self.assertEqual((status, said), (0, ""))
            with open(f"{folder}/page.html", "w", encoding="utf-8") as file:
                file.write(page)
            words = ["node", f"{TOOLS}/tests/page_answers.js", f"{folder}/page.html", str(NOW)]
            asked = "".join(json.dumps(one) + "\n" for one in questions)
            ran = subprocess.run(words, input=asked, capture_output=True, text=True, timeout=120, check=True)
        return [json.loads(line) for line in ran.stdout.splitlines()]

    def check(self, mappings: List[Dict[str, Any]], questions: List[Question]) -> None:
        """The page answers as lostd does."""
        lines = lines_of(mappings)
        answers = self.answers(lines, questions)
        self.assertEqual(len(answers), len(questions))
        for asked, answer, wanted in zip(questions, answers, expected(lines, questions)):
            self.assertEqual({name: answer[name] for name in wanted}, wanted, asked)

    @unittest.skipUnless(lostd(), "lostd is not built")
    def test_small_odd_rings_at_every_point_about_them(self) -> None:
        dice = random.Random(5)
        for _ in range(6):
            mappings = []
            for number in range(7):
                rings = [closed([[dice.randrange(12), dice.randrange(12)] for _ in range(dice.randrange(3, 14))]) for _ in range(dice.choice((0, 1, 1, 2)))]
                mappings.append(mapping(number, dice.choice(SERVICES[:4]), rings, expires=dice.choice(EXPIRES)))
            places = [(latitude, longitude) for latitude in range(-1, 13) for longitude in range(-1, 13)]
            self.check(mappings, [(*place, dice.choice(SERVICES)) for place in places for _ in range(3)])

    @unittest.skipUnless(lostd(), "lostd is not built")
    def test_great_rings_at_their_corners_and_on_their_edges(self) -> None:
        dice = random.Random(6)
        edges = [-NORTH, NORTH], [-EAST, EAST]
        corners = [[dice.choice([*axis, dice.randint(*axis)]) for axis in edges] for _ in range(240)]
        rings = [closed(corners[first : first + dice.randrange(3, 7)]) for first in range(0, 240, 6)]
        mappings = [mapping(number, POLICE, [ring]) for number, ring in enumerate(rings)]
        questions = []
        for ring in rings:
            for (south, west), (north, east) in zip(ring, ring[1:]):
                middle = [(south + north) // 2, (west + east) // 2]
                share = dice.random()
                on = [round(south + share * (north - south)), round(west + share * (east - west))]
                for latitude, longitude in ([south, west], middle, on):
                    for step in (-1, 0, 1):
                        place = max(-EAST, min(EAST, longitude + step))
                        questions.append((latitude, place, POLICE))
        questions += [(pole, longitude, POLICE) for pole in (-NORTH, NORTH, NORTH - 1) for longitude in (-EAST, -1, 0, EAST, EAST - 1)]
        self.check(mappings, questions)

    @unittest.skipUnless(lostd(), "lostd is not built")
    def test_exact_points_of_long_slanted_edges(self) -> None:
        # an edge across nearly the whole globe, in steps of whole units
        count, (up, east) = 120_000_000, (14, 29)
        low, high = [-up * count // 2, -east * count // 2], [up * count // 2, east * count // 2]
        ring, other = closed([low, high, [high[0], low[1]]]), closed([low, high, [low[0], high[1]]])
        dice = random.Random(7)
        questions = []
        for step in (dice.randrange(1, count) for _ in range(500)):
            latitude, longitude = low[0] + up * step, low[1] + east * step
            questions += [(latitude, longitude + aside, POLICE) for aside in (-1, 0, 1)]
        mappings = [mapping(0, POLICE, [ring]), mapping(1, POLICE, [other])]
        self.check(mappings, questions)
        reasons = self.answers(lines_of(mappings), questions[1:2])[0]["reasons"]
        self.assertEqual(sum("on an edge of" in reason for reason in reasons), 2, reasons)

    @unittest.skipUnless(lostd(), "lostd is not built")
    def test_points_nearest_to_long_slanted_edges(self) -> None:
        # beside an edge of this height and width, where the two products of the rule differ by a few units in 10^18
        dice = random.Random(8)
        mappings, questions = [], []
        while len(mappings) < 60:
            height, width = dice.randint(NORTH, 2 * NORTH), dice.randint(EAST, 2 * EAST)
            if math.gcd(height, width) > 1:
                continue
            high = [height - NORTH, width - EAST]
            mappings.append(mapping(len(mappings), POLICE, [closed([[-NORTH, -EAST], high, [-NORTH, high[1]]])]))
            for difference in (1, 2, 3, 100, -1, -2, -3, -100):
                east = difference * pow(height, -1, width) % width
                north = (east * height - difference) // width
                questions.append((north - NORTH, east - EAST, POLICE))
        self.check(mappings, [one for one in questions if one[0] < NORTH])

    def test_the_reasons(self) -> None:
        square = closed([[0, 0], [0, 10], [10, 10], [10, 0]])
        beside = closed([[0, 10], [0, 20], [10, 20], [10, 10]])
        mappings = [
            mapping(0, POLICE, [square], displayName=[{"lang": "en", "text": "West"}]), mapping(1, POLICE, [beside]),
            mapping(2, SOS, [closed([[0, 0], [0, 30], [10, 30], [10, 0]])]), mapping(3, POLICE, [square], expires="2026-01-01T00:00:00Z"),
            mapping(4, SOS, []), mapping(5, "urn:service:counseling", [square, beside]),
        ]  # fmt: skip
        questions = [(5, 10, POLICE), (5, 5, POLICE), (5, 25, POLICE), (50, 50, POLICE), (5, 15, "urn:service:counseling.x"), (50, 50, "urn:service:counseling"), (5, 5, "urn:service:x")]
        west = "West (map.example m0)"
        wanted = [
            ["The point is inside the boundary of m1.",
             f"The point is on an edge of {west} (urn:service:sos.police). It is an upper or right edge, which does not belong to it.",
             "The point is on an edge of m1 (urn:service:sos.police). It is a lower or left edge, which belongs to it.",
             "The point is on an edge of m3 (urn:service:sos.police). It is an upper or right edge, which does not belong to it."],
            [f"The point is inside the boundary of {west}.", "m3 would hold this point too, but expired."],
            ["No boundary for urn:service:sos.police itself holds this point.",
             "The answer is that of the service above it, urn:service:sos (serviceSubstitution).", "The point is inside the boundary of m2."],
            ["No boundary for urn:service:sos.police or a service above it holds this point: a default stands in (defaultMappingReturned).",
             "The answer is that of the service above it, urn:service:sos (serviceSubstitution)."],
            ["No boundary for urn:service:counseling.x itself holds this point.",
             "The answer is that of the service above it, urn:service:counseling (serviceSubstitution).",
             "The point is inside polygon 2 of 2 of the boundary of m5."],
            ["No boundary for urn:service:counseling or a service above it holds this point, and there is no default."],
            ["No live mapping has urn:service:x or a service above it."],
        ]  # fmt: skip
        self.assertEqual([answer["reasons"] for answer in self.answers(lines_of(mappings), questions)], wanted)


if __name__ == "__main__":
    unittest.main()
