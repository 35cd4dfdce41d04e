"""tools/lost-client desk --sync --dry-run: what it says and draws of each change; and the guard against a file that is not whole."""
from __future__ import annotations

import unittest
import xml.etree.ElementTree as ElementTree
from typing import Any, Dict, List

from maptools.flat_rings import read_flat
from maptools.lines import line_of
from maptools.plan import Change, boundary_text, change_text, metres_text, plan_of
from tests.map_file import A, B, MapFile, mapping, published

Mapping = Dict[str, Any]
DEGREE = 10_000_000


def flat(value: Mapping) -> Mapping:
    """A mapping with flat rings, as it is read from a line."""
    return read_flat(line_of({"publish": value}).encode())[1]


def with_ring(*ring: List[int], **more: Any) -> Mapping:
    """A mapping of one polygon, which is closed here."""
    return flat({**A, "serviceBoundary": [{"profile": "geodetic-2d", "polygon": [*ring, ring[0]]}], **more})


def of(profile: str, member: str, *contents: Any) -> Mapping:
    """A mapping of patterns or tokens."""
    return flat({**A, "serviceBoundary": [{"profile": profile, member: content} for content in contents]})


SQUARE = ([0, 0], [0, DEGREE], [DEGREE, DEGREE], [DEGREE, 0])


class Words(unittest.TestCase):
    """A change in words."""

    def test_a_boundary_that_moved(self) -> None:
        old = with_ring(*SQUARE)
        rows = (
            (SQUARE, ""),
            ((*SQUARE[1:], SQUARE[0]), "boundary drawn in another order"),
            # (a thousandth of a degree of latitude is 111 m)
            (([-10_000, 0], *SQUARE[1:]), "boundary moved (1 position of 4; up to 111 m)"),
            (([0, 0], [0, DEGREE // 2], *SQUARE[1:]), "boundary moved (1 position of 5; up to less than 1 m)"),
            (SQUARE[:3], "boundary moved (1 position of 4; up to 78.6 km)"),
            (([0, 0], [0, 2 * DEGREE], [DEGREE, 2 * DEGREE], [DEGREE, 0]), "boundary moved (2 positions of 4; up to 111.2 km)"),
        )
        for ring, wanted in rows:
            self.assertEqual(boundary_text(old, with_ring(*ring)), wanted, ring)

    def test_a_boundary_that_comes_or_goes(self) -> None:
        tokens = of("x-token", "tokens", ["t"])
        self.assertEqual(boundary_text(tokens, with_ring(*SQUARE)), "boundary new (4 positions)")
        self.assertEqual(boundary_text(with_ring(*SQUARE), tokens), "boundary removed")

    def test_large_boundaries_take_no_time(self) -> None:
        east = [[place * 1000, 0] for place in range(2000)]
        old, new = (with_ring(*east, *([place * 1000, far] for place in range(1999, -1, -1))) for far in (DEGREE, DEGREE + 90_000))
        self.assertRegex(boundary_text(old, new), r"^boundary moved \(2,000 positions of 4,000; up to 1,00[01] m\)$")

    def test_all_else(self) -> None:
        rows = (
            ({"uri": ["sip:b@map.example"]}, "uri sip:A@map.example -> sip:b@map.example"),
            ({"uri": ["sip:A@map.example", "tel:911"]}, "uri tel:911 added"),
            ({"expires": "NO-CACHE", "serviceNumber": "911"}, "expires NO-EXPIRATION -> NO-CACHE; serviceNumber none -> 911"),
            ({"displayName": [{"lang": "en", "text": "North"}]}, "displayName none -> en=North"),
            ({"key": "A-2"}, "key A-1 -> A-2"),
            ({"lastUpdated": "2026-01-01T00:00:00Z"}, "lastUpdated 2025-12-01T00:00:00Z -> 2026-01-01T00:00:00Z"),
            ({"lastUpdated": "2026-01-01T00:00:00Z", "service": "urn:service:sos.fire"}, "service urn:service:sos.police -> urn:service:sos.fire"),
        )
        for more, wanted in rows:
            self.assertEqual(change_text(Change(flat(A), flat({**A, **more}))), wanted)

    def test_patterns_and_tokens(self) -> None:
        us, fr = {"country": "US"}, {"country": "FR"}
        rows = (
            (of("civic", "pattern", us), of("civic", "pattern", fr, us), "patterns: 1 added, 0 removed"),
            (of("civic", "pattern", us, fr), of("civic", "pattern", fr, us), "patterns in another order"),
            (of("x-token", "tokens", ["a", "b"]), of("x-token", "tokens", ["a", "c"]), "tokens: 1 added, 1 removed"),
        )
        for old, new, wanted in rows:
            self.assertEqual(change_text(Change(old, new)), wanted)

    def test_names_of_several_sources(self) -> None:
        other = flat({**B, "source": "Other.Example"})
        self.assertEqual(list(plan_of([Change(flat(A), None)])), ["A: withdrawn"])
        lines = ["map.example A: withdrawn", "other.example B: new, urn:service:sos.police, sip:B@map.example, 4 positions"]
        self.assertEqual(list(plan_of([Change(flat(A), None), Change(None, other)])), lines)

    def test_distances(self) -> None:
        self.assertEqual([metres_text(metres) for metres in (0.2, 1, 310.4, 12_345)], ["less than 1 m", "1 m", "310 m", "12.3 km"])


class Plans(MapFile):
    """What --dry-run writes."""

    def test_a_plan_and_its_picture(self) -> None:
        self.write(*published(A, B))
        self.sync()
        picture = f"{self.folder}/plan.svg"
        self.write(*published(mapping("A", 2, "A-2", place=3), mapping("C", place=200)))
        status, output, said = self.sync("--dry-run", "--svg", picture)
        lines = ["B: withdrawn", "A: boundary moved (4 positions of 4; up to less than 1 m)"]
        counts = f"{self.server.address}: 1 to publish, 1 to replace, 1 to withdraw; nothing was sent"
        lines += ["C: new, urn:service:sos.police, sip:C@map.example, 4 positions", counts]
        self.assertEqual((status, output.splitlines(), said), (0, lines, ""))
        text = "".join(ElementTree.parse(picture).getroot().itertext())
        self.assertIn("3 of the changes are of outlines", text)
        self.assertIn("as it is to be", text)

    def test_a_picture_that_cannot_be_written(self) -> None:
        self.write(*published(A))
        status, output, said = self.sync("--dry-run", "--svg", f"{self.folder}/none/plan.svg")
        self.assertEqual((status, output), (1, ""))
        self.assertIn("plan.svg", said)

    def many(self, count: int) -> List[Mapping]:
        """So many mappings."""
        return [mapping(f"M{number}", place=100 * number) for number in range(count)]

    def test_the_guard(self) -> None:
        for held, left, is_allowed in ((30, 20, True), (30, 19, False), (300, 285, True), (300, 284, False)):
            self.write(*published(*self.many(held)))
            self.assertEqual(self.sync("--stamp", "now")[0], 0)
            self.write(*published(*self.many(left)))
            status, output, said = self.sync()
            self.assertEqual(status, 0 if is_allowed else 3, (held, left, said))
            if not is_allowed:
                gone = held - left
                text = f"{gone} of the {held} mappings held would be withdrawn, more than 10, and more than 5%: is {self.file} whole?"
                self.assertEqual(said.splitlines()[0], f"lost-client: {text} --most-withdrawn {gone} allows it")
                self.assertEqual(self.sync("--most-withdrawn", str(gone - 1))[0], 3)
                self.assertEqual(self.sync("--most-withdrawn", str(gone))[0], 0)
            self.server = self.new_server(f"{held}-{left}.sock")
