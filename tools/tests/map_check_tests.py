"""tools/map-check: each kind of finding, from maps made by hand. checks/map-faults tries thousands of maps."""
from __future__ import annotations

import subprocess
import unittest
from typing import Any, Dict, List, Sequence, Tuple

from tests.map_checking import (
    FIRE, POLICE, PYTHON, Checker, default, grid, has_shapely, kinds_of, mapping, ring_of, square,
)  # fmt: skip
from tests.running import TOOLS, lostd

# Metres by a unit of latitude, on the sphere that areas are measured on.
UNIT = 6_371_007.2 * 3.141592653589793 / 180 / 1e7

Found = Sequence[Tuple[str, str, Tuple[str, ...]]]


@unittest.skipUnless(has_shapely(), "/usr/bin/python3 lacks python3-shapely")
class Findings(unittest.TestCase):
    """What is found in maps at hand."""

    maxDiff = None

    @classmethod
    def setUpClass(cls) -> None:
        cls.checker = Checker()

    @classmethod
    def tearDownClass(cls) -> None:
        cls.checker.close()

    def finds(self, mappings: Sequence[Dict[str, Any]], *wanted: Tuple[str, str, Tuple[str, ...]], **options: Any) -> List[Dict[str, Any]]:
        """Fails unless the findings are as wanted; these, but that a service has no default."""
        found = self.checker.check(mappings, **options)
        self.assertEqual(kinds_of(found), sorted(wanted), [one["text"] for one in found])
        return [one for one in found if one["kind"] != "no-default"]

    def answers(self, finding: Dict[str, Any], wanted: str) -> None:
        """Fails unless that is what findService answers, where the program is at hand."""
        if lostd():
            self.assertEqual(finding["answer"], wanted)


class Boundaries(Findings):
    """Gaps and overlaps."""

    def test_a_right_map_has_no_finding_but_that_there_is_no_default(self) -> None:
        (found,) = self.checker.check(grid(3, 3))
        self.assertEqual((found["kind"], found["severity"], found["service"]), ("no-default", "note", POLICE))
        self.assertEqual(self.checker.check([*grid(3, 3), default("all", "urn:service:sos")]), [])
        self.assertEqual(self.checker.check([]), [])

    def test_a_missing_district_is_a_gap_beside_four(self) -> None:
        mappings = [one for one in grid(3, 3) if one["sourceId"] != "1.1"]
        (gap,) = self.finds(mappings, ("gap", "error", ("0.1", "1.0", "1.2", "2.1")))
        side = 10_000 * UNIT
        self.assertAlmostEqual(gap["area_m2"], side * side, delta=side * side / 1000)
        self.assertAlmostEqual(gap["width_m"], side, delta=side / 80)
        self.assertTrue(all(0.001 <= degrees < 0.002 for degrees in gap["point"]), gap["point"])
        self.assertEqual(gap["geometry"]["type"], "Polygon")
        self.answers(gap, "notFound")

    def test_a_gap_with_many_edges_is_beside_those_that_share_one_and_not_those_at_its_corners(self) -> None:
        mappings = [one for one in grid(3, 3) if one["sourceId"] != "1.1"]
        for one in mappings:
            corners = one["serviceBoundary"][0]["polygon"]
            steps = [(a, b, step) for a, b in zip(corners, corners[1:]) for step in range(50)]
            one["serviceBoundary"][0]["polygon"] = [[a[axis] + (b[axis] - a[axis]) * step // 50 for axis in (0, 1)] for a, b, step in steps] + corners[:1]
        self.finds(mappings, ("gap", "error", ("0.1", "1.0", "1.2", "2.1")))

    def test_a_gap_that_a_default_or_a_service_above_fills_is_a_warning(self) -> None:
        mappings = [one for one in grid(3, 3) if one["sourceId"] != "1.1"]
        above = mapping("state", square(0, 0, 30_000, 30_000), service="urn:service:sos")
        for filling, answer in ((default("all"), "map.example all (a default)"), (above, "map.example state (of urn:service:sos)")):
            (gap,) = [one for one in self.checker.check([*mappings, filling]) if one["kind"] == "gap"]
            self.answers(gap, answer)
            self.assertEqual(gap["severity"], "warning" if lostd() else "error")

    def test_a_hole_with_nothing_in_it_is_a_gap_and_one_with_an_island_is_not(self) -> None:
        ring = [*square(0, 0, 90_000, 90_000), *square(30_000, 30_000, 60_000, 60_000), [0, 0]]
        self.finds([mapping("around", ring)], ("gap", "error", ("around",)))
        self.finds([mapping("around", ring), mapping("island", square(30_000, 30_000, 60_000, 60_000))])
        # (the island that is smaller leaves a ring open)
        (gap,) = self.finds([mapping("around", ring), mapping("island", square(40_000, 40_000, 50_000, 50_000))], ("gap", "error", ("around", "island")))
        self.assertAlmostEqual(gap["area_m2"], 8 * (10_000 * UNIT) ** 2, delta=1e4)

    def test_overlaps_of_two_and_of_three(self) -> None:
        mappings = [mapping("A", square(0, 0, 20_000, 20_000)), mapping("B", square(0, 15_000, 20_000, 40_000))]
        (overlap,) = self.finds(mappings, ("overlap", "error", ("A", "B")))
        self.answers(overlap, "map.example A and map.example B")
        self.assertAlmostEqual(overlap["width_m"], 5000 * UNIT, delta=5000 * UNIT / 80)
        third = mapping("C", square(10_000, 0, 30_000, 40_000))
        self.finds([*mappings, third], *[("overlap", "error", names) for names in (("A", "B"), ("A", "B", "C"), ("A", "C"), ("B", "C"))])

    def test_one_that_lies_over_two_neighbours_overlaps_each(self) -> None:
        self.finds([*grid(1, 2), mapping("over", square(2000, 8000, 5000, 14_000))], ("overlap", "error", ("0.0", "over")), ("overlap", "error", ("0.1", "over")))

    def test_services_are_looked_at_by_themselves(self) -> None:
        self.finds([*grid(1, 2), mapping("fire", square(0, 0, 10_000, 20_000), service=FIRE)])

    def test_slivers_are_told_once_for_two_neighbours(self) -> None:
        one = ring_of((0, 0), (0, 50_000), (20_000, 50_020), (40_000, 50_000), (60_000, 50_020), (80_000, 50_000), (80_000, 0))
        two = ring_of((0, 50_000), (40_000, 50_000), (80_000, 50_000), (80_000, 90_000), (0, 90_000))
        (sliver,) = self.finds([mapping("A", one), mapping("B", two)], ("sliver", "warning", ("A", "B")))
        self.assertIn("in 2 places", sliver["text"])
        self.answers(sliver, "map.example A and map.example B")

    def test_a_polygon_that_is_a_sliver_by_itself(self) -> None:
        strip = square(20_000, 20_000, 20_500, 60_000)
        (sliver,) = self.finds([mapping("A", square(0, 0, 10_000, 10_000), strip)], ("sliver", "warning", ("A",)))
        self.assertAlmostEqual(sliver["width_m"], 500 * UNIT, delta=500 * UNIT / 80)
        self.finds([mapping("A", square(0, 0, 10_000, 10_000), strip)], tolerance=6.0)

    def test_the_same_area_under_two_identities(self) -> None:
        ring = square(0, 0, 10_000, 10_000)
        again = [*ring[2:], *ring[1:3]][::-1]
        self.finds([*grid(2, 2), mapping("again", again)], ("same-area", "error", ("0.0", "again")))
        nearly = ring_of((0, 0), (0, 10_000), (10_000, 10_000), (10_010, 0))
        found = self.finds([mapping("A", ring), mapping("nearly", nearly)], ("same-area", "error", ("A", "nearly")))
        self.answers(found[0], "map.example A and map.example nearly")

    def test_a_hole_that_is_given_as_a_second_polygon(self) -> None:
        self.finds([mapping("A", square(0, 0, 10_000, 10_000), square(2000, 2000, 4000, 4000))], ("own-overlap", "warning", ("A",)))
        self.finds([mapping("A", square(0, 0, 10_000, 10_000), square(0, 10_000, 4000, 14_000))])

    def test_neighbours_that_cross_between_whole_points_overlap_and_neither_overlaps_itself(self) -> None:
        # Each keeps every other position of their border, as when districts are simplified one by one.
        left = ring_of((0, 0), (3375, -908), (9728, 2656), (15_185, -2763), (18_000, 0), (18_000, -30_000), (0, -30_000))
        right = ring_of((0, 30_000), (18_000, 30_000), (18_000, 0), (12_823, 2341), (6619, -63), (0, 0))
        found = self.checker.check([mapping("left", left), mapping("right", right)])
        self.assertEqual({one["kind"] for one in found}, {"no-default", "overlap", "gap"}, [one["text"] for one in found])

    def test_an_expired_mapping_leaves_a_gap(self) -> None:
        mappings = grid(3, 3)
        mappings[4]["expires"] = "2026-05-31T23:59:59Z"
        self.finds(mappings, ("expired", "error", ("1.1",)), ("gap", "error", ("0.1", "1.0", "1.2", "2.1")))

    def test_far_and_swapped(self) -> None:
        mappings = [mapping(f"{number}", square(380_000_000, 230_000_000 + number * 1000, 380_001_000, 230_000_000 + (number + 1) * 1000)) for number in range(8)]
        swapped = mapping("swapped", square(230_008_000, 380_000_000, 230_009_000, 380_001_000))
        (found,) = self.finds([*mappings, swapped], ("far-away", "error", ("swapped",)))
        self.assertIn("latitude and longitude swapped?", found["text"])
        self.answers(found, "map.example swapped")
        self.finds([*mappings, mapping("far", square(0, 0, 1000, 1000))], ("far-away", "warning", ("far",)))

    def test_the_tolerance(self) -> None:
        mappings = [mapping("A", square(0, 0, 20_000, 20_000)), mapping("B", square(0, 15_000, 20_000, 40_000))]
        self.finds(mappings, tolerance=5000 * UNIT * 1.02)
        self.finds(mappings, ("overlap", "error", ("A", "B")), tolerance=5000 * UNIT * 0.98)


class Cracks(Findings):
    """What rounding opens and closes, in whole units."""

    def pair(self, low: Tuple[int, int], middle: Tuple[int, int], high: Tuple[int, int]) -> List[Dict[str, Any]]:
        """Neighbours of which only the right one names a position between the ends of their edge."""
        width = 4 * high[0]
        left = ring_of(low, high, (high[0], -width), (low[0], -width))
        right = ring_of(low, (low[0], width), (high[0], width), high, middle)
        return [mapping("left", left), mapping("right", right)]

    def test_a_position_off_the_edge_opens_a_crack(self) -> None:
        (crack,) = self.finds(self.pair((0, 0), (501, 1), (1000, 0)), ("crack", "warning", ("left", "right")))
        self.assertIn("nobody serves", crack["text"])
        # Only the rows from 1 to 500 have a whole longitude from 0 up to before the right one's edge.
        latitude, longitude = (round(degrees * 1e7) for degrees in crack["point"])
        self.assertTrue(0 < latitude < 1000 and longitude == 0, (latitude, longitude))
        self.answers(crack, "notFound")

    def test_a_position_on_the_other_side_makes_both_answer(self) -> None:
        (crack,) = self.finds(self.pair((0, 0), (501, -1), (1000, 0)), ("crack", "warning", ("left", "right")))
        self.assertIn("both serve", crack["text"])
        self.answers(crack, "map.example left and map.example right")

    def test_a_crack_without_a_whole_point_is_none(self) -> None:
        # The edge runs from (0, 0) to (3, 2); at row 1 it is at 2/3 and the other way at 1, at row 2 at 4/3 and at 3/2.
        self.finds(self.pair((0, 0), (1, 1), (3, 2)))
        # At row 1 it is at 2/3 and the other way at 0: the point (1, 0) is in neither nor both only if 0 is.
        self.finds(self.pair((0, 0), (1, 0), (3, 2)), ("crack", "warning", ("left", "right")))

    def test_a_position_on_the_edge_changes_nothing(self) -> None:
        self.finds(self.pair((0, 0), (500, 250), (1000, 500)))

    def test_neighbours_that_cut_a_straight_edge_differently(self) -> None:
        left = ring_of((0, 0), (0, 90), (30, 90), (60, 90), (90, 90), (90, 0))
        right = ring_of((0, 90), (0, 180), (90, 180), (90, 90), (45, 90))
        self.finds([mapping("left", left), mapping("right", right)])


@unittest.skipUnless(has_shapely(), "/usr/bin/python3 lacks python3-shapely")
class Rule(unittest.TestCase):
    """Which whole points areas hold."""

    def test_against_plain_walks(self) -> None:
        ran = subprocess.run([PYTHON, "-B", f"{TOOLS}/tests/map_rule.py"], capture_output=True, text=True, timeout=300)
        self.assertEqual((ran.returncode, ran.stderr), (0, ""))


class Rings(Findings):
    """Rings by themselves."""

    def test_a_ring_that_crosses_itself(self) -> None:
        (found,) = self.finds([mapping("A", ring_of((0, 0), (10_000, 10_000), (0, 10_000), (10_000, 0)))], ("self-crossing", "error", ("A",)))
        self.assertEqual(found["point"], [0.0005, 0.0005])

    def test_a_ring_that_touches_itself_or_goes_round_a_hole_is_right(self) -> None:
        self.finds([mapping("A", ring_of((0, 0), (0, 20_000), (5000, 5000), (10_000, 20_000), (10_000, 0), (5000, 5000)))])
        holes = [*square(0, 0, 90_000, 90_000), *square(10_000, 10_000, 20_000, 20_000), [0, 0], *square(40_000, 40_000, 50_000, 50_000), [0, 0]]
        filling = [mapping("B", square(10_000, 10_000, 20_000, 20_000)), mapping("C", square(40_000, 40_000, 50_000, 50_000))]
        self.finds([mapping("A", holes), *filling])

    def test_a_ring_drawn_twice_holds_nothing(self) -> None:
        ring = square(0, 0, 10_000, 10_000)
        (found,) = self.finds([mapping("A", ring[:-1] + ring)], ("ring-twice", "error", ("A",)))
        self.answers(found, "notFound")

    def test_areas_of_nothing(self) -> None:
        line, dot, back = ring_of((0, 0), (5, 5), (9, 9)), ring_of((0, 0), (0, 0), (0, 0)), ring_of((0, 0), (0, 9), (9, 9), (0, 9))
        for ring in (line, dot, back):
            self.finds([mapping("A", ring)], ("no-area", "error", ("A",)))
        # A triangle between whole points.
        self.finds([mapping("A", ring_of((0, 0), (1, 1), (3, 2)))], ("no-area", "error", ("A",)))

    def test_spikes_and_repeated_positions(self) -> None:
        spike = ring_of((0, 0), (0, 10_000), (5000, 10_000), (5000, 30_000), (5000, 10_000), (10_000, 10_000), (10_000, 0))
        (found,) = self.finds([mapping("A", spike)], ("spike", "warning", ("A",)))
        self.assertEqual(found["point"], [0.0005, 0.003])
        needle = ring_of((0, 0), (0, 10_000), (5000, 10_000), (5010, 30_000), (5020, 10_000), (10_000, 10_000), (10_000, 0))
        self.finds([mapping("A", needle)], ("spike", "warning", ("A",)))
        self.finds([mapping("A", ring_of((0, 0), (0, 0), (0, 9), (9, 9), (9, 9), (9, 9), (9, 0)))], ("repeated-position", "note", ("A",)))


class Values(Findings):
    """What mappings say."""

    def with_values(self, *values: Dict[str, Any]) -> List[Dict[str, Any]]:
        """Mappings side by side with values of their own."""
        return [{**one, **value} for one, value in zip(grid(1, len(values)), values)]

    def test_services(self) -> None:
        for wrong in ("urn:service:sos.polcie", "urn:service:sos.polic", "urn:service:sos.policee", "URN:service:sos.Pilice", "urn:service:so.police"):
            self.finds(self.with_values({}, {"service": wrong}), ("service-spelling", "error", ("0.1",)))
        self.finds(self.with_values({"service": "urn:service:sos.unit1"}, {"service": "urn:service:sos.unit2"}))
        harbour = [{"service": "urn:service:sos.harbour"}] * 2
        self.finds(self.with_values(*harbour, {"service": "urn:service:sos.harbor"}), ("service-spelling", "warning", ("0.2",)))
        self.finds(self.with_values({"service": "urn:service:sos.fire"}, {"service": "urn:service:sos.gas"}))

    def test_what_a_caller_gets_where_a_mapping_says_something_wrong(self) -> None:
        values = [{}, {"service": "urn:service:sos.polcie"}, {"expires": "2026-01-01T00:00:00Z"}, {"displayName": [{"lang": "en", "text": ""}]}]
        found = {one["kind"]: one for one in self.checker.check([*self.with_values(*values), {**default("all"), "uri": ["spi:a@map.example"]}])}
        for kind, column, answer in (
            ("service-spelling", 1, "map.example all (a default)"), ("expired", 2, "map.example all (a default)"), ("display-name-empty", 3, "map.example 0.3"),
        ):  # fmt: skip
            latitude, longitude = found[kind]["point"]
            self.assertTrue(0 <= latitude < 0.001 and column / 1000 <= longitude < (column + 1) / 1000, found[kind])
            self.answers(found[kind], answer)
        self.assertEqual((found["service-spelling"]["asked"], "asked" in found["expired"]), (POLICE, False))
        # (a default has no area, and so no place of its own)
        self.assertEqual((found["uri-scheme"]["point"], found["uri-scheme"]["answer"]), (None, None))

    def test_schemes(self) -> None:
        self.finds(self.with_values({}, {}, {"uri": ["spi:a@map.example"]}), ("uri-scheme", "error", ("0.2",)))
        self.finds(self.with_values({}, {}, {"uri": ["sip:a@map.example", "x-pager:7"]}), ("uri-scheme", "warning", ("0.2",)))
        self.finds(self.with_values({}, {}, {"uri": ["sip:a@map.example", "tel:112"]}), ("uri-scheme", "note", ("0.2",)))
        self.finds(self.with_values(*[{"uri": ["sip:a@map.example", "tel:112"]}] * 3))

    def test_identifiers_that_are_nearly_the_same(self) -> None:
        self.finds(self.with_values({"sourceId": "North"}, {"sourceId": "north "}), ("source-id-alike", "warning", ("North", "north ")))
        self.finds(self.with_values({"sourceId": "North"}, {"sourceId": "north", "source": "other.example"}))
        self.finds(self.with_values({"key": "A 1"}, {"key": "a1"}), ("key-alike", "warning", ("0.0", "0.1")))

    def test_tokens(self) -> None:
        def having(*tokens: str) -> Dict[str, Any]:
            return {"profile": "x-token", "tokens": list(tokens)}

        self.finds([mapping("A", regions=[having("space", "space ")])], ("token-alike", "warning", ("A",)))
        self.finds([mapping("A", regions=[having("hall")]), mapping("B", regions=[having("Hall")])], ("token-alike", "warning", ("A", "B")))
        mappings = [mapping("A", regions=[having("hall", "room")]), mapping("B", regions=[having("hall")])]
        (found,) = self.finds(mappings, ("token-overlap", "error", ("A", "B")))
        self.answers(found, "map.example A and map.example B")
        self.assertEqual(found["token"], "hall")

    def test_display_names(self) -> None:
        name = {"displayName": [{"lang": "en", "text": "North"}]}
        self.finds(self.with_values(name, name, {}), ("display-name-same", "warning", ("0.0", "0.1")))
        self.finds(self.with_values(name, {"displayName": [{"lang": "de", "text": "North"}]}))
        self.finds(self.with_values(name, {"displayName": [{"lang": "en", "text": " "}]}), ("display-name-empty", "warning", ("0.1",)))

    def test_times(self) -> None:
        self.finds(self.with_values({"lastUpdated": "2026-06-01T00:00:00Z"}, {"lastUpdated": "2026-06-01T00:00:00.1Z"}), ("future-stamp", "warning", ("0.1",)))
        expiring = self.with_values({"expires": "2026-06-01T00:00:00Z"}, {"expires": "2026-07-01T00:00:00Z"}, {"expires": "2026-07-01T00:00:01Z"})
        self.finds(expiring, ("expired", "error", ("0.0",)), ("expiring", "warning", ("0.1",)))
        self.finds(expiring, ("expired", "error", ("0.0",)), within_days=29)

    def test_a_service_without_a_default_is_told_once(self) -> None:
        services = [one["service"] for one in self.checker.check([*grid(2, 2), mapping("F", square(0, 0, 9, 9), service=FIRE), default("P")])]
        self.assertEqual(services, [FIRE])

    def test_patterns(self) -> None:
        def having(*patterns: Dict[str, str]) -> List[Dict[str, Any]]:
            return [{"profile": "civic", "pattern": pattern} for pattern in patterns]

        town, street = {"A1": "NJ", "A3": "Leonia"}, {"A1": "NJ", "A3": " LEONIA ", "RD": "Main"}
        self.finds([mapping("A", regions=having(town, street))], ("pattern-unreachable", "warning", ("A",)))
        self.finds([mapping("A", regions=having(street, {**town, "RD": "main"}))], ("pattern-double", "warning", ("A",)))
        (found,) = self.finds([mapping("A", regions=having(town)), mapping("B", regions=having(street))], ("address-overlap", "error", ("A", "B")))
        self.assertEqual(found["address"], street)
        self.answers(found, "map.example A and map.example B")
        self.finds([mapping("A", regions=having(street)), mapping("B", regions=having({**town, "RD": "High"}))])
        self.finds([mapping("A", regions=having(town)), mapping("B", regions=having(town), service=FIRE)])
