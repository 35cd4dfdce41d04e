"""Tests what the gateway answers to areas: which mapping covers most, which points are asked for, and what the desk changes meanwhile."""
from __future__ import annotations

import json
import tempfile
import unittest
import xml.etree.ElementTree as ElementTree
from typing import Any, Dict, List, Optional

from tests.gateway_places_tests import DEGREES, band, circle, ellipse, located, polygon
from tests.gateway_running import Gateway, Replier, StandIn, has_packages, has_shapely, invalid_of
from tests.gateway_standard_tests import LOST
from tests.server import READY, Server, has_maps
from tests.serving_tests import free_port

GATEWAY = "{urn:x-lostd:gateway}"


def square(west: float, east: float, south: float = 0, north: float = 1) -> List[List[int]]:
    """A ring in whole units."""
    corners = [(south, west), (south, east), (north, east), (north, west), (south, west)]
    return [[round(1e7 * latitude), round(1e7 * longitude)] for latitude, longitude in corners]


def district(name: str, service: str, *rings: List[List[int]]) -> Dict[str, Any]:
    """A publish line of a mapping over polygons."""
    parts = {"source": "map.example", "sourceId": name, "key": f"{name}-1", "lastUpdated": "2025-12-01T00:00:00Z"}
    parts = {**parts, "expires": "NO-CACHE", "service": service, "uri": [f"sip:{name}@map.example"]}
    return {"publish": {**parts, "serviceBoundary": [{"profile": "geodetic-2d", "polygon": ring} for ring in rings]}}


# Two districts side by side from 0 to 1 and from 1 to 4 east, one of the fire service in the second, and a default.
MAP = [
    district("west", "urn:service:sos", square(0, 1)), district("east", "urn:service:sos", square(1, 4)),
    district("fire", "urn:service:sos.fire", square(1, 1.5)), district("hole", "urn:service:sos.hole", square(0, 1), square(2, 3)),
    district("outer", "urn:service:sos.hole", square(-1, 4, 10, 11)), district("inner", "urn:service:sos.hole", square(0.5, 0.86, 10, 11)),
    {"publish": {"source": "map.example", "sourceId": "rest", "lastUpdated": "2025-12-01T00:00:00Z", "expires": "NO-CACHE",
                 "service": "urn:service:sos", "uri": ["sip:rest@map.example"], "default": True}},
]  # fmt: skip


def area(west: float, east: float, south: float = 0.4, north: float = 0.6) -> str:
    """A rectangle, in the middle of the districts, as a shape."""
    corners = ((south, west), (south, east), (north, east), (north, west), (south, west))
    return polygon([f"{latitude} {longitude}" for latitude, longitude in corners])


@unittest.skipUnless(has_packages() and has_shapely() and has_maps(), "the packages of Debian for areas, or lostd, are missing")
class Areas(unittest.TestCase):
    """Through gateways of each way before lostd."""

    @classmethod
    def setUpClass(cls) -> None:
        with tempfile.NamedTemporaryFile("w", suffix=".jsonl", delete=False) as file:
            file.write("".join(json.dumps(line) + "\n" for line in [*MAP, {"commit": {}}]))
        port = free_port()
        cls.server = Server(["--map", file.name, "--queries", f"127.0.0.1:{port}"], workers=8)
        assert cls.server.first_line() == READY
        cls.gateways = {way: Gateway(f"127.0.0.1:{port}", "--area", way) for way in ("largest", "all", "centre")}
        cls.gateways["half"] = Gateway(f"127.0.0.1:{port}", "--area", "all", "--area-least", "0.5")

    @classmethod
    def tearDownClass(cls) -> None:
        for gateway in cls.gateways.values():
            gateway.end()
        cls.server.__exit__()
        wrong = invalid_of(Gateway.seen)
        if wrong:
            raise AssertionError(f"not valid by lost.rng or by the standard: {wrong}")

    def answer(self, shape: str, way: str = "largest", service: str = "urn:service:sos", kind: str = "findService") -> ElementTree.Element:
        """The answer to a question about a shape."""
        asked = located(shape).replace("urn:service:sos<", f"{service}<").replace("findService", kind)
        return ElementTree.fromstring(self.gateways[way].post(asked).body)

    def found(self, *given: str) -> List[str]:
        """The mappings of an answer; or its error."""
        root = self.answer(*given)
        names = [str(mapping.get("sourceId")) for mapping in root.findall(f"{LOST}mapping")]
        return names or [root[0].tag.replace(LOST, "")]

    def warning(self, *given: str) -> Optional[ElementTree.Element]:
        """The gateway's own warning."""
        warnings = self.answer(*given).find(f"{LOST}warnings")
        own = [] if warnings is None else [one for one in warnings if one.tag.startswith(GATEWAY)]
        return own[0] if own else None

    def test_the_largest_and_all(self) -> None:
        for west, east, largest, every, half in (
            (0.2, 0.8, ["west"], ["west"], ["west"]), (0.5, 1.2, ["west"], ["west", "east"], ["west"]),
            (0.5, 1.8, ["east"], ["east", "west"], ["east"]),
            (0.93, 1.93, ["east"], ["east"], ["east"]), (-3.0, 0.5, ["west"], ["west"], ["west"]), (5.0, 6.0, ["rest"], ["rest"], ["rest"]),
        ):  # fmt: skip
            got = [self.found(area(west, east), way) for way in ("largest", "all", "half")]
            self.assertEqual(got, [largest, every, half], (west, east))
        self.assertEqual(sorted(self.found(area(0.5, 1.5), "half")), ["east", "west"])

    def test_the_warning_names_the_way_and_the_shares(self) -> None:
        own = self.warning(area(0.5, 1.8))
        assert own is not None
        self.assertEqual(own.tag, f"{GATEWAY}sharesOfArea")
        self.assertEqual([own.get(name) for name in ("shape", "way")], ["Polygon", "largest"])
        self.assertEqual((own.get("shares") or "").split(), ["0.6154", "0.3846"])
        self.assertIn("east 62 %, west 38 %", own.get("message") or "")
        default = self.warning(area(5, 6))
        self.assertEqual(default.tag if default is not None else None, f"{GATEWAY}defaultForArea")
        for way in ("largest", "all"):
            self.assertIsNone(self.warning("<gml:Point><gml:pos>0.5 0.5</gml:pos></gml:Point>", way))

    def test_the_warning_says_what_no_boundary_of_the_service_covers(self) -> None:
        for west, east, service, wanted in (
            (0.5, 1.8, "urn:service:sos", "0.0000"), (-3.0, 0.5, "urn:service:sos", "0.8571"),
            (1.2, 1.7, "urn:service:sos.fire", "0.4000"), (1.2, 1.7, "urn:service:sos", "0.0000"), (1.6, 1.9, "urn:service:sos.fire", "1.0000"),
        ):  # fmt: skip
            own = self.warning(area(west, east), "all", service)
            self.assertEqual(own.get("uncovered") if own is not None else None, wanted, (west, east, service))

    def test_a_district_inside_another_is_found_from_an_eighth_on(self) -> None:
        # It goes from 0.5 to 0.86 east, right across these areas.
        for west, east in ((0.0, 1.0), (-0.1, 1.0), (0.2, 1.6), (0.4, 3.1), (-0.9, 0.87)):
            own = self.warning(area(west, east, 10.4, 10.6), "all", "urn:service:sos.hole")
            assert own is not None
            self.assertIn(f"inner {36 / (east - west):.0f} %", own.get("message") or "", (west, east))
            self.assertEqual(own.get("uncovered"), "0.0000")

    def test_a_band_whose_centre_lies_elsewhere(self) -> None:
        # All around, 100 to 120 km from 0.5 0.5: nearly all in the east, beyond the edges nothing.
        around = band("0.5 0.5", "100000", "120000", "0", "360")
        self.assertEqual((self.found(around, "centre"), self.found(around)), (["west"], ["east"]))
        self.assertEqual(sorted(self.found(circle("-0.001 1.0").replace("850.24", "30000"), "all")), ["east", "west"])

    def test_an_ellipse_lies_along_its_orientation(self) -> None:
        along = ellipse("0.5 1.02").replace(">7.7<", ">80000<").replace(">3.1<", ">1000<")
        for angle, wanted in (("90", ["east", "west"]), ("0", ["east"]), ("180", ["east"]), ("270", ["east", "west"])):
            self.assertEqual(self.found(along.replace(f"{DEGREES}>90<", f"{DEGREES}>{angle}<"), "all"), wanted, angle)

    def test_a_more_special_service_goes_before_one_above_it(self) -> None:
        self.assertEqual(self.found(area(1.1, 1.4), "all", "urn:service:sos.fire"), ["fire"])
        self.assertEqual(self.found(area(1.2, 1.7), "all", "urn:service:sos.fire"), ["fire", "east"])
        own = self.warning(area(1.2, 1.7), "all", "urn:service:sos.fire")
        self.assertEqual(own.get("shares") if own is not None else None, "0.6000 0.4000")
        names = [one.tag.replace(LOST, "") for one in self.answer(area(1.2, 2.0), "largest", "urn:service:sos.fire").find(f"{LOST}warnings")]
        self.assertEqual(names, ["serviceSubstitution", f"{GATEWAY}sharesOfArea"])

    def test_a_mapping_of_several_polygons_and_a_polygon_with_a_hole(self) -> None:
        own = self.warning(area(0.5, 2.5), "all", "urn:service:sos.hole")
        self.assertEqual(own.get("shares") if own is not None else None, "0.5000 0.5000")
        hole = "".join(f"<gml:pos>{text}</gml:pos>" for text in ("0.45 1.1", "0.45 1.9", "0.55 1.9", "0.55 1.1", "0.45 1.1"))
        shape = area(0.5, 2).replace("</gml:Polygon>", f"<gml:interior><gml:LinearRing>{hole}</gml:LinearRing></gml:interior></gml:Polygon>")
        own = self.warning(shape)
        # 0.1 in the west, and 0.2 without 0.08 in the east
        self.assertEqual(own.get("shares") if own is not None else None, "0.5455 0.4545")

    def test_boundaries_by_value(self) -> None:
        asked = located(area(0.5, 1.8)).replace("<findService ", '<findService serviceBoundary="value" ')
        root = ElementTree.fromstring(self.gateways["all"].post(asked).body)
        for mapping, east in zip(root.findall(f"{LOST}mapping"), ("1 4", "0 1")):
            self.assertIsNone(mapping.find(f"{LOST}serviceBoundaryReference"))
            places = [pos.text for pos in mapping.iter("{http://www.opengis.net/gml}pos")]
            self.assertEqual(places, [f"{north} {east.split()[side]}" for north, side in ((0, 0), (0, 1), (1, 1), (1, 0), (0, 0))])

    def test_the_services_of_an_area(self) -> None:
        root = self.answer(area(0.5, 1.8), "largest", "urn:service:sos", "listServicesByLocation")
        self.assertEqual(root.findtext(f"{LOST}serviceList"), "urn:service:sos.fire urn:service:sos.hole")
        self.assertIsNotNone(root.find(f"{LOST}warnings/{GATEWAY}servicesOfArea"))

    def test_what_is_no_area_and_what_is_too_large(self) -> None:
        self.assertEqual(self.found(circle("0.5 0.5").replace("850.24", "0")), ["west"])
        own = self.warning(circle("0.5 0.5").replace("850.24", "5000000"))
        self.assertEqual(own.tag if own is not None else None, f"{GATEWAY}centreOfArea")
        self.assertEqual(self.found(circle("0.5 0.5").replace("850.24", "-1")), ["locationInvalid"])
        self.assertEqual(self.found(circle("95 0.5")), ["locationInvalid"])
        self.assertEqual(self.found(area(179, 181)), ["locationInvalid"])
        self.assertEqual(self.found(band("0.5 0.5", "900", "800", "0", "9")), ["locationInvalid"])
        self.assertEqual(self.found(circle("0.5 0.5").replace("4326", "4979")), ["SRSInvalid"])
        self.assertEqual(self.found(area(0.2, 0.4), "largest", "urn:x"), ["serviceNotImplemented"])
        self.assertEqual(self.found(area(0.2, 0.4), "largest", "urn:service:counseling"), ["serviceNotImplemented"])

    def test_longitude_first(self) -> None:
        # From 0.5 to 1.8 north, and from 0.4 to 0.6 east.
        turned = area(0.5, 1.8).replace("urn:ogc:def:crs:EPSG::4326", "CRS84")
        self.assertEqual(self.found(circle("1.5 0.1").replace("urn:ogc:def:crs:EPSG::4326", "CRS84")), ["east"])
        self.assertEqual(self.found(turned), ["west"])


@unittest.skipUnless(has_packages() and has_shapely(), "the packages of Debian for areas are missing")
class Bursts(unittest.TestCase):
    """What is asked for behind."""

    def replier(self, editions: List[int]) -> Replier:
        """Answers everywhere with one mapping, of these editions in turn, the last one for ever."""
        mapping = {"source": "map.example", "sourceId": "A", "expires": "NO-CACHE", "lastUpdated": "2025-12-01T00:00:00Z"}
        mapping = {**mapping, "service": "urn:service:sos", "uri": ["sip:a@map.example"]}
        mapping["serviceBoundaryReference"] = {"source": "map.example", "key": "A-1"}
        region = {"profile": "geodetic-2d", "polygon": square(0, 1)}

        def reply(line: bytes) -> bytes:
            edition = editions.pop(0) if len(editions) > 1 else editions[0]
            common = {"edition": edition, "path": ["lost.example"]}
            if b"getServiceBoundary" in line:
                return json.dumps({"getServiceBoundaryResponse": {**common, "serviceBoundary": [region]}}).encode()
            return json.dumps({"findServiceResponse": {**common, "locationUsed": "p", "mapping": [mapping]}}).encode()

        return reply

    def test_at_most_twenty_lines_on_one_connection_and_each_boundary_once(self) -> None:
        with StandIn(self.replier([1])) as server, Gateway(server.address, "--pool", "1") as gateway:
            for _ in range(3):
                server.got.clear()
                self.assertEqual(gateway.post(located(area(0.2, 0.8))).outcome(), "findServiceResponse")
            self.assertFalse([line for line in server.got if b"getServiceBoundary" in line])
            for shape in (area(0.2, 0.8), area(0.3, 1.05), circle("0.5 0.5"), ellipse("0.5 0.5"), band("0.5 0.5", "5", "9", "0", "270")):
                points = self.points(server, gateway, shape)
                self.assertTrue(5 <= len(points) <= 20, (shape, points))
                self.assertEqual(len({tuple(point) for point in points}), len(points))
            self.assertEqual(len(server.connections), 1)

    def points(self, server: StandIn, gateway: Gateway, shape: str) -> List[List[int]]:
        """The points at which is asked for a shape."""
        server.got.clear()
        gateway.post(located(shape))
        return [json.loads(line)["findService"]["location"][0]["pos"] for line in server.got if b"findService" in line]

    def test_where_an_eighth_is_covered_by_nothing_found_at_most_twenty_more_are_asked_for_there(self) -> None:
        with StandIn(self.replier([1])) as server, Gateway(server.address) as gateway:
            # Of the width of 0.8 the boundary covers 0.7 and a little more or less.
            self.assertEqual(len(self.points(server, gateway, area(0.2999, 1.0999))), 20)
            points = self.points(server, gateway, area(0.2, 1.2))
            self.assertEqual((len(points), len({tuple(point) for point in points})), (40, 40))
            self.assertTrue(all(east > 10_000_000 for _, east in points[20:]))
        with StandIn() as server, Gateway(server.address) as gateway:
            self.assertEqual(len(self.points(server, gateway, area(0.2, 1.2))), 40)
        with StandIn(lambda line: b'{"errors":{"edition":1,"error":"serviceNotImplemented"}}') as server, Gateway(server.address) as gateway:
            self.assertEqual(len(self.points(server, gateway, area(0.2, 1.2))), 20)

    def test_the_points_are_the_centre_the_corners_and_points_inside(self) -> None:
        with StandIn(self.replier([1])) as server, Gateway(server.address) as gateway:
            points = self.points(server, gateway, area(0.2, 0.8))
            corners = [[4000000, 2000000], [4000000, 8000000], [6000000, 8000000], [6000000, 2000000]]
            self.assertEqual(points[:5], [[5000000, 5000000], *corners])
            self.assertTrue(all(4000000 < north < 6000000 and 2000000 < east < 8000000 for north, east in points[5:]))
            self.assertEqual(self.points(server, gateway, circle("0.5 0.5"))[0], [5000000, 5000000])
            # All around, and on both sides of the 180th meridian.
            around = self.points(server, gateway, band("0.5 180", "5000", "9000", "0", "360"))
            self.assertEqual({east > 0 for _, east in around}, {True, False})
            self.assertTrue(all(1_799_100_000 < abs(east) <= 1_800_000_000 for _, east in around))

    def test_a_boundary_of_a_later_edition_is_not_taken_for_that_of_the_points(self) -> None:
        editions = [1] * 20 + [2]
        with StandIn(self.replier(editions)) as server, Gateway(server.address) as gateway:
            # The gateway's own first question has no edition of these.
            answer = gateway.post(located(area(0.2, 0.8)))
            self.assertEqual((answer.outcome(), answer.headers["edition"]), ("findServiceResponse", "2"))
            lines = [b"getServiceBoundary" in line for line in server.got]
            self.assertEqual((len(lines), sum(lines), lines[20]), (41, 1, True))

    def test_where_the_map_changes_within_a_burst_it_is_asked_again(self) -> None:
        with StandIn(self.replier([1, 1, 2])) as server, Gateway(server.address) as gateway:
            answer = gateway.post(located(area(0.2, 0.8)))
            self.assertEqual((answer.outcome(), answer.headers["edition"]), ("findServiceResponse", "2"))
            bursts = [line for line in server.got if b"findService" in line]
            self.assertEqual(len(bursts), 2 * len(set(bursts)))
        with StandIn(self.replier(list(range(500)))) as server, Gateway(server.address) as gateway:
            self.assertEqual(gateway.post(located(area(0.2, 0.8))).outcome(), "serverError")
