"""Tests which points the gateway reads, and which point stands for an area."""
from __future__ import annotations

import json
import math
import unittest
import xml.etree.ElementTree as ElementTree
from typing import List, Optional

from gateway.positions import CENTRES, Unreadable, shape_of
from tests.gateway_running import Gateway, StandIn, has_packages, invalid_of

SPACES = 'xmlns:gml="http://www.opengis.net/gml" xmlns:gs="http://www.opengis.net/pidflo/1.0"'
METRES, DEGREES = 'uom="urn:ogc:def:uom:EPSG::9001"', 'uom="urn:ogc:def:uom:EPSG::9102"'
WGS84 = 'srsName="urn:ogc:def:crs:EPSG::4326"'
SQUARE = ["0 0", "0 3", "3 3", "3 0", "0 0"]


def located(shape: str, profile: str = "geodetic-2d") -> str:
    """A findService for a shape."""
    place = f'<location id="p" profile="{profile}">{shape}</location>'
    return f'<findService xmlns="urn:ietf:params:xml:ns:lost1" {SPACES}>{place}<service>urn:service:sos</service></findService>'


def circle(position: str) -> str:
    """A circle around a position."""
    return f"<gs:Circle {WGS84}><gml:pos>{position}</gml:pos><gs:radius {METRES}>850.24</gs:radius></gs:Circle>"


def ellipse(position: str) -> str:
    """An ellipse around a position."""
    axes = f"<gs:semiMajorAxis {METRES}>7.7</gs:semiMajorAxis><gs:semiMinorAxis {METRES}>3.1</gs:semiMinorAxis>"
    return f"<gs:Ellipse {WGS84}><gml:pos>{position}</gml:pos>{axes}<gs:orientation {DEGREES}>90</gs:orientation></gs:Ellipse>"


def band(position: str, inner: str, outer: str, start: str, opening: str, unit: str = METRES) -> str:
    """An arc band seen from a position."""
    radii = f"<gs:innerRadius {unit}>{inner}</gs:innerRadius><gs:outerRadius {METRES}>{outer}</gs:outerRadius>"
    angles = f"<gs:startAngle {DEGREES}>{start}</gs:startAngle><gs:openingAngle {DEGREES}>{opening}</gs:openingAngle>"
    return f"<gs:ArcBand {WGS84}><gml:pos>{position}</gml:pos>{radii}{angles}</gs:ArcBand>"


def polygon(positions: List[str], is_listed: bool = False) -> str:
    """A polygon by its corners."""
    corners = "".join(f"<gml:pos>{position}</gml:pos>" for position in positions)
    corners = f"<gml:posList>{' '.join(positions)}</gml:posList>" if is_listed else corners
    return f"<gml:Polygon {WGS84}><gml:exterior><gml:LinearRing>{corners}</gml:LinearRing></gml:exterior></gml:Polygon>"


def centre(shape: str) -> Optional[List[int]]:
    """The centre of a shape; None where it is unreadable."""
    try:
        found = shape_of(ElementTree.fromstring(f"<location {SPACES}>{shape}</location>"))
        return list(CENTRES[found.tag](found))
    except Unreadable:
        return None


class Centres(unittest.TestCase):
    """The point that stands for an area, in whole units."""

    def test_circles_and_ellipses(self) -> None:
        self.assertEqual(centre(circle("42.5463 -73.2512")), [425463000, -732512000])
        self.assertEqual(centre(ellipse("42.5463 -73.2512")), [425463000, -732512000])
        self.assertIsNone(centre(circle("42.5463 -73.2512 26.3")))

    def test_polygons(self) -> None:
        corner = ["0 0", "0 4", "1 4", "1 1", "4 1", "4 0", "0 0"]
        for positions, wanted in (
            (SQUARE, [15000000, 15000000]),
            (SQUARE[::-1], [15000000, 15000000]),
            # An angle of two arms, 4 by 1 and 3 by 1: (4 * 0.5 + 3 * 2.5) / 7 = 19 / 14.
            (corner, [13571429, 13571429]),
            # No area: the middle of the corners.
            (["0 0", "1 1", "2 2", "0 0"], [10000000, 10000000]),
            # A triangle, whose thirds lie between two units.
            (["0.0000001 0", "0 0", "0 0.0000001", "0.0000001 0"], [0, 0]),
            (["89 179", "90 179", "90 180", "89 180", "89 179"], [895000000, 1795000000]),
        ):
            for is_listed in (False, True):
                self.assertEqual(centre(polygon(positions, is_listed)), wanted, positions)

    def test_what_is_no_polygon(self) -> None:
        for positions in (SQUARE[:-1], SQUARE[:2] + SQUARE[:1], [*SQUARE[:-1], "0"], ["0 0 0"] * 5, []):
            self.assertIsNone(centre(polygon(positions)), positions)
        self.assertIsNone(centre(polygon(["0 0", "0 3", "3 3", "3 0", "0 0", "1"], True)))
        self.assertIsNone(centre("<gml:Polygon/>"))

    def test_arc_bands(self) -> None:
        # Half a degree north is 55,597.5 metres on a sphere of 6,371,008.8 metres.
        metres = math.radians(0.5) * 6_371_008.8
        self.assertEqual(centre(band("10 20", "0", str(2 * metres), "350", "20")), [105000000, 200000000])
        self.assertEqual(centre(band("0 0", str(metres), str(metres), "45", "90")), [0, 5000000])
        self.assertEqual(centre(band("0 179.75", str(metres), str(metres), "89", "2")), [0, -1797500000])
        self.assertEqual(centre(band("10 20", "5", "50", "0", "360")), [100000000, 200000000])
        for words in (("x", "50", "0", "90"), ("5", "-50", "0", "90"), ("5", "50", "1e1", "90")):
            self.assertIsNone(centre(band("10 20", *words)), words)
        self.assertIsNone(centre(band("10 20", "5", "50", "0", "90", 'uom="urn:ogc:def:uom:EPSG::9002"')))


@unittest.skipUnless(has_packages(), "the packages of Debian that the gateway needs are missing")
class Places(unittest.TestCase):
    """Points and areas through a gateway that runs."""

    def setUp(self) -> None:
        self.server = StandIn()
        self.addCleanup(self.server.end)

    def asked(self, gateway: Gateway, shape: str) -> Optional[List[int]]:
        """The point that is asked for; None where the location goes on without one."""
        self.server.got.clear()
        gateway.post(located(shape))
        (location,) = json.loads(self.server.got[0])["findService"]["location"]
        return location.get("pos")

    def test_positions(self) -> None:
        with Gateway(self.server.address) as gateway:
            for text, wanted in (
                ("40.861 -73.988", [408610000, -739880000]), ("+1 -.5", [10000000, -5000000]), ("5. 0.", [50000000, 0]),
                (" \t1\n2 ", [10000000, 20000000]), ("-0 0", [0, 0]), ("90 -180", [900000000, -1800000000]),
                # To the nearest unit, a half to the even one.
                ("0.00000005 0.00000015", [0, 2]), ("-0.00000005 -0.00000015", [0, -2]),
                ("0.00000025 0.000000250000000000000000000001", [2, 3]), ("1.23456784999 1.23456785", [12345678, 12345678]),
                ("40.860999999999997 -73.98800000000001", [408610000, -739880000]),
                # Out of range: the server behind refuses it.
                ("91 999", [910000000, 9990000000]),
                ("1", None), ("1 2 3", None), ("", None), ("1,2", None), ("NaN 0", None), ("INF 0", None), ("1e1 0", None),
                ("1E-3 0", None), ("0x1 0", None), ("1000 0", None), ("0001 0", None), ("1 \u0662", None), ("1_0 0", None),
                (". 0", None), ("- 0", None), ("--1 0", None), ("1 " + "0." + "1" * 31, None), ("1\u00a02", None),
            ):  # fmt: skip
                self.assertEqual(self.asked(gateway, f"<gml:Point><gml:pos>{text}</gml:pos></gml:Point>"), wanted, text)
            longest = f"<gml:Point><gml:pos>1 {'0.' + '1' * 30}</gml:pos></gml:Point>"
            self.assertEqual(self.asked(gateway, longest), [10000000, 1111111])
            for shape in ("", "<gml:Point/>", "<gml:Point><gml:pos>1 <b/>2</gml:pos></gml:Point>", "<gs:Sphere/>",
                          "<gml:Envelope/>", "<gml:Point><gml:coordinates>1,2</gml:coordinates></gml:Point>"):  # fmt: skip
                self.assertIsNone(self.asked(gateway, shape), shape)

    def test_the_centre_of_an_area_is_asked_for_with_a_warning(self) -> None:
        reply = {"edition": 1, "locationUsed": "p", "path": ["lost.example"]}
        mapping = {"expires": "NO-CACHE", "lastUpdated": "2025-12-01T00:00:00Z", "service": "urn:service:sos"}
        mapping = {**mapping, "source": "map.example", "sourceId": "A", "uri": ["sip:a@map.example"]}
        found = json.dumps({"findServiceResponse": {**reply, "mapping": [mapping], "warnings": ["serviceSubstitution"]}})
        self.server.replier = lambda line: found.encode()
        with Gateway(self.server.address, "--area", "centre") as gateway:
            square = polygon(["0 1", "0 3", "2 3", "2 1", "0 1"])
            for shape in (circle("1 2"), ellipse("1 2"), band("1 2", "0", "0", "0", "0"), square):
                self.assertEqual(self.asked(gateway, shape), [10000000, 20000000])
                answer = ElementTree.fromstring(gateway.post(located(shape)).body)
                warnings = answer.findall("{urn:ietf:params:xml:ns:lost1}warnings/*")
                own = {name: warnings[1].get(name) for name in ("shape", "message")}
                self.assertEqual([one.tag.rpartition("}")[2] for one in warnings], ["serviceSubstitution", "centreOfArea"])
                self.assertEqual(own["shape"], shape.partition(" ")[0].partition(":")[2])
                self.assertIn("the answer is that of its centre", own["message"] or "")
            self.assertNotIn(b"centreOfArea", gateway.post(located("<gml:Point><gml:pos>1 2</gml:pos></gml:Point>")).body)
            self.server.replier = lambda line: b'{"errors":{"edition":1,"error":"notFound"}}'
            self.assertNotIn(b"centreOfArea", gateway.post(located(circle("1 2"))).body)

    def test_areas_may_be_refused(self) -> None:
        with Gateway(self.server.address, "--area", "refuse") as gateway:
            for shape in (circle("1 2"), ellipse("1 2"), band("1 2", "0", "9", "0", "9"), polygon(SQUARE)):
                self.assertIsNone(self.asked(gateway, shape))
            self.assertEqual(self.asked(gateway, "<gml:Point><gml:pos>1 2</gml:pos></gml:Point>"), [10000000, 20000000])

    @classmethod
    def tearDownClass(cls) -> None:
        wrong = invalid_of(Gateway.seen)
        if wrong:
            raise AssertionError(f"not valid by lost.rng: {wrong}")
