"""Random areas over the districts of a map: the gateway must answer with the district that covers most, by shapely's own overlay."""
import http.client
import json
import math
import os
import random
import subprocess
import xml.etree.ElementTree as ElementTree

from processes import Gateway
from server import COMMIT, Server

HERE = os.path.dirname(os.path.realpath(__file__))
OVERLAY = ["/usr/bin/python3", f"{HERE}/overlay.py"]
SPACES = (
    'xmlns="urn:ietf:params:xml:ns:lost1" xmlns:gml="http://www.opengis.net/gml" xmlns:gs="http://www.opengis.net/pidflo/1.0"'
)
LOST, OWN = "{urn:ietf:params:xml:ns:lost1}", "{urn:x-lostd:gateway}"
METRES, DEGREES = 'uom="urn:ogc:def:uom:EPSG::9001"', 'uom="urn:ogc:def:uom:EPSG::9102"'
SERVICE = "urn:service:sos"
UNITS, CELL = 10_000_000, 0.05
SIDE, AREAS, MOST_SHOWN = 9, 400, 5
# Where the first two shares differ by less, either is right.
TOO_CLOSE = 0.01
CORNER = (48.0, 11.0)


def cells(dice):
    """The quadrangles of a grid whose corners are moved at random; neighbours share their corners."""

    def corner(row, column):
        moved = [start + CELL * (number + 0.7 * (dice.random() - 0.5)) for start, number in zip(CORNER, (row, column))]
        return [round(degrees * UNITS) for degrees in moved]

    corners = [[corner(row, column) for column in range(SIDE + 1)] for row in range(SIDE + 1)]
    return [
        [corners[row][column], corners[row][column + 1], corners[row + 1][column + 1], corners[row + 1][column], corners[row][column]]
        for row in range(SIDE) for column in range(SIDE)
    ]  # fmt: skip


def districts(dice):
    """By name, the rings of each district: one to six quadrangles, which need not touch. Some quadrangles are in none."""
    rings, found = cells(dice), {}
    dice.shuffle(rings)
    rings = rings[len(rings) // 12 :]
    while rings:
        count = dice.choice((1, 1, 1, 2, 3, 6))
        found[f"d{len(found)}"], rings = rings[:count], rings[count:]
    return found


def publish(name, rings, service=SERVICE):
    """A desk line with a district."""
    parts = {"source": "map.example", "sourceId": name, "key": f"{name}-1", "lastUpdated": "2025-12-01T00:00:00Z"}
    parts |= {"expires": "NO-CACHE", "service": service, "uri": [f"sip:{name}@map.example"]}
    parts["serviceBoundary"] = [{"profile": "geodetic-2d", "polygon": ring} for ring in rings]
    return json.dumps({"publish": parts}).encode()


def star(dice, centre):
    """A polygon around a centre, of corners at random distances; no two are half a turn apart, so that it does not cross itself."""
    count = dice.randint(4, 12)
    turns = [2 * math.pi * (number + 0.9 * dice.random()) / count for number in range(count)]
    size = CELL * dice.choice((0.2, 0.7, 2))
    spots = [(turn, size * dice.uniform(0.3, 1)) for turn in turns]
    corners = [[round(centre[0] + far * math.cos(turn), 7), round(centre[1] + far * math.sin(turn), 7)] for turn, far in spots]
    return [*corners, corners[0]]


def drawn(dice):
    """An area at random."""
    centre = [round(start + CELL * dice.uniform(-0.5, SIDE + 0.5), 7) for start in CORNER]
    radius = round(dice.choice((300, 1500, 4000, 12_000)) * dice.uniform(0.5, 1), 2)
    kind = dice.choice(("Circle", "Ellipse", "ArcBand", "Polygon"))
    area = {"kind": kind, "centre": centre, "outer": radius, "inner": 0.0, "minor": radius, "start": 0.0, "opening": 360.0}
    if kind == "Ellipse":
        area |= {"minor": round(radius * dice.uniform(0.1, 1), 2), "start": round(dice.uniform(0, 360), 2)}
    if kind == "ArcBand":
        opening = dice.choice((round(dice.uniform(10, 350), 2), 360.0))
        area |= {"inner": round(radius * dice.uniform(0, 0.9), 2), "start": round(dice.uniform(0, 360), 2), "opening": opening}
    if kind == "Polygon":
        area["ring"] = star(dice, centre)
    return area


def measures(area):
    """The elements of a shape around a centre."""
    if area["kind"] == "Circle":
        return f"<gs:radius {METRES}>{area['outer']}</gs:radius>"
    if area["kind"] == "Ellipse":
        axes = f"<gs:semiMajorAxis {METRES}>{area['outer']}</gs:semiMajorAxis><gs:semiMinorAxis {METRES}>{area['minor']}</gs:semiMinorAxis>"
        return f"{axes}<gs:orientation {DEGREES}>{area['start']}</gs:orientation>"
    radii = f"<gs:innerRadius {METRES}>{area['inner']}</gs:innerRadius><gs:outerRadius {METRES}>{area['outer']}</gs:outerRadius>"
    angles = f"<gs:startAngle {DEGREES}>{area['start']}</gs:startAngle><gs:openingAngle {DEGREES}>{area['opening']}</gs:openingAngle>"
    return radii + angles


def request(area, service=SERVICE):
    """A document that asks for an area."""
    if area["kind"] == "Polygon":
        listed = " ".join(f"{north:.7f} {east:.7f}" for north, east in area["ring"])
        ring = f"<gml:LinearRing><gml:posList>{listed}</gml:posList></gml:LinearRing>"
        shape = f"<gml:Polygon><gml:exterior>{ring}</gml:exterior></gml:Polygon>"
    else:
        position = f"<gml:pos>{area['centre'][0]:.7f} {area['centre'][1]:.7f}</gml:pos>"
        shape = f"<gs:{area['kind']}>{position}{measures(area)}</gs:{area['kind']}>"
    place = f'<location id="a" profile="geodetic-2d">{shape}</location>'
    return f"<findService {SPACES}>{place}<service>{service}</service></findService>"


def overlays(sites):
    """By shapely alone: for each site, which has districts by name and areas, for each area the share that each district covers."""
    given = json.dumps(sites).encode()
    return json.loads(subprocess.run(OVERLAY, input=given, capture_output=True, timeout=600, check=True).stdout)


def asked(port, documents):
    """The answers to all documents."""
    connection = http.client.HTTPConnection("127.0.0.1", port, timeout=60)
    answers = []
    for document in documents:
        connection.request("POST", "/", document.encode(), {"Content-Type": "application/lost+xml"})
        answers.append(ElementTree.fromstring(connection.getresponse().read()))
    connection.close()
    return answers


def wrong_answer(area, answer, shares):
    """What is wrong with the answer to an area; nothing where it is right. The second says whether two shares are too close."""
    ranked = sorted(shares.items(), key=lambda one: -one[1]) + [("", 0.0), ("", 0.0)]
    got = [str(mapping.get("sourceId")) for mapping in answer.findall(f"{LOST}mapping")]
    if ranked[0][1] - ranked[1][1] < TOO_CLOSE:
        return [], True
    if got != [ranked[0][0]]:
        return [f"{area}: {got or answer[0].tag} and not {ranked[:3]}"], False
    told = float(answer.find(f"{LOST}warnings/{OWN}sharesOfArea").get("shares").split()[0])
    return ([] if abs(told - ranked[0][1]) < TOO_CLOSE else [f"{area}: a share of {told} and not {ranked[0][1]}"]), False


def largest_districts(program, seed=6):
    """400 circles, ellipses, arc bands and polygons: the answer is the district that covers most, by shapely's own overlay"""
    dice = random.Random(seed)
    found, areas = districts(dice), [drawn(dice) for _ in range(AREAS)]
    with Server(program, 4, 1000) as server, Gateway([server.queries], "--timeout", "30") as gateway:
        server.desk().ask_all([*(publish(name, rings) for name, rings in found.items()), COMMIT])
        answers = asked(gateway.port, map(request, areas))
    judged = [wrong_answer(area, answer, shares) for area, answer, shares in zip(areas, answers, overlays([{"districts": found, "areas": areas}])[0])]
    close = sum(is_close for _, is_close in judged)
    print(f"    {len(found)} districts, {len(areas)} areas, of which {close} have two shares within {TOO_CLOSE:.0%} or none")
    wrong = [text for texts, _ in judged for text in texts]
    return wrong[:MOST_SHOWN] + ([f"{len(wrong)} are wrong"] if wrong else []) + ([] if close < AREAS / 3 else ["too few areas count"])
