"""Asks the program lostd at random points of what was found."""
import json
import math
import subprocess

from county import NOW, POLICE
from shapely.geometry import LineString, Point, Polygon, shape
from shapely.ops import transform
from shapely.prepared import prep

POINTS = 50
# Points nearer to an edge are not drawn, in units: the geometry of a finding is rounded to a tenth of a unit.
MARGIN = 1.0
MOST_TRIES = 200
# The kinds that say of an area that it is open or served twice.
AREAS = ("gap", "overlap", "sliver", "crack", "same-area")


def in_units(geometry):
    """A geometry in degrees in whole units."""
    return transform(lambda x, y: ([value * 1e7 for value in x], [value * 1e7 for value in y]), shape(geometry))


def points_in(finding, dice):
    """Random whole points in the area of a finding, each on a random row; fewer where it is narrow."""
    area = in_units(finding.geometry).buffer(-MARGIN)
    parts = [part for part in getattr(area, "geoms", [area]) if not part.is_empty]
    found = []
    for _ in range(MOST_TRIES if parts else 0):
        west, south, east, north = (part := dice.choice(parts)).bounds
        row = round(dice.uniform(south, north))
        stretches = part.intersection(LineString([(west - 1, row), (east + 1, row)]))
        stretch = dice.choice(list(getattr(stretches, "geoms", [stretches])))
        if not stretch.is_empty and math.ceil(stretch.bounds[0]) <= stretch.bounds[2]:
            found.append((row, dice.randint(math.ceil(stretch.bounds[0]), math.floor(stretch.bounds[2]))))
        if len(found) == POINTS:
            break
    return found


def question(point, service):
    """A findService line."""
    place = {"id": "p", "profile": "geodetic-2d", "pos": list(point)}
    return json.dumps({"findService": {"service": service, "location": [place]}})


def found_at(lostd, mappings, questions):
    """The sourceIds that each question finds."""
    lines = [json.dumps({"publish": one}) for one in mappings] + ['{"commit":{}}'] + questions
    words = [lostd, "replay", "--name", "lost.example", "--now", NOW]
    ran = subprocess.run(words, input="\n".join(lines).encode(), capture_output=True, check=True)
    replies = [json.loads(line) for line in ran.stdout.splitlines()[-len(questions) :]] if questions else []
    return [{one["sourceId"] for one in reply.get("findServiceResponse", {}).get("mapping", [])} for reply in replies]


def points_within(ring, count, dice):
    """Random whole points inside a ring."""
    area = prep(Polygon([position[::-1] for position in ring]))
    latitudes, longitudes = zip(*ring)
    found = []
    while len(found) < count:
        point = dice.randint(min(latitudes), max(latitudes)), dice.randint(min(longitudes), max(longitudes))
        if area.contains(Point(point[::-1])):
            found.append(point)
    return found


def unexplained(lostd, mappings, findings, ring, count, dice):
    """Points inside a ring where not just one mapping is found, and no finding says so; and how many find none, and several."""
    points = points_within(ring, count, dice)
    answers = found_at(lostd, mappings, [question(point, POLICE) for point in points])
    areas = [in_units(finding.geometry) for finding in findings if finding.kind in AREAS]
    odd = [(point, found) for point, found in zip(points, answers) if len(found) != 1]
    wrong = [
        f"at {point} lostd finds {sorted(found)}, and no finding says so"
        for point, found in odd
        if all(area.distance(Point(point[::-1])) > MARGIN for area in areas)
    ]
    return wrong, sum(not found for _, found in odd), sum(len(found) > 1 for _, found in odd)


def is_open(finding):
    """Whether a finding says that nobody serves a place."""
    return finding.kind == "gap" or (finding.kind in ("sliver", "crack") and "nobody serves" in finding.text)


def wrong_answers(lostd, mappings, findings, dice):
    """What the program finds otherwise than the findings say, at random points and at the point of each; and how many were asked."""
    asked = []
    for finding in findings:
        if finding.kind in AREAS:
            asked += [(finding, point) for point in [finding.point, *points_in(finding, dice)]]
    answers = found_at(lostd, mappings, [question(point, finding.service) for finding, point in asked])
    wrong = []
    for (finding, point), found in zip(asked, answers):
        names = {source_id for _, source_id in finding.identities}
        if found if is_open(finding) else not names <= found:
            wrong.append(f"{finding.kind} of {sorted(names)}: at {point} lostd finds {sorted(found)}")
    return wrong, len(asked)
