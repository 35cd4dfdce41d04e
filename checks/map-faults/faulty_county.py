"""A county of 300 districts with a list of faults, each of which tools/map-check must name: as desk lines and as GeoJSON."""
import functools
import json
import os
import random
import subprocess
import tempfile
import time

from asking import unexplained, wrong_answers
from county import NOW, County
from faults import Cut, crossed, double, drawn_twice, gap, missing, no_area, overlap, scheme, service, sliver, spike, swapped, tokens
from findings import differences
from maptools.checking import Finding

TOP = os.path.dirname(os.path.dirname(os.path.dirname(os.path.realpath(__file__))))
ROWS, COLUMNS, SEED = 15, 20, 1
POINTS = 20_000
# What is cut, each at the row and the column of a district far from the others.
FAULTS = [
    ("a gap", gap, (1, 2)),
    ("a second gap", gap, (1, 6)),
    ("a gap that is a whole missing district", missing, (1, 10)),
    ("an overlap", overlap, (1, 14)),
    ("a second overlap", overlap, (1, 17)),
    ("a third overlap", overlap, (4, 2)),
    ("a sliver", sliver, (4, 6)),
    ("a ring that crosses itself", crossed, (4, 10)),
    ("a feature with swapped coordinates", swapped, (4, 14)),
    ("one area under two identities", double, (7, 2)),
    ("a ring drawn twice", drawn_twice, (7, 6)),
    ("an area of nothing", no_area, (7, 10)),
    ("a spike", spike, (7, 14)),
    ("a second spike", spike, (7, 17)),
    ("the token 'space ' beside 'space'", functools.partial(tokens, written=[("space", "space ")]), (10, 2)),
    ("spi: for sip:", functools.partial(scheme, written=["spi"]), (10, 6)),
    ("sos.polcie for sos.police", functools.partial(service, written=["sos.polcie"]), (10, 10)),
]
# What is found beside that against the outline: the swapped district is beyond it, and that of the misspelt service leaves the rest
# of it open.
AGAINST_OUTLINE = [("overhang", (4, 14)), ("gap", (10, 10))]
# How map-check is told to convert the county.
CONVERSION = [
    "--source", "county.example", "--source-id", "{code}", "--service", "{service}", "--uri", "{uri}", "--updated", "2026-01-01T00:00:00Z",
    "--display", "en={name}", "--tokens", "tokens",
]  # fmt: skip


def faulty_county():
    """The county with all faults, and what each of them wants."""
    cut, wants = Cut(County(ROWS, COLUMNS, SEED)), []
    for name, fault, place in FAULTS:
        before = len(cut.must)
        fault(cut, *place)
        wants.append((name, cut.must[before:]))
    return cut, wants


def geometry(rings):
    """A MultiPolygon of rings; a polygon where there is one."""
    parts = [[[[longitude / 1e7, latitude / 1e7] for latitude, longitude in ring]] for ring in rings]
    return {"type": "Polygon", "coordinates": parts[0]} if len(parts) == 1 else {"type": "MultiPolygon", "coordinates": parts}


def feature(mapping):
    """A mapping as a feature."""
    boundary = mapping["serviceBoundary"]
    properties = {
        "code": mapping["sourceId"], "service": mapping["service"], "uri": mapping["uri"][0], "name": mapping["displayName"][0]["text"],
        "tokens": [token for region in boundary for token in region.get("tokens", [])],
    }  # fmt: skip
    rings = [region["polygon"] for region in boundary if "polygon" in region]
    return {"type": "Feature", "properties": properties, "geometry": geometry(rings)}


def collection(features):
    """Features as the text of a file."""
    return json.dumps({"type": "FeatureCollection", "features": features}) + "\n"


def write_county(folder):
    """Writes the county as desk lines and as GeoJSON, and its outline; the cut, and what each fault wants."""
    cut, wants = faulty_county()
    mappings = list(cut.mappings.values())
    files = {
        "county.jsonl": "".join(json.dumps({"publish": one}) + "\n" for one in mappings) + '{"commit":{}}\n',
        "county.geojson": collection([feature(one) for one in mappings]),
        "outline.geojson": collection([{"type": "Feature", "properties": {}, "geometry": geometry([cut.county.outline()])}]),
    }
    os.makedirs(folder, exist_ok=True)
    for name, text in files.items():
        with open(f"{folder}/{name}", "w", encoding="utf-8") as file:
            file.write(text)
    return cut, wants


def finding_of(value, feature_at):
    """A finding that --json printed, with its geometry from the file of --geojson."""
    identities = tuple((one["source"], one["sourceId"]) for one in value["identities"])
    point = tuple(round(degrees * 1e7) for degrees in value["point"]) if value["point"] else None
    place = feature_at.get((value["kind"], value["text"]))
    return Finding(value["kind"], value["severity"], value["service"], identities, value["text"], point, value["answer"], geometry=place)


def run_tool(folder, lostd, words):
    """The findings that the tool prints, its status, and how many seconds it took."""
    begun = time.monotonic()
    command = [f"{TOP}/tools/map-check", "--json", "--geojson", f"{folder}/faults.geojson", "--now", NOW, "--lostd", lostd, *words]
    ran = subprocess.run(command, capture_output=True)
    seconds = time.monotonic() - begun
    with open(f"{folder}/faults.geojson", encoding="utf-8") as file:
        features = json.load(file)["features"]
    feature_at = {(one["properties"]["kind"], one["properties"]["text"]): one["geometry"] for one in features}
    findings = [finding_of(value, feature_at) for value in json.loads(ran.stdout)["findings"]]
    return findings, ran.returncode, seconds


def check_form(folder, lostd, cut, words):
    """What is wrong with what the tool finds in one form of the county."""
    findings, status, seconds = run_tool(folder, lostd, words)
    more = AGAINST_OUTLINE if "--outline" in words else []
    wanted = cut.must + [(kind, frozenset([cut.name(*place)])) for kind, place in more]
    wrong, asked = wrong_answers(lostd, list(cut.mappings.values()), findings, random.Random(SEED))
    wrong += differences(wanted, cut.may, findings) + ([] if status == 3 else [f"the status is {status}"])
    form = os.path.basename(words[0]) + (" with its outline" if more else "")
    print(f"the county as {form}: {len(findings)} findings, {asked} points asked, {seconds:.1f} s: {'WRONG' if wrong else 'ok'}")
    for text in wrong:
        print(f"    {text}")
    return len(wrong)


def check_county(lostd):
    """Checks both forms, with and without the outline; how much was wrong."""
    with tempfile.TemporaryDirectory() as folder:
        cut, wants = write_county(folder)
        outline = ["--outline", f"{folder}/outline.geojson"]
        forms = [[f"{folder}/county.jsonl"], [f"{folder}/county.jsonl", *outline], [f"{folder}/county.geojson", "--", *CONVERSION]]
        failed = sum(check_form(folder, lostd, cut, words) for words in forms)
        findings, _, _ = run_tool(folder, lostd, forms[0])
    odd, none, several = unexplained(lostd, list(cut.mappings.values()), findings, cut.county.outline(), POINTS, random.Random(SEED))
    verdict = "WRONG" if odd else "all are in a finding"
    print(f"of {POINTS:,} points in it {none} find nothing and {several} find two centres: {verdict}", *odd[:5], sep="\n    ")
    for name, kinds in wants:
        print(f"    {name}: {', '.join(kind for kind, _ in kinds)}")
    return failed + len(odd)
