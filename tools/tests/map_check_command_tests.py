"""tools/map-check as a command: its options, its output and its statuses."""
from __future__ import annotations

import json
import os
import re
import tempfile
import unittest
from typing import Any, Dict, List, Sequence, Tuple

from tests.map_checking import POLICE, desk_lines, grid, has_shapely, kinds_of, mapping, ring_of, run_check, square
from tests.running import lostd


def smaller(one: Dict[str, Any]) -> Dict[str, Any]:
    """A square of the grid without the northern fifth."""
    south, west = one["serviceBoundary"][0]["polygon"][0]
    return {**one, "serviceBoundary": [{"profile": "geodetic-2d", "polygon": square(south, west, south + 8000, west + 10_000)}]}


@unittest.skipUnless(has_shapely(), "/usr/bin/python3 lacks python3-shapely")
class Command(unittest.TestCase):
    """The command: its options, its output and its statuses."""

    def setUp(self) -> None:
        folder = tempfile.TemporaryDirectory()
        self.addCleanup(folder.cleanup)
        self.folder = folder.name

    def write(self, name: str, text: str) -> str:
        """Writes a file; its path."""
        with open(f"{self.folder}/{name}", "w", encoding="utf-8") as file:
            file.write(text)
        return f"{self.folder}/{name}"

    def found(self, words: Sequence[str], given: str = "") -> Tuple[int, List[Dict[str, Any]]]:
        """The status, and the findings of --json."""
        status, out, said = run_check(["--json", *words], given)
        self.assertEqual(said, "")
        value = json.loads(out)
        counts = {name: sum(one["severity"] == name for one in value["findings"]) for name in ("error", "warning", "note")}
        self.assertEqual(value["counts"], counts)
        return status, value["findings"]

    def test_lines_for_people(self) -> None:
        lines = desk_lines([one for one in grid(3, 3) if one["sourceId"] != "1.1"])
        status, out, said = run_check(["-"], lines)
        first, second, last = out.splitlines()
        self.assertEqual((status, said, last), (3, "", "1 error, 0 warnings, 1 note"))
        self.assertTrue(first.startswith(f"error: gap ({POLICE}): nobody serves 12,3"), first)
        self.assertTrue(second.startswith(f"note: no-default ({POLICE}): "), second)
        if lostd():
            self.assertTrue(first.endswith(". At 0.0015,0.0015 findService answers notFound."), first)

    def test_fail_on(self) -> None:
        sliver = [mapping("A", square(0, 0, 90_000, 10_010)), mapping("B", square(0, 10_000, 90_000, 20_000))]
        self.assertEqual(self.found(["--fail-on", "error"], desk_lines(sliver))[0], 0)
        self.assertEqual(self.found(["--fail-on", "warning"], desk_lines(sliver))[0], 3)
        self.assertEqual(self.found(["--fail-on", "warning"], desk_lines(grid(2, 2)))[0], 0)

    def test_refused_lines_and_requests(self) -> None:
        lines = desk_lines(grid(1, 2)).splitlines()
        given = "\n".join([*lines, lines[0], "no line", '{"findService":{}}', '{"withdraw":{"source":"map.example","sourceId":"0.1","lastUpdated":"2026-01-02T00:00:00Z"}}'])
        status, findings = self.found([], given)
        self.assertEqual((status, [one["kind"] for one in findings]), (3, ["refused", "refused", "no-default"]))
        self.assertIn("line 4: map.example 0.0: refused with code 13, IdentityHeld", findings[0]["text"])
        self.assertEqual([one["identities"] for one in findings[:2]], [[{"source": "map.example", "sourceId": "0.0"}], []])
        self.assertIn("line 5: refused with code 1, BadLine", findings[1]["text"])

    def test_why_a_polygon_is_refused(self) -> None:
        ring = square(400_000_000, -1_050_000_000, 400_010_000, -1_049_990_000)
        for change, cause in (
            (lambda ring: [position[::-1] for position in ring], "position 1 has a latitude out of range, -1050000000: are latitude and longitude swapped?"),
            (lambda ring: [*ring[:1], [400_000_000, 1_800_000_001], *ring[2:]], "position 2 has a longitude out of range, 1800000001"),
            (lambda ring: [*ring[:2], "40.0 -105.0 0", *ring[3:]], "position 3 is not a latitude and a longitude, in whole units or as a text of degrees"),
            (lambda ring: ring[:-1], "does not end where it begins"),
            (lambda ring: ring[:2] + ring[:1], "has 3 positions, where 4 to 4,096 may be"),
        ):
            status, findings = self.found([], desk_lines([mapping("A", change(ring))]))
            self.assertEqual((status, findings[0]["identities"]), (3, [{"source": "map.example", "sourceId": "A"}]))
            self.assertTrue(findings[0]["text"].endswith(f"code 9, BadRegion: region 1 is not a region: its polygon {cause}"), findings[0]["text"])

    def test_long_rings_in_any_spelling(self) -> None:
        ring = ring_of(*[(number * number, -number) for number in range(80)])
        usual = json.dumps({"publish": mapping("A", ring)}, separators=(",", ":"))
        first, second = "[[0,0],", "[1,-1],"
        odd = [
            (usual, 0), (usual.replace(second, "[ 1, -1 ] , "), 0), (usual.replace(second, '"0.0000001 -0.0000001",'), 0),
            (usual.replace(second, "[1,-0],"), 9), (usual.replace(second, "[1.0,-1],"), 9), (usual.replace(second, "[true,-1],"), 9),
            (usual.replace(second, "[900000001,-1],"), 9), (usual.replace(second, "[1,-1,0],"), 9), (usual.replace(second, "[99999999999999999999,-1],"), 9),
            (usual.replace(second, "[01,-1],"), 1), (usual.replace(second, "[1,--1],"), 1), (usual.replace(second, "[1,],"), 1),
            (usual.replace(first, "[[7,0],"), 9), (usual.replace('"geodetic-2d"', '"civic"'), 9), (usual.replace('"source":', '"polygon":[[1,1]],"source":'), 0),
        ]  # fmt: skip
        lines = [line.replace('"A"', f'"A{number}"').replace("key of A", f"key {number}") for number, (line, _) in enumerate(odd, 1)]
        findings = self.found([], "\n".join(lines))[1]
        refused = {one["text"].split("line ")[1].split(":")[0] for one in findings if one["kind"] == "refused"}
        codes = [(number, one) for number, one in ((str(number), code) for number, (_, code) in enumerate(odd, 1)) if number in refused]
        self.assertEqual({str(number) for number, (_, code) in enumerate(odd, 1) if code}, refused)
        for number, code in codes:
            self.assertTrue(any(re.search(rf"line {number}: (map[.]example A{number}: )?refused with code {code},", one["text"]) for one in findings), (number, code))

    def test_accepted_findings(self) -> None:
        mappings = [one for one in grid(3, 3) if one["sourceId"] != "1.1"]
        status, findings = self.found([], desk_lines(mappings))
        lines = [json.dumps({**one, "reason": "a lake", "date": "2026-11-30"}) for one in findings]
        known = self.write("known.jsonl", "\n".join(lines) + "\n")
        self.assertEqual(self.found(["--accept", known], desk_lines(mappings)), (0, []))
        # Another gap is told of, and so is one that has grown by a fifth.
        other = [one for one in grid(3, 4) if one["sourceId"] not in ("1.1", "1.2")]
        for mappings in (other, [smaller(one) if one["sourceId"] == "0.1" else one for one in mappings]):
            status, out, said = run_check(["--accept", known], desk_lines(mappings))
            self.assertEqual((status, out.count("error: gap"), len(out.splitlines())), (3, 1, 2), out)
            self.assertIn("known.jsonl, line 1: this accepts nothing that is found", said)
        status, out, said = run_check(["--accept", known], desk_lines(grid(3, 3)))
        self.assertEqual((status, out), (0, "0 errors, 0 warnings, 0 notes, 1 accepted\n"))
        self.assertIn("known.jsonl, line 1: this accepts nothing that is found\n", said)

    def test_a_bad_file_of_accepted_findings(self) -> None:
        for text, cause in (("{", "not JSON"), ('{"kind":"gap","identities":[],"reason":"","date":"2026-11-30"}', "no reason"),
                            ('{"kind":"gap","identities":[],"reason":"x"}', "no date"), ('{"kind":"hole"}', "not known")):  # fmt: skip
            status, out, said = run_check(["--accept", self.write("known.jsonl", text)], desk_lines(grid(1, 1)))
            self.assertEqual((status, out), (1, ""))
            self.assertIn("known.jsonl, line 1: ", said)
            self.assertIn(cause, said)

    def test_the_outline(self) -> None:
        corners = [[0, 0], [0.004, 0], [0.004, 0.003], [0, 0.003], [0, 0]]
        outline = self.write("outline.geojson", json.dumps({"type": "Polygon", "coordinates": [corners]}))
        over = [*grid(3, 3), mapping("over", square(30_000, 0, 31_000, 10_000))]
        findings = self.found(["--outline", outline], desk_lines(over))[1]
        self.assertEqual(kinds_of(findings), [("gap", "error", ("0.2", "1.2", "2.2")), ("overhang", "warning", ("over",))])

    def test_geojson(self) -> None:
        def feature(code: str, *corners: Sequence[float]) -> Dict[str, Any]:
            return {"type": "Feature", "properties": {"code": code}, "geometry": {"type": "Polygon", "coordinates": [[*corners, corners[0]]]}}

        features = [feature("A", [0, 0], [1, 0], [1, 1], [0, 1]), feature("B", [0.5, 0], [2, 0], [2, 1], [0.5, 1]), feature("C", [0, 95], [1, 95], [1, 96])]
        path = self.write("map.geojson", json.dumps({"type": "FeatureCollection", "features": features}))
        out = f"{self.folder}/out.geojson"
        status, findings = self.found([path, "--geojson", out, "--", "--source-id", "{code}"])
        self.assertEqual((status, kinds_of(findings)), (3, [("overlap", "error", ("A", "B")), ("refused", "error", ())]))
        self.assertIn("feature 3", [one for one in findings if one["kind"] == "refused"][0]["text"])
        with open(out, encoding="utf-8") as file:
            (area,) = json.load(file)["features"]
        corners = {tuple(corner) for corner in area["geometry"]["coordinates"][0]}
        self.assertEqual((area["properties"]["kind"], corners), ("overlap", {(0.5, 0.0), (1.0, 0.0), (1.0, 1.0), (0.5, 1.0)}))

    def test_mistakes_and_faults(self) -> None:
        for words in (["--nothing"], ["--within", "30"], ["--tolerance", "-1"], ["--now", "today"], ["--fail-on", "note"], ["a", "b"]):
            self.assertEqual(run_check(words)[0], 2, words)
        for words in ([f"{self.folder}/none.jsonl"], ["--outline", f"{self.folder}/none"], ["--geojson", self.folder], ["-", "--", "--source-id", "x"]):
            status, out, said = run_check(words, desk_lines(grid(1, 1)))
            self.assertEqual((status, out, len(said.splitlines())), (1, "", 1), words)
        self.assertEqual(run_check(["--help"])[0], 0)

    def test_a_program_that_is_none(self) -> None:
        status, out, said = run_check(["--lostd", os.devnull], desk_lines([one for one in grid(3, 3) if one["sourceId"] != "1.1"]), True)
        self.assertEqual((status, said), (3, f"map-check: the program lostd was not asked: {os.devnull} is no program\n"))
        self.assertIn(". At 0.0015,0.0015.\n", out)
