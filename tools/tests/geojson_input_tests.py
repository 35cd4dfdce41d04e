"""tools/geojson-to-desk: the forms of its input, times, and NENA's fields."""
from __future__ import annotations

import json
import subprocess
import sys
import unittest
from typing import Any, Dict

from maptools.times import now_stamp
from tests.geojson_files import COMMON, RING, collection, feature
from tests.running import TOOLS, run_tool


class Streams(unittest.TestCase):
    """Features a line each, and text sequences."""

    def setUp(self) -> None:
        self.features = [feature(RING, name, note="a\u2028b") for name in ("a", "b", "c")]
        self.wanted = run_tool("geojson-to-desk", COMMON, collection(self.features))

    def test_each_form_gives_the_same_lines(self) -> None:
        texts = [json.dumps(one) for one in self.features]
        indented = [json.dumps(one, indent=2) for one in self.features]
        two = json.dumps({"type": "FeatureCollection", "features": self.features[1:]})
        for name, text in (
            ("lines", "\n".join(texts)),
            ("lines of Windows, with blank ones", "\ufeff\r\n" + "\r\n\r\n".join(texts) + "\r\n"),
            ("a text sequence", "".join(f"\x1e{text}\n" for text in texts)),
            ("indented texts", "".join(f"\x1e{text}\n" for text in indented)),
            ("separators alone", "\x1e\x1e" + "\x1e".join(texts)),
            ("a collection among texts", f"\x1e{texts[0]}\n\x1e{two}\n"),
            ("a collection among lines", f"{texts[0]}\n{two}\n"),
            ("an indented collection", json.dumps(json.loads(collection(self.features)), indent=1)),
        ):
            with self.subTest(name):
                self.assertEqual(run_tool("geojson-to-desk", COMMON, text), self.wanted)

    def test_a_text_that_is_not_json_is_left_out_and_the_rest_is_not(self) -> None:
        texts = [json.dumps(one) for one in self.features]
        lines = self.wanted[1].splitlines()
        for text in (f"{texts[0]}\n{texts[1][:50]}\n{texts[2]}\n", f"\x1e{texts[0]}\n\x1e{texts[1][:50]}\x1e{texts[2]}\n"):
            status, output, said = run_tool("geojson-to-desk", [*COMMON, "--commit"], text)
            self.assertEqual((status, output.splitlines()), (3, [lines[0], lines[2]]))
            self.assertIn("geojson-to-desk: feature 2: it is not JSON: ", said)

    def test_another_reference_system_among_lines_is_an_error(self) -> None:
        other = {**self.features[1], "crs": {"type": "name", "properties": {"name": "EPSG:3857"}}}
        status, output, said = run_tool("geojson-to-desk", [*COMMON, "--commit"], f"{json.dumps(self.features[0])}\n{json.dumps(other)}")
        self.assertEqual((status, output.count("commit")), (1, 0))
        self.assertIn("convert it to WGS 84", said)

    def test_a_long_stream_takes_no_more_memory_than_a_short_one(self) -> None:
        ring = [[place / 1000, 0] for place in range(500)] + [[0, 1], [0, 0]]
        for form in ("{}\n", "\x1e{}\n"):
            peaks = [peak_memory(form.format(json.dumps(feature([ring], "x"))), count) for count in (20, 400)]
            self.assertLess(peaks[1] - peaks[0], 4_000, form)


def peak_memory(text: str, times: int) -> int:
    """The most memory that the tool takes for a text that comes again and again, in kilobytes."""
    words = [f"{TOOLS}/geojson-to-desk", *COMMON, "--source-id", "{@number}", "--key", "{@number}"]
    program = f"""
import resource, subprocess, sys
ran = subprocess.Popen({words!r}, stdin=subprocess.PIPE, stdout=subprocess.DEVNULL, stderr=subprocess.DEVNULL)
for _ in range({times}):
    ran.stdin.write({text.encode()!r})
ran.stdin.close()
assert ran.wait() == 0
print(resource.getrusage(resource.RUSAGE_CHILDREN).ru_maxrss)
"""
    ran = subprocess.run([sys.executable, "-c", program], capture_output=True, timeout=120, check=True)
    return int(ran.stdout)


class Times(unittest.TestCase):
    """Times with an offset, and the time of this machine."""

    def stamps(self, updated: str, expires: str = "NO-CACHE") -> Any:
        words = [*COMMON, "--updated", "{updated}", "--expires", "{expires}"]
        return run_tool("geojson-to-desk", words, collection([feature(RING, updated=updated, expires=expires)]))

    def test_times_with_an_offset_become_utc(self) -> None:
        for given, stamp in (
            ("2026-03-01T00:00:00Z", "2026-03-01T00:00:00Z"),
            ("2026-03-01T00:00:00.50Z", "2026-03-01T00:00:00.50Z"),
            ("2026-03-01T00:00:00z", "2026-03-01T00:00:00Z"),
            ("2026-02-28T19:30:00-05:00", "2026-03-01T00:30:00Z"),
            ("2026-03-01T05:29:59.123456789+0530", "2026-02-28T23:59:59.123456789Z"),
            ("2026/03/01 01:00:00+01", "2026-03-01T00:00:00Z"),
            ("2026-01-01 00:00:00 +00:00", "2026-01-01T00:00:00Z"),
            ("2024-02-29T23:00:00-02:00", "2024-03-01T01:00:00Z"),
        ):
            with self.subTest(given):
                status, output, _ = self.stamps(given, given)
                mapping = json.loads(output)["publish"]
                self.assertEqual((status, mapping["lastUpdated"], mapping["expires"]), (0, stamp, stamp))

    def test_what_is_no_time_with_an_offset_is_left_out(self) -> None:
        for given, cause in (
            ("2026-03-01T00:00:00", "it has a time without an offset, '2026-03-01T00:00:00'"),
            ("2026-03-01", "it has a time without an offset, '2026-03-01'"),
            ("2026-02-30T00:00:00+01:00", "code 4, BadStamp"),
            ("2026-03-01T24:00:00+01:00", "code 4, BadStamp"),
            ("2026-03-01T00:00:00+24:00", "code 4, BadStamp"),
            ("0001-01-01T00:00:00+01:00", "code 4, BadStamp"),
            ("9999-12-31T23:30:00-01:00", "code 4, BadStamp"),
            ("yesterday", "code 4, BadStamp"),
        ):
            with self.subTest(given):
                status, output, said = self.stamps(given)
                self.assertEqual((status, output), (3, ""))
                self.assertIn(cause, said)

    def test_now_is_the_time_of_this_machine(self) -> None:
        before = now_stamp()
        _, output, _ = run_tool("geojson-to-desk", [*COMMON, "--updated", "now"], collection([feature(RING, "a"), feature(RING, "b")]))
        stamps = {json.loads(line)["publish"]["lastUpdated"] for line in output.splitlines()}
        self.assertEqual(len(stamps), 1)
        self.assertTrue(before <= stamps.pop() <= now_stamp())


class Nena(unittest.TestCase):
    """The fields of NENA's model."""

    FIELDS = {
        "NGUID": "police-7", "Agency_ID": "Psap.Example", "ServiceURN": "urn:emergency:service:sos.police", "ServiceNum": "911",
        "ServiceURI": "sip:police@psap.example", "DsplayName": "Leonia Police", "DateUpdate": "2026-01-02T00:00:00-05:00", "Expire": None,
    }  # fmt: skip

    def mapping(self, *words: str, **fields: Any) -> Dict[str, Any]:
        text = collection([feature(RING, **{**self.FIELDS, **fields})])
        status, output, said = run_tool("geojson-to-desk", ["--nena", *words], text)
        self.assertEqual((status, said), (0, "geojson-to-desk: 1 of 1 features became lines\n"))
        return json.loads(output)["publish"]

    def test_each_field_has_its_member(self) -> None:
        mapping = self.mapping()
        self.assertTrue(mapping.pop("key").startswith("police-7-"))
        del mapping["serviceBoundary"]
        self.assertEqual(mapping, {
            "source": "Psap.Example", "sourceId": "police-7", "service": "urn:service:sos.police", "uri": ["sip:police@psap.example"],
            "serviceNumber": "911", "displayName": [{"lang": "en", "text": "Leonia Police"}], "lastUpdated": "2026-01-02T05:00:00Z",
            "expires": "NO-EXPIRATION",
        })  # fmt: skip
        self.assertEqual(self.mapping(Expire="2027-01-01T00:00:00Z")["expires"], "2027-01-01T00:00:00Z")
        self.assertNotIn("serviceNumber", self.mapping(ServiceNum=None))
        self.assertNotIn("displayName", self.mapping(DsplayName=""))

    def test_each_service(self) -> None:
        for given, service in (
            ("urn:emergency:service:sos.police", "urn:service:sos.police"),
            ("URN:NENA:Service:sos.fire", "urn:service:sos.fire"),
            ("urn:nena:service:responder.police", "urn:service:responder.police"),
            ("urn:nena:service:sos.call_taker", "urn:service:sos.call-taker"),
            ("urn:service:sos", "urn:service:sos"),
        ):
            self.assertEqual(self.mapping(ServiceURN=given)["service"], service)
            self.assertEqual(self.mapping("--service", given)["service"], service)

    def test_options_go_first_and_the_older_field_counts(self) -> None:
        mapping = self.mapping("--display", "fr={DsplayName}", "--source", "map.example", "--updated", "2026-01-05T00:00:00Z")
        self.assertEqual((mapping["displayName"][0]["lang"], mapping["source"]), ("fr", "map.example"))
        self.assertEqual(mapping["lastUpdated"], "2026-01-05T00:00:00Z")
        self.assertEqual(self.mapping(NGUID=None, ES_NGUID="old")["sourceId"], "old")

    def test_the_help_has_the_table(self) -> None:
        said = run_tool("geojson-to-desk", ["--help"])[1]
        for word in (*self.FIELDS, "urn:emergency:service:sos.police", "urn:nena:service:", "ES_NGUID"):
            self.assertIn(word, said)
