"""Tests the gateway before lostd itself: the examples of RFC 5222, and what is said of requests that are refused.

lostd answers each line in a `lostd replay` of its own, so that the moment and its name are those of the example.
"""
from __future__ import annotations

import json
import subprocess
import unittest
import xml.etree.ElementTree as ElementTree
from typing import List

from tests.gateway_running import NAMED, Case, Gateway, Replier, StandIn, canonical, cases, has_packages, invalid_of
from tests.running import lostd, read, run_tool

COMMIT = '{"commit":{}}'
LOST = "{urn:ietf:params:xml:ns:lost1}"
XML_LANG = "{http://www.w3.org/XML/1998/namespace}lang"
FIND = """<findService xmlns="urn:ietf:params:xml:ns:lost1"{attributes}>{places}<service>{service}</service>{path}</findService>"""
POINT = """<location id="{name}" profile="geodetic-2d"><Point xmlns="http://www.opengis.net/gml"><pos>{pos}</pos></Point></location>"""
ADDRESS = """<location id="home" profile="civic"><civicAddress xmlns="urn:ietf:params:xml:ns:pidf:geopriv10:civicAddr">
<country>US</country><A1>NJ</A1></civicAddress></location>"""
OTHER = '<location id="x" profile="x-cell"><cell xmlns="urn:example:cell">1234</cell></location>'
REGIONS = [
    {"profile": "geodetic-2d", "polygon": [[0, 0], [0, 100_000_000], [100_000_000, 100_000_000], [100_000_000, 0], [0, 0]]},
    {"profile": "civic", "pattern": {"country": "US"}},
]


def replayed(lines: List[str], name: str, now: str) -> Replier:
    """Answers by lostd, which has the map of these lines."""
    words = [str(lostd()), "replay", "--name", name, "--now", now]

    def reply(line: bytes) -> bytes:
        given = "\n".join([*lines, COMMIT, ""]).encode() + line + b"\n"
        return subprocess.run(words, input=given, capture_output=True, timeout=60, check=True).stdout.splitlines()[-1]

    return reply


def mapping(service: str, source_id: str) -> str:
    """A publish line of a mapping over the square and the country."""
    parts = {"source": "map.example", "sourceId": source_id, "key": source_id, "lastUpdated": "2025-12-01T00:00:00Z"}
    parts = {**parts, "expires": "NO-CACHE", "service": service, "uri": ["sip:a@map.example"], "serviceBoundary": REGIONS}
    return json.dumps({"publish": parts})


@unittest.skipUnless(has_packages() and lostd(), "the packages of Debian that the gateway needs, or lostd, are missing")
class Standard(unittest.TestCase):
    """Each through a gateway that runs."""

    def test_the_examples_of_the_standard(self) -> None:
        name = "authoritative.example"
        with StandIn(name=NAMED.replace(b"lost.example", name.encode())) as server, Gateway(server.address) as gateway:
            gateway.await_first(server)
            for case in cases("standard"):
                server.replier = replayed(case.parts["map"].splitlines(), name, "2006-11-15T00:00:00Z")
                answer = gateway.post(case.parts["xml"])
                with self.subTest(case.name):
                    self.assertEqual(answer.status, 200)
                    self.assertEqual(canonical(answer.body), canonical(case.parts["answer"]))

    def check_cause(self, gateway: Gateway, case: Case) -> None:
        """A request that is refused, and its one cause."""
        answer = gateway.post(case.parts["xml"])
        root = ElementTree.fromstring(answer.body)
        self.assertEqual((answer.status, root.tag, len(root)), (200, f"{LOST}errors", 1))
        self.assertEqual(f"{answer.outcome()}: {root[0].get('message')}", case.parts["error"])
        self.assertEqual((root.get("source"), root[0].get(XML_LANG)), ("lost.example", "en"))
        self.assertEqual("edition" in answer.headers, answer.outcome() != "badRequest")

    def test_each_error_says_its_one_cause(self) -> None:
        reply = replayed(read("gateway/causes.jsonl").splitlines(), "lost.example", "2026-01-01T00:00:00Z")
        with StandIn(reply) as server, Gateway(server.address) as gateway:
            gateway.await_first(server)
            for case in cases("causes"):
                with self.subTest(case.name):
                    self.check_cause(gateway, case)

    def found(self, gateway: Gateway, service: str = "urn:service:sos", **parts: str) -> ElementTree.Element:
        """The answer to a findService."""
        given = {"attributes": "", "places": "", "path": "", **parts}
        return ElementTree.fromstring(gateway.post(FIND.format(service=service, **given)).body)

    def used(self, root: ElementTree.Element) -> str:
        """The location used of an answer, or its error."""
        element = root.find(f"{LOST}locationUsed")
        return str(element.get("id")) if element is not None else root[0].tag.replace(LOST, "")

    def test_several_locations_and_profiles_that_nobody_knows(self) -> None:
        inside, outside = POINT.format(name="in", pos="1 1"), POINT.format(name="out", pos="20 20")
        reply = replayed([mapping("urn:service:sos", "A")], "lost.example", "2026-01-01T00:00:00Z")
        with StandIn(reply) as server, Gateway(server.address) as gateway:
            for places, wanted in (
                (inside + ADDRESS, "in"), (ADDRESS + inside, "home"), (OTHER + ADDRESS + outside, "home"), (OTHER + inside, "in"),
                (outside + ADDRESS, "notFound"), (OTHER, "locationProfileUnrecognized"), ('<location id="n"/>' + inside, "in"),
                (OTHER * 2, "badRequest"), (inside + outside, "badRequest"),
            ):  # fmt: skip
                self.assertEqual(self.used(self.found(gateway, places=places)), wanted, places)

    def test_recursive_says_nothing(self) -> None:
        reply = replayed([mapping("urn:service:sos", "A")], "lost.example", "2026-01-01T00:00:00Z")
        with StandIn(reply) as server, Gateway(server.address) as gateway:
            place = POINT.format(name="in", pos="1 1")
            answers = [
                ElementTree.tostring(self.found(gateway, places=place, attributes=attributes))
                for attributes in ("", ' recursive="true"', ' recursive="false"', ' recursive="1"')
            ]
            self.assertEqual([answer == answers[0] for answer in answers], [True] * 4)
            self.assertEqual(len(set(server.got)), 1)

    def test_the_path_and_loops(self) -> None:
        reply = replayed([mapping("urn:service:sos", "A")], "lost.example", "2026-01-01T00:00:00Z")
        with StandIn(reply) as server, Gateway(server.address) as gateway:
            for count in (0, 1, 31, 32, 33, 40):
                servers = [f"s{number}.example" for number in range(count)]
                for path, is_loop in ((servers, False), ([*servers, "Lost.EXAMPLE"], True), (["lost.example", *servers], True)):
                    given = f"<path>{''.join(f'<via source={json.dumps(name)}/>' for name in path)}</path>" if path else ""
                    root = self.found(gateway, places=POINT.format(name="in", pos="1 1"), path=given)
                    vias = [str(via.get("source")) for via in root.findall(f"{LOST}path/{LOST}via")]
                    self.assertEqual((self.used(root), vias), ("loop", []) if is_loop else ("in", [*path, "lost.example"]))

    def test_each_name_of_the_registry_of_nena(self) -> None:
        rows = [row.split() for row in read("gateway/nena.rows").splitlines()]
        helped = run_tool("lost-gateway", ["--help"])[1].split("--alias nena, for", 1)[1].split("Names below", 1)[0]
        self.assertEqual([line.split() for line in helped.splitlines()[1:]], rows)
        lines = [mapping(name, f"m{number}") for number, name in enumerate(sorted({ours for _, ours in rows}))]
        place = POINT.format(name="in", pos="1 1")
        with StandIn(replayed(lines, "lost.example", "2026-01-01T00:00:00Z")) as server:
            with Gateway(server.address, "--alias", "nena") as gateway:
                for space in ("urn:nena:service:", "urn:emergency:service:"):
                    for theirs, ours in rows:
                        root = self.found(gateway, space + theirs, places=place)
                        self.assertEqual(json.loads(server.got[-1])["findService"]["service"], ours)
                        told = root.findall(f"{LOST}mapping/{LOST}service")
                        self.assertEqual([one.text for one in told], [space + theirs])

    @classmethod
    def tearDownClass(cls) -> None:
        wrong = invalid_of(Gateway.seen)
        if wrong:
            raise AssertionError(f"not valid by lost.rng: {wrong}")
