"""Tests what tools/lost-gateway reads and writes, by tables of XML and lines."""
from __future__ import annotations

import json
import unittest
import xml.etree.ElementTree as ElementTree
from typing import Any, Dict
from xml.sax.saxutils import quoteattr

from tests.gateway_running import NOT_FOUND, Answer, Case, Gateway, StandIn, canonical, cases, has_packages, invalid_of

POINT = """<findService xmlns="urn:ietf:params:xml:ns:lost1"><location id="p" profile="geodetic-2d">
<gml:Point xmlns:gml="http://www.opengis.net/gml"><gml:pos>1 2</gml:pos></gml:Point></location>
<service>{service}</service></findService>"""
LIST = '<listServices xmlns="urn:ietf:params:xml:ns:lost1">{service}</listServices>'


def one_line(text: str) -> bytes:
    """A line of a table, which goes over several, as it is sent."""
    return "".join(text.splitlines()).encode()


def found(service: str, **more: Any) -> Dict[str, Any]:
    """A reply with one mapping of a service."""
    mapping = {"expires": "NO-CACHE", "lastUpdated": "2025-12-01T00:00:00Z", "service": service, "source": "map.example"}
    mapping = {**mapping, "sourceId": "A", "uri": ["sip:a@map.example"], **more}
    return {"findServiceResponse": {"edition": 1, "locationUsed": "p", "mapping": [mapping], "path": ["lost.example"]}}


@unittest.skipUnless(has_packages(), "the packages of Debian that the gateway needs are missing")
class Messages(unittest.TestCase):
    """Each case of the tables through a gateway that runs."""

    def setUp(self) -> None:
        self.server = StandIn()
        self.addCleanup(self.server.end)

    def gateway(self, *words: str) -> Gateway:
        gateway = Gateway(self.server.address, *words)
        self.addCleanup(gateway.end)
        return gateway

    def answer(self, gateway: Gateway, xml: str, reply: bytes = NOT_FOUND) -> Answer:
        """The answer to a request whose line gets this reply; what came before is forgotten."""
        self.server.got.clear()
        self.server.replier = lambda line: reply
        return gateway.post(xml)

    def check_shape(self, answer: Answer) -> None:
        """What every answer is: XML of one type with status 200, without what clients stumble over."""
        self.assertEqual((answer.status, answer.headers["content-type"]), (200, "application/lost+xml"))
        for mark in (b"<!--", b"<?", b"\n", b"\r"):
            self.assertNotIn(mark, answer.body)

    def check_request(self, gateway: Gateway, case: Case) -> None:
        answer = self.answer(gateway, case.parts["xml"])
        self.check_shape(answer)
        wanted = [json.loads(case.parts["line"])] if "line" in case.parts else []
        self.assertEqual([json.loads(line) for line in self.server.got], wanted)
        self.assertEqual(answer.outcome(), "notFound" if wanted else "badRequest")
        self.assertEqual(answer.headers.get("edition"), "7" if wanted else None)

    def check_reply(self, gateway: Gateway, case: Case) -> None:
        answer = self.answer(gateway, case.parts.get("xml", POINT.format(service="urn:service:sos")), one_line(case.parts["reply"]))
        self.check_shape(answer)
        self.assertEqual(canonical(answer.body), canonical(case.parts["answer"]))
        self.assertEqual(answer.headers.get("edition"), case.parts.get("edition"))

    def test_the_tables(self) -> None:
        gateway = self.gateway()
        for table, check in (("requests", self.check_request), ("replies", self.check_reply)):
            for case in cases(table):
                with self.subTest(table=table, case=case.name):
                    check(gateway, case)

    def test_replies_that_nobody_knows_are_a_server_error(self) -> None:
        gateway = self.gateway()
        other = found("urn:service:sos")
        other["findServiceResponse"]["warnings"] = ["other"]
        for reply in (b"no JSON", b"7", b"{}", b'{"findServiceResponse":{}}', b'{"errors":{"error":"other"}}', b'{"errors":7}',
                      b'{"other":{"path":[]}}', json.dumps(other).encode()):  # fmt: skip
            answer = self.answer(gateway, POINT.format(service="urn:service:sos"), reply)
            self.check_shape(answer)
            self.assertEqual(answer.outcome(), "serverError", reply)

    def test_no_made_up_names(self) -> None:
        gateway = self.gateway("--no-made-up-names")
        reply = json.dumps(found("urn:service:sos")).encode()
        self.assertNotIn(b"displayName", self.answer(gateway, POINT.format(service="urn:service:sos"), reply).body)

    def test_the_name_of_errors_and_warnings(self) -> None:
        answer = self.answer(self.gateway("--name", "gw.example"), POINT.format(service="urn:service:sos"))
        self.assertEqual(ElementTree.fromstring(answer.body).get("source"), "gw.example")

    def test_aliases(self) -> None:
        theirs = "urn:emergency:service:"
        words = ["--alias", f"{theirs}=urn:service:", "--alias", "urn:nena:service:sos.police=urn:service:sos.police"]
        gateway = self.gateway(*words, "--alias", f"{theirs}sos.marine=urn:service:sos.rescue")
        for asked, behind, told, front in (
            (f"{theirs}sos.police", "urn:service:sos.police", "urn:service:sos.police", f"{theirs}sos.police"),
            ("URN:Emergency:service:sos.fire", "urn:service:sos.fire", "urn:service:sos", "urn:emergency:service:sos"),
            ("urn:nena:service:sos.police", "urn:service:sos.police", "urn:service:sos.police", "urn:nena:service:sos.police"),
            ("urn:nena:service:sos.police", "urn:service:sos.police", "urn:service:sos", "urn:service:sos"),
            ("urn:service:sos", "urn:service:sos", "urn:service:sos", "urn:service:sos"),
            (f"{theirs}sos.marine.x", "urn:service:sos.rescue.x", "urn:service:sos.rescue", f"{theirs}sos.marine"),
        ):
            answer = self.answer(gateway, POINT.format(service=asked), json.dumps(found(told)).encode())
            self.assertEqual(json.loads(self.server.got[0])["findService"]["service"], behind)
            self.assertIn(f"<service>{front}</service>".encode(), answer.body)
        told = {"edition": 1, "path": ["lost.example"], "serviceList": ["urn:service:sos.a", "urn:service:sos.b"]}
        reply = {"listServicesResponse": told}
        asked = LIST.format(service="<service>urn:emergency:service:sos</service>")
        answer = self.answer(gateway, asked, json.dumps(reply).encode())
        self.assertIn(b"<serviceList>urn:emergency:service:sos.a urn:emergency:service:sos.b</serviceList>", answer.body)

    def test_the_table_of_nena(self) -> None:
        gateway = self.gateway("--alias", "nena", "--alias", "urn:nena:service:responder.fire=urn:service:fire")
        space = "urn:nena:service:"
        for asked, behind, told, front in (
            (f"{space}responder.police", "urn:service:sos.police", "urn:service:sos.police", f"{space}responder.police"),
            (f"{space}responder.police", "urn:service:sos.police", "urn:service:sos", f"{space}sos"),
            (f"{space}sos.psap", "urn:service:sos", "urn:service:sos", f"{space}sos.psap"),
            (f"{space}sos.call_taker", "urn:service:sos.call-taker", "urn:service:sos", f"{space}sos"),
            (f"{space}sos.police", "urn:service:sos.police", "urn:service:sos.police", f"{space}sos.police"),
            ("URN:EMERGENCY:service:Responder.Ems.Local", "urn:service:sos.ambulance.local", "urn:service:sos.ambulance",
             "urn:emergency:service:responder.ems"),
            (f"{space}responder.police.countyParish.x", "urn:service:sos.police.countyparish.x",
             "urn:service:sos.police.countyparish", f"{space}responder.police.countyParish"),
            # One that is given goes before the table.
            (f"{space}responder.fire", "urn:service:fire", "urn:service:fire", f"{space}responder.fire"),
            (f"{space}responder.firearms", "urn:service:sos.firearms", "urn:service:sos", f"{space}responder"),
        ):  # fmt: skip
            answer = self.answer(gateway, POINT.format(service=asked), json.dumps(found(told)).encode())
            self.assertEqual(json.loads(self.server.got[0])["findService"]["service"], behind)
            self.assertIn(f"<service>{front}</service>".encode(), answer.body)
        self.answer(gateway, POINT.format(service=f"{space}sos.police_x"))
        self.assertIn("listServicesByLocation", json.loads(self.server.got[0]))

    def test_the_same_reply_again_names_the_location_of_each_request(self) -> None:
        gateway = self.gateway("--alias", "urn:x:=urn:service:", "--area", "centre")
        reply = found("urn:service:sos.police")
        circle = POINT.replace("gml:Point", "gs:Circle").replace("xmlns:gml", 'xmlns:gs="http://www.opengis.net/pidflo/1.0" xmlns:gml')
        circle = circle.replace("<gml:pos", '<gml:pos xmlns:gml="http://www.opengis.net/gml"')
        for name, form, service in (
            ("p", POINT, "urn:service:sos"), ("q", POINT, "urn:service:sos"), ("a\"\\\t\u00e9", POINT, "urn:service:sos"),
            ("", POINT, "urn:service:sos"), ("r", POINT, "urn:x:sos"), ("s", circle, "urn:service:sos"), ("p", POINT, "urn:service:sos"),
        ):  # fmt: skip
            reply["findServiceResponse"]["locationUsed"] = name
            line = json.dumps(reply, ensure_ascii=False, separators=(",", ":"), sort_keys=True).encode()
            answer = self.answer(gateway, form.format(service=service).replace('"p"', quoteattr(name, {"\t": "&#9;"})), line)
            root = ElementTree.fromstring(answer.body)
            used = root.find("{urn:ietf:params:xml:ns:lost1}locationUsed")
            self.assertEqual(used.get("id") if used is not None else None, name)
            wanted = "urn:x:sos.police" if service.startswith("urn:x") else "urn:service:sos.police"
            self.assertEqual(root.findtext("*/{urn:ietf:params:xml:ns:lost1}service"), wanted)
            self.assertEqual(b"centreOfArea" in answer.body, form is circle)

    @classmethod
    def tearDownClass(cls) -> None:
        wrong = invalid_of(Gateway.seen)
        if wrong:
            raise AssertionError(f"not valid by lost.rng: {wrong}")
