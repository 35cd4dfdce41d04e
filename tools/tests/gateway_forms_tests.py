"""Tests the short way of reading: it makes the lines that the long way makes, or none."""
from __future__ import annotations

import random
import unittest
from typing import Any, List, Optional

from gateway.documents import read_document
from gateway.forms import Forms
from gateway.requests import BY_CENTRE, Manner, Request, read_request
from gateway.services import Alias, Services, alias_of
from maptools.lines import line_of
from tests.gateway_running import cases

MANNER = Manner(BY_CENTRE, Services([alias_of("urn:x:=urn:service:")]))
LOST, GML = 'xmlns="urn:ietf:params:xml:ns:lost1"', 'xmlns:gml="http://www.opengis.net/gml"'
PLACE = '<location id="{}" profile="geodetic-2d"><gml:Point><gml:pos>{}</gml:pos></gml:Point></location>'
FORMS = [
    f"<findService {LOST} {GML}>{PLACE}<service>urn:service:sos</service></findService>",
    f"<?xml version='1.0'?>\n<findService {LOST} {GML} serviceBoundary='value'>\n{PLACE}\n<service> urn:x:sos </service></findService>\n",
    f'<listServicesByLocation {LOST} {GML}>{PLACE}<path><via source="a.example"/></path></listServicesByLocation>',
    f'<findService {LOST} {GML}><location profile="x" id="other"/>{PLACE}<service>urn:service:sos</service></findService>',
    f"<findService {LOST} {GML}><!-- location id=\"x\" -->{PLACE}<service>urn:service:sos</service></findService>",
    f"<findService {LOST} {GML}>{PLACE}<service>urn:service:sos</service><e xmlns='urn:x'><!-- pos>7 8</pos --></e></findService>",
    f"<findService {LOST} {GML}>{PLACE}<location id='q' profile='civic'/><service>urn:service:sos</service></findService>",
    f"<findService {LOST} {GML}>{PLACE.replace('<gml:Point>', '<gml:Point srsName=' + repr('CRS84') + '>')}<service>urn:x:sos</service></findService>",
    f"<findService {LOST} {GML}>{PLACE}<service>urn:nena:service:sos</service></findService>",
    f"<findService {LOST} {GML}>{PLACE}<service>a-name-that-nobody-gives</service></findService>",
    f"<findService {LOST} {GML} x=' location id=\"y\" '>{PLACE}<service>urn:service:sos</service></findService>",
]  # fmt: skip
NAMES = ["a", "", "0xO5Lxv9wLeyk5He", "x/y=z", "a-b_c.d:e@f+g", "a b", "é", "&amp;", "'", "a\\b", "&#9;", "location", "pos"]
PLACES = ["1 2", "-0 0", "91 999", "40.861 -73.988", "0.00000005 -0.00000015", "1.234567849999 1", "1e1 2", "1 2 3", "+1 2", " 1 2", "x"]


def read(body: bytes) -> Any:
    """The request of a body and its line, read in the long way."""
    request = read_request(read_document(body), MANNER)
    kind, members = request.line_members()
    return request, line_of({kind: members}).encode() + b"\n"


def asked_of(request: Request) -> Optional[Alias]:
    """What a reply must know."""
    return request.asked.alias if request.asked else None


class Short(unittest.TestCase):
    """Without a network."""

    def compare(self, forms: Forms, body: bytes) -> Optional[bool]:
        """Compares both ways; None where the short way is not taken."""
        short = forms.short(body)
        if short is None:
            return None
        request, line = read(body)
        self.assertEqual((short.line, short.form.kind, short.form.asked), (line, request.kind, asked_of(request)), body)
        self.assertEqual(short.name.decode(), f'"{request.used.item["id"]}"')
        return True

    def test_both_ways_make_the_same_line(self) -> None:
        dice, forms = random.Random(3), Forms(read, asked_of)
        taken: List[str] = []
        for _ in range(3000):
            form = dice.choice(FORMS)
            if self.compare(forms, form.format(dice.choice(NAMES), dice.choice(PLACES)).encode()):
                taken.append(form)
        # Not those whose first location is another one, whose longitude is first, or whose service is none.
        self.assertEqual(sorted(map(FORMS.index, set(taken))), [0, 1, 2, 5, 6])
        self.assertGreater(len(taken), 300)

    def test_documents_of_the_tables_are_read_the_same_each_time(self) -> None:
        forms = Forms(read, asked_of)
        bodies = [case.parts["xml"].encode() for table in ("requests", "standard") for case in cases(table)]
        taken = [self.compare(forms, body) for _ in range(3) for body in bodies]
        self.assertGreater(taken.count(True), 5)

    def test_a_form_is_learned_at_its_second_request_and_the_table_is_bounded(self) -> None:
        forms = Forms(read, asked_of)
        body = FORMS[0].format("a", "1 2").encode()
        self.assertEqual([forms.short(body) is None for _ in range(3)], [True, False, False])
        for number in range(2000):
            for _ in range(2):
                forms.short(body.replace(b":sos", b":sos.x%d" % number))
        self.assertLessEqual(len(forms.table) + len(forms.seen), 600)
