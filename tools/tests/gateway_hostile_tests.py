"""Tests what the gateway says to documents that are no requests, or are meant to do harm."""
from __future__ import annotations

import json
import socket
import time
import unittest
from typing import List, Tuple

from gateway.documents import NoDocument, has_dtd, read_document
from tests.gateway_running import Gateway, StandIn, has_packages, invalid_of

SIZE = 1_048_576
LIST = b'<listServices xmlns="urn:ietf:params:xml:ns:lost1"><path><via source="a.b"/></path></listServices>'
ROOT = b'<listServices xmlns="urn:ietf:params:xml:ns:lost1">'
END = b"</listServices>"
LAUGHS = b"".join(b'<!ENTITY l%d "%s">' % (level, b"&l%d;" % (level - 1) * 10) for level in range(1, 10))


def with_entity(entity: bytes) -> bytes:
    """A request whose service is an entity."""
    return b"<!DOCTYPE x [" + entity + b"]>" + ROOT + b"<service>&e;</service>" + END


def padded(size: int) -> bytes:
    """A good request of so many bytes."""
    return LIST + b" " * (size - len(LIST))


def deep(levels: int) -> bytes:
    """A good request with an extension in it, so many levels in all."""
    return LIST.replace(END, b'<x xmlns="urn:x">' + b"<y>" * (levels - 2) + b"</y>" * (levels - 2) + b"</x>" + END)


def refused(port: int) -> List[Tuple[str, bytes]]:
    """Documents that are badRequest; one of them names a port at which nobody must ask."""
    utf16 = b'<?xml version="1.0" encoding="UTF-16"?>' + with_entity(b'<!ENTITY e "x">')
    names = " ".join(f"xmlns:n{number}='x'" for number in range(20_000))
    return [
        ("nothing", b""), ("white space", b" \n"), ("no XML", b"findService"), ("JSON", b'{"listServices":{}}'),
        ("half", LIST[:-5]),
        ("two outermost elements", LIST + LIST), ("text behind", LIST + b"x"), ("a control character", LIST + b"\0"),
        ("a prefix that nothing declares", b"<l:listServices/>"), ("an attribute twice", b'<listServices key="a" key="b"/>'),
        ("not UTF-8", LIST.replace(b"a.b", b"\xff")), ("half a surrogate pair", LIST.replace(b"a.b", b"&#xD800;")),
        ("a document type", b"<!DOCTYPE listServices>" + LIST),
        ("a document type of the system", b'<!DOCTYPE x SYSTEM "http://127.0.0.1:%d/x.dtd">' % port + LIST),
        ("one behind comments", b"<?xml version='1.0'?>\n<!-- <a> --><?p ?>\t<!DOCTYPE x>" + LIST),
        ("one behind a comment that begins oddly", b"<!--><a --><!DOCTYPE x [<!ENTITY e 'x'>]>" + LIST),
        ("an entity", with_entity(b'<!ENTITY e "urn:service:sos">')), ("an entity that nothing declares", with_entity(b"")),
        ("an entity without a document type", ROOT + b"<service>&e;</service>" + END),
        ("a file", with_entity(b'<!ENTITY e SYSTEM "file:///etc/passwd">')),
        ("a document of the network", with_entity(b'<!ENTITY e SYSTEM "http://127.0.0.1:%d/">' % port)),
        ("a parameter entity", with_entity(b'<!ENTITY %% p SYSTEM "http://127.0.0.1:%d/"> %%p;' % port)),
        ("an entity for an attribute", b'<!DOCTYPE x [<!ENTITY e "x">]><listServices a="&e;"/>'),
        ("a billion laughs", with_entity(b'<!ENTITY l0 "ha">' + LAUGHS + b'<!ENTITY e "&l9;">')),
        ("one in UTF-16", "\ufeff".encode("utf-16-le") + utf16.decode().encode("utf-16-le")),
        ("one in UTF-16, the other way round", "\ufeff".encode("utf-16-be") + utf16.decode().encode("utf-16-be")),
        ("one with a mark of UTF-8", b"\xef\xbb\xbf" + with_entity(b'<!ENTITY e "x">')),
        ("UTF-7", b'<?xml version="1.0" encoding="UTF-7"?>' + LIST), ("UTF-16 in name only", utf16),
        ("no encoding", b'<?xml version="1.0" encoding="zlib"?>' + LIST),
        ("101 levels", deep(101)), ("all levels that fit", b"<a>" * 149_000 + b"</a>" * 149_000),
        ("too long", padded(SIZE + 1)),
        ("95,000 attributes", b"<a " + b" ".join(b'a%d=""' % number for number in range(95_000)) + b"/>"),
        ("20,000 namespaces", f"<a {names}/>".encode() + b"x"), ("250,000 elements", b"<a>" + b"<b/>" * 250_000 + b"</a>"),
    ]  # fmt: skip


class Documents(unittest.TestCase):
    """What is read as a document."""

    def test_a_document_type_is_found_before_anything_is_read(self) -> None:
        for text, wanted in (
            (b"<!DOCTYPE x><x/>", True), (b" \r\n<!-- > --><?a <x>?><!DOCTYPE", True), (b"<!--><x--><!DOCTYPE x>", True),
            (b"<x/><!DOCTYPE x>", False), (b"<!-- <!DOCTYPE x> --><x/>", False), (b"<!--><!DOCTYPE x>", False), (b"", False),
            (b"<?x <!DOCTYPE x>", False), (b"<?", False), (b"<!--", False),
        ):  # fmt: skip
            self.assertEqual(has_dtd(text), wanted, text)
        begun = time.monotonic()
        self.assertFalse(has_dtd(b"<!---->" * 149_000))
        self.assertLess(time.monotonic() - begun, 10)

    def test_encodings(self) -> None:
        for text, encoding in (("<a>é</a>", "utf-8"), ("<a>é</a>", "utf-8-sig"), ("<a>é</a>", "utf-16"),
                               ("<?xml version='1.0' encoding='iso-8859-1'?><a>é</a>", "latin-1"),
                               ("<?xml version='1.0' encoding='UTF-16'?><a>é</a>", "utf-16"),
                               ("<?xml version='1.0' encoding='US-ASCII'?><a>&#233;</a>", "ascii")):  # fmt: skip
            self.assertEqual(read_document(text.encode(encoding)).text, "é")
        with self.assertRaises(NoDocument):
            read_document("<?xml version='1.0' encoding='US-ASCII'?><a>é</a>".encode())


@unittest.skipUnless(has_packages(), "the packages of Debian that the gateway needs are missing")
class Hostile(unittest.TestCase):
    """Each through a gateway that runs."""

    def test_they_are_bad_requests_and_nothing_is_asked(self) -> None:
        with StandIn() as server, socket.create_server(("127.0.0.1", 0)) as trap, Gateway(server.address) as gateway:
            trap.settimeout(0)
            for name, body in refused(trap.getsockname()[1]):
                begun = time.monotonic()
                answer = gateway.post(body)
                with self.subTest(name):
                    self.assertEqual((answer.status, answer.outcome(), server.got), (200, "badRequest", []))
                    self.assertNotIn(b"root:", answer.body)
                    self.assertLess(time.monotonic() - begun, 10)
            with self.assertRaises(BlockingIOError):
                trap.accept()
            self.assertEqual(gateway.post(LIST).outcome(), "notFound")

    def test_the_limits_from_below(self) -> None:
        with StandIn() as server, Gateway(server.address) as gateway:
            for body in (padded(SIZE), deep(100), LIST.replace(b"a.b", b"a.b" * 100_000)):
                self.assertEqual(gateway.post(body).outcome(), "notFound")
            self.assertEqual(len(server.got), 3)

    def test_what_must_be_escaped_in_a_line(self) -> None:
        with StandIn() as server, Gateway(server.address) as gateway:
            gateway.post(LIST.replace(b"a.b", b"&#34;&#10;\\&#x7f;\xe2\x80\xa8" * 20_000))
            self.assertEqual(json.loads(server.got[0])["listServices"]["path"], ['"\n\\\x7f\u2028' * 20_000])

    @classmethod
    def tearDownClass(cls) -> None:
        wrong = invalid_of(Gateway.seen)
        if wrong:
            raise AssertionError(f"not valid by lost.rng: {wrong}")
