"""Tests the HTTP side of the gateway, what an operator sees of it, its processes and its command line."""
from __future__ import annotations

import gzip
import json
import os
import signal
import socket
import subprocess
import tempfile
import threading
import time
import unittest
import zlib
from types import SimpleNamespace
from typing import Any, Dict, List, Tuple

from gateway.metrics import Times
from tests.gateway_running import (
    MEDIA_TYPE, PATIENCE, PYTHON, Answer, Gateway, StandIn, ask_over, has_packages, invalid_of, wait_until,
)  # fmt: skip
from tests.gateway_servers_tests import LIST, QUESTION, echo
from tests.running import TOOLS, run_tool

POST = "POST /lost HTTP/1.1\r\nHost: x\r\nContent-Type: application/lost+xml\r\n"
CLOSING = f"{POST}Connection: close\r\n"
NEEDS = "the packages of Debian that the gateway needs are missing"


def very_slowly(line: bytes) -> bytes:
    """A reply after longer than a connection that is idle is waited for."""
    time.sleep(1.5)
    return echo(line)


def raw(port: int, *pieces: bytes) -> bytes:
    """What comes back for pieces of bytes that are sent one after the other, until the gateway closes."""
    with socket.create_connection(("127.0.0.1", port), timeout=PATIENCE) as connection:
        for piece in pieces:
            connection.sendall(piece)
            time.sleep(0.1)
        with connection.makefile("rb") as answers:
            return answers.read()


class Bucket:
    """A count of the library."""

    def __init__(self) -> None:
        self.value = 0.0

    def inc(self, amount: float) -> None:
        """Adds."""
        self.value += amount


class Seconds(unittest.TestCase):
    """How long requests took, as the library wants it."""

    def test_a_request_counts_below_the_first_bound_that_it_does_not_pass(self) -> None:
        times, histogram = Times(), SimpleNamespace(_buckets=[Bucket() for _ in range(14)], _sum=Bucket())
        for seconds in (0.0, 0.0005, 0.00051, 0.001, 0.3, 0.5, 4.0, 4.5, 99.0):
            times.add(seconds)
        times.tell(histogram)
        # 0.0005, 0.001, 0.0025 ... 0.5, 1, 2, 4, and beyond
        self.assertEqual([bucket.value for bucket in histogram._buckets], [2, 2, 0, 0, 0, 0, 0, 0, 0, 2, 0, 0, 1, 2])
        self.assertAlmostEqual(histogram._sum.value, 108.30201)


@unittest.skipUnless(has_packages(), NEEDS)
class Http(unittest.TestCase):
    """One gateway before a server that answers."""

    @classmethod
    def setUpClass(cls) -> None:
        cls.server = StandIn(echo)
        cls.folder = tempfile.TemporaryDirectory()
        cls.log = f"{cls.folder.name}/queries.jsonl"
        cls.gateway = Gateway(cls.server.address, "--log", cls.log, "--area", "centre")

    @classmethod
    def tearDownClass(cls) -> None:
        cls.gateway.end()
        cls.server.end()
        cls.folder.cleanup()
        wrong = invalid_of(Gateway.seen)
        if wrong:
            raise AssertionError(f"not valid by lost.rng: {wrong}")

    def check(self, answer: Answer, status: int, outcome: str) -> None:
        """An answer whose body is XML of LoST, whatever its status."""
        self.assertEqual((answer.status, answer.headers["content-type"], answer.outcome()), (status, MEDIA_TYPE, outcome))
        Gateway.seen.append(answer.body)

    def ask(self, method: str, path: str, body: Any = None, **headers: str) -> Answer:
        """The response to a request."""
        given = {name.replace("_", "-"): value for name, value in headers.items()}
        return self.gateway.ask(method, path, body, given)

    def test_any_path_and_any_spelling_of_the_type(self) -> None:
        for path in ("/", "/lost?x=1", "/a/b/c", "/health", "/metrics"):
            for kind in (MEDIA_TYPE, "application/lost+xml;charset=utf-8", 'Application/LoST+XML; charset="utf-8"'):
                self.check(self.ask("POST", path, QUESTION, Content_Type=kind), 200, "listServicesResponse")

    def test_other_types_and_methods(self) -> None:
        for kind in ("text/xml", "application/json", "text/plain", ""):
            self.check(self.ask("POST", "/", QUESTION, Content_Type=kind), 415, "badRequest")
        for encoding in ("deflate", "br", "gzip, gzip"):
            answer = self.ask("POST", "/", QUESTION, Content_Type=MEDIA_TYPE, Content_Encoding=encoding)
            self.check(answer, 415, "badRequest")
            self.assertEqual(answer.headers["accept-encoding"], "gzip")
        for method in ("GET", "PUT", "DELETE", "OPTIONS"):
            answer = self.ask(method, "/lost")
            self.check(answer, 405, "badRequest")
            self.assertEqual(answer.headers["allow"], "POST")

    def test_bodies_that_are_compressed(self) -> None:
        for encoding in ("gzip", "x-gzip", " GZIP "):
            packed = gzip.compress(QUESTION.encode())
            self.check(self.ask("POST", "/", packed, Content_Type=MEDIA_TYPE, Content_Encoding=encoding), 200, "listServicesResponse")
        for body in (packed[:-1], packed + b"x", QUESTION.encode(), packed[:-8] + b"\0" * 8):
            self.check(self.ask("POST", "/", body, Content_Type=MEDIA_TYPE, Content_Encoding="gzip"), 200, "badRequest")
        parts = gzip.compress(QUESTION[:30].encode()) + gzip.compress(QUESTION[30:].encode())
        self.check(self.ask("POST", "/", parts, Content_Type=MEDIA_TYPE, Content_Encoding="gzip"), 200, "listServicesResponse")
        self.check(self.ask("POST", "/", QUESTION, Content_Type=MEDIA_TYPE, Content_Encoding="identity"), 200, "listServicesResponse")

    def test_what_is_compressed_is_bounded_as_it_was_before(self) -> None:
        for size, outcome in ((1_048_576, "listServicesResponse"), (1_048_577, "badRequest"), (500_000_000, "badRequest")):
            packer = zlib.compressobj(9, zlib.DEFLATED, 31)
            packed = packer.compress(QUESTION.encode()) + packer.compress(b" " * (size - len(QUESTION))) + packer.flush()
            begun = time.monotonic()
            self.check(self.ask("POST", "/", packed, Content_Type=MEDIA_TYPE, Content_Encoding="gzip"), 200, outcome)
            self.assertLess(time.monotonic() - begun, 2)

    def test_long_replies_are_compressed_for_clients_that_take_it(self) -> None:
        long, short = LIST.format("a." * 450 + "b"), LIST.format("a." * 350 + "b")
        for accepted, is_taken in (("gzip", True), ("deflate, gzip;q=0.5", True), ("*", True), ("x-gzip", True), ("", False),
                                   ("br", False), ("gzip;q=0", False), ("gzip; q=0.0, *", False), ("identity", False)):  # fmt: skip
            for body, is_packed in ((long, is_taken), (short, False)):
                answer = self.ask("POST", "/", body, Content_Type=MEDIA_TYPE, Accept_Encoding=accepted)
                self.assertEqual(answer.headers.get("content-encoding"), "gzip" if is_packed else None, accepted)
                self.assertEqual(answer.headers.get("vary"), "Accept-Encoding" if body is long else None)
                plain = gzip.decompress(answer.body) if is_packed else answer.body
                self.assertEqual(len(plain) >= 1024, body is long)
                self.check(answer._replace(body=plain), 200, "listServicesResponse")

    def test_one_connection_for_many_questions(self) -> None:
        connection = self.gateway.connect()
        for number in range(10):
            answer = ask_over(connection, "POST", "/", LIST.format(f"a.{number}").encode(), {"Content-Type": MEDIA_TYPE})
            self.assertIn(f'"a.{number}"'.encode(), answer.body)
        self.assertIsNotNone(connection.sock)
        connection.close()

    def test_bodies_in_pieces_and_clients_that_wait_to_be_told(self) -> None:
        body = QUESTION.encode()
        head = f"{CLOSING}Content-Length: {len(body)}\r\n".encode()
        for pieces in (
            [head + b"\r\n" + body], [head + b"\r\n", body[:20], body[20:]], [head + b"Expect: 100-continue\r\n\r\n", body],
            [f"{CLOSING}Transfer-Encoding: chunked\r\n\r\n5\r\n".encode() + body[:5], b"\r\n%x\r\n" % (len(body) - 5),
             body[5:] + b"\r\n0\r\n\r\n"],
        ):  # fmt: skip
            got = raw(self.gateway.port, *pieces)
            self.assertIn(b"HTTP/1.1 200 OK", got)
            self.assertTrue(got.endswith(b"</listServicesResponse>"), got)
            self.assertEqual(got.startswith(b"HTTP/1.1 100 Continue\r\n\r\n"), b"Expect" in pieces[0])

    def test_two_questions_in_one_piece(self) -> None:
        one, other = (f"{head}Content-Length: {len(QUESTION)}\r\n\r\n{QUESTION}".encode() for head in (POST, CLOSING))
        self.assertEqual(raw(self.gateway.port, one + other).count(b"</listServicesResponse>"), 2)

    def test_too_long_bodies_are_not_read_to_their_end(self) -> None:
        for head in (b"Content-Length: 3000000\r\n\r\n", b"Transfer-Encoding: chunked\r\n\r\n200000\r\n" + b" " * 1_100_000):
            with socket.create_connection(("127.0.0.1", self.gateway.port), timeout=PATIENCE) as connection:
                connection.sendall(POST.encode() + head)
                got = b""
                while not got.endswith(b"</errors>"):
                    got += connection.recv(65_536)
            self.assertIn(b"HTTP/1.1 200 OK", got)
            self.assertIn(b"Connection: close", got)
            self.assertIn(b"<badRequest ", got)

    def test_no_http(self) -> None:
        preface = b"PRI * HTTP/2.0\r\n\r\nSM\r\n\r\n\0\0\x12\x04\0\0\0\0\0"
        with Gateway(self.server.address) as gateway:
            for given in (b"\x16\x03\x01 hello\r\n\r\n", preface, b"POST / HTTP/1.1\r\nContent-Length: x\r\n\r\n"):
                self.assertIn(b"400 Bad Request", raw(gateway.port, given))
            self.assertEqual(gateway.post(QUESTION).outcome(), "listServicesResponse")
            raw(gateway.port, b"GET http://[x HTTP/1.1\r\nHost: x\r\n\r\n")
            status, said = gateway.end()
        self.assertEqual(status, 0)
        self.assertRegex(said.decode(), r"\A(lost-gateway: [^\n]*\n)?\Z")

    def test_health_and_metrics(self) -> None:
        health = self.ask("GET", "/health")
        self.assertEqual((health.status, health.body), (200, f"{self.server.address} answers\n".encode()))
        for body in (QUESTION, "no XML"):
            self.ask("POST", "/", body, Content_Type=MEDIA_TYPE)
        for part in (
            b'lost_requests_total{kind="listServices",outcome="answered"} ', b'lost_request_seconds_bucket{le="0.005"} ',
            b'lost_requests_total{kind="unreadable",outcome="badRequest"} ',
            f'lost_server_up{{server="{self.server.address}"}} 1.0'.encode(),
        ):  # fmt: skip
            self.assertTrue(wait_until(lambda part=part: part in self.ask("GET", "/metrics").body), part)
        self.assertTrue(self.ask("GET", "/metrics").headers["content-type"].startswith("text/plain; version=0.0.4"))

    def noted(self) -> List[Dict[str, Any]]:
        """The lines of the log."""
        with open(self.log, encoding="utf-8") as file:
            return [json.loads(line) for line in file]

    def test_the_log(self) -> None:
        before = len(self.noted())
        circle = """<findService xmlns="urn:ietf:params:xml:ns:lost1"><location id="p" profile="geodetic-2d">
            <Circle xmlns="http://www.opengis.net/pidflo/1.0"><pos xmlns="http://www.opengis.net/gml">1 2</pos></Circle>
            </location><service>é</service></findService>"""
        self.server.replier = lambda line: b'{"errors":{"edition":5,"error":"notFound"}}'
        for body in (circle.encode(), b"\xff<"):
            self.ask("POST", "/", body, Content_Type=MEDIA_TYPE, X_Forwarded_For="192.0.2.7")
        self.server.replier = echo
        good, bad = self.noted()[before:]
        self.assertRegex(good["moment"], r"\A2\d\d\d-\d\d-\d\dT\d\d:\d\d:\d\d\.\d\d\dZ\Z")
        self.assertRegex(good["client"], r"\A127\.0\.0\.1:\d+\Z")
        self.assertEqual((good["request"], good["forwardedFor"]), (circle, "192.0.2.7"))
        self.assertIn("<notFound ", good["reply"])
        names = ("kind", "outcome", "edition", "server", "askedAtCentreOf")
        self.assertEqual([good[name] for name in names], ["findService", "notFound", 5, self.server.address, "Circle"])
        self.assertEqual([bad[name] for name in names], ["unreadable", "badRequest", None, None, None])
        self.assertEqual(bad["request"], "\\xff<")
        self.assertIn("no XML", bad["detail"])
        self.assertEqual(os.stat(self.log).st_mode & 0o007, 0)


@unittest.skipUnless(has_packages(), NEEDS)
class Processes(unittest.TestCase):
    """Start, end, and several processes."""

    def test_what_is_asked_is_answered_before_the_end(self) -> None:
        answers: List[Answer] = []
        for processes in ("1", "2"):
            with StandIn(very_slowly) as server, Gateway(server.address, "--processes", processes) as gateway:
                thread = threading.Thread(target=lambda: answers.append(gateway.post(QUESTION)))
                thread.start()
                self.assertTrue(wait_until(lambda: len(server.got) == 1))
                self.assertEqual(gateway.end(), (0, b""))
                thread.join()
                self.assertEqual((answers[-1].outcome(), answers[-1].headers["connection"]), ("listServicesResponse", "close"))

    def test_an_interrupt_ends_it_too_and_idle_clients_hold_nothing_up(self) -> None:
        with StandIn(echo) as server, Gateway(server.address) as gateway:
            connections = [gateway.connect() for _ in range(5)]
            for connection in connections:
                ask_over(connection, "POST", "/", QUESTION.encode(), {"Content-Type": MEDIA_TYPE})
            begun = time.monotonic()
            self.assertEqual(gateway.end(signal.SIGINT), (0, b""))
            self.assertLess(time.monotonic() - begun, 5)
            for connection in connections:
                connection.close()

    def children(self, gateway: Gateway) -> List[int]:
        """The processes of a gateway."""
        with open(f"/proc/{gateway.process.pid}/task/{gateway.process.pid}/children", encoding="ascii") as file:
            return [int(word) for word in file.read().split()]

    def test_processes_count_together_and_one_that_dies_is_replaced(self) -> None:
        with StandIn(echo) as server, Gateway(server.address, "--processes", "3", "--pool", "1") as gateway:
            children = self.children(gateway)
            self.assertEqual(len(children), 3)
            for _ in range(30):
                gateway.post(QUESTION)
            counted = b'lost_requests_total{kind="listServices",outcome="answered"} 30.0'
            self.assertTrue(wait_until(lambda: counted in gateway.ask("GET", "/metrics").body))
            os.kill(children[1], signal.SIGKILL)
            self.assertTrue(wait_until(lambda: len(self.children(gateway)) == 3 and children[1] not in self.children(gateway)))
            self.assertTrue(wait_until(lambda: self.children(gateway)[-1] not in children))
            self.assertIn(counted, gateway.ask("GET", "/metrics").body)
            status, said = gateway.end()
            self.assertEqual(status, 0)
            self.assertEqual(said.decode(), f"lost-gateway: process {children[1]} ended; another takes its place\n")

    def test_where_the_first_process_is_killed_the_others_end(self) -> None:
        with StandIn(echo) as server, Gateway(server.address, "--processes", "2") as gateway:
            children = self.children(gateway)
            gateway.end(signal.SIGKILL)
            self.assertTrue(wait_until(lambda: not any(os.path.exists(f"/proc/{child}") for child in children)))


@unittest.skipUnless(os.access(PYTHON, os.X_OK), f"there is no {PYTHON}")
class CommandLine(unittest.TestCase):
    """Mistakes, and what is missing."""

    def run_gateway(self, *words: str) -> Tuple[int, str, str]:
        return run_tool("lost-gateway", words)

    def test_mistakes_are_status_2(self) -> None:
        good = ["--listen", "127.0.0.1:0", "--lostd", "127.0.0.1:1"]
        for words in (
            [], good[:2], good[2:], ["--listen", "x", *good[2:]], [*good[:2], "--lostd", "a:1,b"], [*good[:2], "--lostd", "a:0"],
            [*good, "--pool", "0"], [*good, "--pool", "x"], [*good, "--processes", "0"], [*good, "--timeout", "0"],
            [*good, "--timeout", "nan"], [*good, "--area", "x"], [*good, "--alias", "urn:x"], [*good, "--alias", "=urn:x"],
            [*good, "word"],
        ):  # fmt: skip
            self.assertEqual(self.run_gateway(*words)[0], 2, words)

    def test_help_says_what_to_install(self) -> None:
        status, output, _ = self.run_gateway("--help")
        self.assertEqual(status, 0)
        self.assertIn("apt-get install python3-lxml python3-aiohttp python3-prometheus-client", output)

    def test_a_missing_package_is_said_in_one_line(self) -> None:
        command = [PYTHON, "-S", f"{TOOLS}/lost-gateway", "--listen", "127.0.0.1:0", "--lostd", "127.0.0.1:1"]
        ran = subprocess.run(command, capture_output=True, timeout=60)
        install = "apt-get install python3-lxml python3-aiohttp python3-prometheus-client"
        said = f"lost-gateway: /usr/bin/python3 lacks the module lxml: {install}\n"
        self.assertEqual((ran.returncode, ran.stdout, ran.stderr.decode()), (1, b"", said))

    @unittest.skipUnless(has_packages(), NEEDS)
    def test_what_cannot_be_used_is_status_1(self) -> None:
        with socket.create_server(("127.0.0.1", 0)) as taken:
            used = "127.0.0.1:{}".format(taken.getsockname()[1])
            for words in (["--listen", used], ["--listen", "192.0.2.1:80"], ["--listen", "127.0.0.1:0", "--log", "/no/such/file"]):
                status, output, said = self.run_gateway(*words, "--lostd", "127.0.0.1:1")
                self.assertEqual((status, output), (1, ""), words)
                self.assertRegex(said, r"\Alost-gateway: .*\n\Z")
