"""Tests what becomes of requests when the servers behind are slow, silent or gone, and that many share few connections."""
from __future__ import annotations

import asyncio
import json
import socket
import threading
import time
import unittest
from typing import List, Optional

from gateway.connection import Connection
from tests.gateway_running import MEDIA_TYPE, NAMED, SILENCE, Gateway, StandIn, ask_over, has_packages, invalid_of, wait_until
from tests.lost_client_tests import free_address

LIST = '<listServices xmlns="urn:ietf:params:xml:ns:lost1"><path><via source="{}"/></path></listServices>'
QUESTION = LIST.format("a.b")


def echo(line: bytes) -> bytes:
    """A reply whose path is that of the request."""
    path = json.loads(line)["listServices"]["path"]
    return json.dumps({"listServicesResponse": {"edition": 1, "path": path, "serviceList": []}}).encode()


def slowly(line: bytes) -> bytes:
    """The same, after a while."""
    time.sleep(0.5)
    return echo(line)


class Transport:
    """Keeps what is sent."""

    def __init__(self) -> None:
        self.sent = b""

    def write(self, data: bytes) -> None:
        """Sends."""
        self.sent += data

    def is_closing(self) -> bool:
        """It stays open."""
        return False


class Lines(unittest.TestCase):
    """One connection to a server behind, without a network."""

    async def send_a_hundred(self) -> List[int]:
        """How many lines were sent at first, after one reply, and after ten more."""
        transport, connection = Transport(), Connection(2, lambda one: None)
        connection.connection_made(transport)
        replies = [connection.ask(b"%d\n" % number) for number in range(100)]
        counts, told = [], 0
        for count in (0, 1, 10, 89):
            connection.data_received(b"".join(b"%d\n" % number for number in range(told, told + count)))
            await asyncio.sleep(0)
            told += count
            counts.append(transport.sent.count(b"\n"))
        self.assertEqual([await one for one in replies], [b"%d" % number for number in range(100)])
        self.assertEqual(transport.sent, b"".join(b"%d\n" % number for number in range(100)))
        return counts

    def test_64_lines_at_most_are_on_their_way(self) -> None:
        self.assertEqual(asyncio.run(self.send_a_hundred()), [64, 65, 75, 100])


@unittest.skipUnless(has_packages(), "the packages of Debian that the gateway needs are missing")
class Servers(unittest.TestCase):
    """What clients are told. It is never another status than 200."""

    def outcome(self, gateway: Gateway) -> str:
        """The outcome of a question."""
        answer = gateway.post(QUESTION)
        self.assertEqual(answer.status, 200)
        return answer.outcome()

    def test_nobody_listens(self) -> None:
        with Gateway(free_address()) as gateway:
            self.assertEqual(self.outcome(gateway), "serverTimeout")
            self.assertEqual(gateway.ask("GET", "/health").status, 503)
            self.assertIn(b'source="gateway.invalid"', gateway.post(QUESTION).body)
        with Gateway(f"{free_address()},{free_address()}", "--name", "gw.example") as gateway:
            self.assertEqual(self.outcome(gateway), "serverTimeout")
            self.assertIn(b'source="gw.example"', gateway.post(QUESTION).body)

    def test_a_server_that_says_nothing(self) -> None:
        with StandIn(lambda line: SILENCE) as server, Gateway(server.address, "--timeout", "0.3") as gateway:
            begun = time.monotonic()
            self.assertEqual(self.outcome(gateway), "serverTimeout")
            self.assertGreaterEqual(time.monotonic() - begun, 0.3)
            self.assertEqual(len(server.got), 1)

    def test_silence_is_counted_from_the_line_and_not_from_an_earlier_one(self) -> None:
        with StandIn(echo) as server, Gateway(server.address, "--timeout", "1", "--pool", "1") as gateway:
            for _ in range(3):
                server.replier = echo
                self.assertEqual(self.outcome(gateway), "listServicesResponse")
                time.sleep(0.75)
                server.replier = slowly
                self.assertEqual(self.outcome(gateway), "listServicesResponse")

    def test_a_reply_that_comes_in_pieces(self) -> None:
        ring = [[number, number * 7 % 1000] for number in range(30_000)]
        regions = [{"polygon": [*ring, ring[0]], "profile": "geodetic-2d"}]
        reply = {"getServiceBoundaryResponse": {"edition": 1, "path": ["lost.example"], "serviceBoundary": regions}}
        with StandIn(lambda line: json.dumps(reply).encode()) as server, Gateway(server.address) as gateway:
            answer = gateway.post('<getServiceBoundary xmlns="urn:ietf:params:xml:ns:lost1" key="k"/>')
            self.assertEqual(answer.body.count(b"<gml:pos>"), 30_001)

    def test_a_server_that_listens_and_takes_nobody(self) -> None:
        with socket.create_server(("127.0.0.1", 0)) as listener:
            with Gateway("127.0.0.1:{}".format(listener.getsockname()[1]), "--timeout", "0.3") as gateway:
                self.assertEqual(self.outcome(gateway), "serverTimeout")

    def test_a_server_that_closes_is_tried_once_more(self) -> None:
        with StandIn(lambda line: None) as server, Gateway(server.address) as gateway:
            self.assertEqual(self.outcome(gateway), "serverError")
            self.assertEqual(len(server.got), 2)
            replies: List[Optional[bytes]] = [None, echo(b'{"listServices":{"path":["a.b"]}}')]
            server.replier = lambda line: replies.pop(0)
            self.assertEqual(self.outcome(gateway), "listServicesResponse")

    def test_half_a_reply(self) -> None:
        with StandIn() as server, Gateway(server.address) as gateway:
            def halves(line: bytes) -> Optional[bytes]:
                server.connections[-1].sendall(b'{"listServicesResponse":{"edition":1,')
                return None

            server.replier = halves
            self.assertEqual(self.outcome(gateway), "serverError")

    def test_a_peer_of_other_lines(self) -> None:
        with StandIn(name=b"220 mail.example ready") as server, Gateway(server.address) as gateway:
            self.assertEqual(self.outcome(gateway), "serverError")
            self.assertEqual(server.got, [])

    def test_the_next_server_is_tried(self) -> None:
        for bad in (lambda line: None, lambda line: SILENCE):
            with StandIn(bad) as first, StandIn(echo) as second:
                with Gateway(f"{first.address},{second.address}", "--timeout", "0.3", "--pool", "1") as gateway:
                    gateway.await_first(first)
                    self.assertEqual(self.outcome(gateway), "listServicesResponse")
                    self.assertEqual((len(first.got), len(second.got)), (1, 1))

    def test_one_try_and_no_more(self) -> None:
        with StandIn(lambda line: None) as first, StandIn(lambda line: None) as second, StandIn(echo) as third:
            with Gateway(",".join(server.address for server in (first, second, third))) as gateway:
                self.assertTrue(wait_until(lambda: all(server.connections for server in (first, second, third))))
                gateway.await_first(first)
                self.assertEqual(self.outcome(gateway), "serverError")
                self.assertEqual([len(server.got) for server in (first, second, third)], [1, 1, 0])

    def test_the_first_server_is_preferred_and_taken_again_when_it_is_back(self) -> None:
        first, second = StandIn(echo), StandIn(echo)
        with second, Gateway(f"{first.address},{second.address}") as gateway:
            gateway.await_first(first)
            self.assertEqual(self.outcome(gateway), "listServicesResponse")
            self.assertEqual((len(first.got), len(second.got)), (1, 0))
            first.end()
            for _ in range(3):
                self.assertEqual(self.outcome(gateway), "listServicesResponse")
            self.assertEqual(len(second.got), 3)
            with StandIn(echo, port=first.port) as again:
                self.assertTrue(wait_until(lambda: self.outcome(gateway) == "listServicesResponse" and bool(again.got)))
                up = f'lost_server_up{{server="{first.address}"}} 1.0'.encode()
                self.assertTrue(wait_until(lambda: up in gateway.ask("GET", "/metrics").body))
                said = gateway.end()[1].decode()
            self.assertIn(f"lost-gateway: {first.address} does not answer\n", said)
            self.assertIn(f"lost-gateway: {first.address} answers again\n", said)

    def test_a_server_that_is_back_is_found_by_the_next_question(self) -> None:
        address = free_address()
        with Gateway(address) as gateway:
            self.assertEqual(self.outcome(gateway), "serverTimeout")
            with StandIn(echo, port=int(address.rpartition(":")[2])):
                self.assertEqual(self.outcome(gateway), "listServicesResponse")

    def test_connections_that_no_worker_takes_are_not_used(self) -> None:
        """As lostd with one worker: a second connection is accepted, and gets no reply while the first one is there."""
        turn = threading.Lock()
        server = StandIn(echo)
        serve = server.serve
        server.serve = lambda connection: [turn.acquire(), serve(connection), turn.release()]  # type: ignore
        with server, Gateway(server.address, "--pool", "4", "--timeout", "0.5") as gateway:
            begun = time.monotonic()
            for _ in range(20):
                self.assertEqual(self.outcome(gateway), "listServicesResponse")
            self.assertLess(time.monotonic() - begun, 5)

    def test_a_thousand_questions_of_fifty_clients_share_two_connections(self) -> None:
        wrong: List[str] = []

        def client(number: int) -> None:
            connection = gateway.connect()
            for turn in range(20):
                body = LIST.format(f"c{number}.t{turn}")
                answer = ask_over(connection, "POST", "/", body.encode(), {"Content-Type": MEDIA_TYPE})
                if f'source="c{number}.t{turn}"'.encode() not in answer.body:
                    wrong.append(f"{number} {turn} {answer}")
            connection.close()

        with StandIn(echo) as server, Gateway(server.address) as gateway:
            clients = [threading.Thread(target=client, args=(number,)) for number in range(50)]
            for thread in clients:
                thread.start()
            for thread in clients:
                thread.join()
            self.assertEqual((wrong, len(server.got)), ([], 1000))
            self.assertLessEqual(len(server.connections), 2)

    def test_lines_wait_behind_one_another_on_one_connection(self) -> None:
        with StandIn(slowly) as server, Gateway(server.address, "--pool", "1") as gateway:
            threads = [threading.Thread(target=gateway.post, args=(QUESTION,)) for _ in range(3)]
            for thread in threads:
                thread.start()
            self.assertTrue(wait_until(lambda: len(server.got) == 3))
            for thread in threads:
                thread.join()
            self.assertEqual(len(server.connections), 1)

    def test_the_own_name_is_learned(self) -> None:
        name = NAMED.replace(b"lost.example", b"other.example")
        with StandIn(lambda line: b'{"errors":{"error":"badRequest"}}', name) as server, Gateway(server.address) as gateway:
            self.assertIn(b'source="other.example"', gateway.post(QUESTION).body)

    @classmethod
    def tearDownClass(cls) -> None:
        wrong = invalid_of(Gateway.seen)
        if wrong:
            raise AssertionError(f"not valid by lost.rng: {wrong}")
