"""Tests that the gateway's log tells what the servers were asked, and that the server's log of answers has the same lines."""
from __future__ import annotations

import contextlib
import json
import os
import re
import subprocess
import tempfile
import time
import unittest
from typing import Any, Dict, List, Optional

from tests.gateway_areas_tests import MAP, area
from tests.gateway_places_tests import located
from tests.gateway_running import QUESTION, SILENCE, Gateway, StandIn, has_packages, has_shapely, wait_until
from tests.gateway_servers_tests import LIST, echo
from tests.running import TOP, lostd, serve_has
from tests.server import READY, Server
from tests.serving_tests import free_port

TIME = re.compile(r"[0-9]{4}-[0-9]{2}-[0-9]{2}T[0-9]{2}:[0-9]{2}:[0-9]{2}\.[0-9]{9}Z")
SECTION = re.compile(r"### From a query to the server's answer\n.*?```sh\n(.*?)```\n", re.DOTALL)
POINT = '<Point xmlns="http://www.opengis.net/gml"><pos>0.5 {}</pos></Point>'
ASKED = '{"listServices":{"path":["a.b"]}}'


class Logging(unittest.TestCase):
    """A folder for logs."""

    def setUp(self) -> None:
        folder = tempfile.TemporaryDirectory()
        self.addCleanup(folder.cleanup)
        self.folder = folder.name
        self.log = f"{self.folder}/queries.jsonl"

    def gateway(self, servers: str, *words: str) -> Gateway:
        """A gateway with a log."""
        return Gateway(servers, "--log", self.log, *words)

    def noted(self) -> List[Dict[str, Any]]:
        """The queries in the log."""
        with open(self.log, encoding="utf-8") as file:
            return [json.loads(line) for line in file]


@unittest.skipUnless(has_packages(), "the packages of Debian that the gateway needs are missing")
class Asked(Logging):
    """What is noted of the lines that servers are asked."""

    def check(self, one: Dict[str, Optional[str]], server: str, is_answered: bool = True) -> None:
        """What is noted of one line."""
        self.assertEqual(list(one), ["server", "sent", "replied", "request"])
        self.assertEqual((one["server"], one["request"], one["replied"] is not None), (server, ASKED, is_answered))
        times = [moment for moment in (one["sent"], one["replied"]) if moment]
        for moment in times:
            self.assertRegex(moment, TIME)
        self.assertEqual(times, sorted(times))

    def test_each_line_once_and_none_of_the_gateways_own(self) -> None:
        with StandIn(echo) as server, self.gateway(server.address) as gateway:
            for _ in range(2):
                gateway.post(LIST.format("a.b"))
                gateway.ask("GET", "/health")
            gateway.post("no XML")
            *asked, unread = [query["asked"] for query in self.noted()]
            self.assertEqual(([len(lines) for lines in asked], unread), ([1, 1], []))
            for (one,) in asked:
                self.check(one, server.address)
            self.assertNotIn(QUESTION.decode(), str(asked))

    def test_a_server_that_closes_or_is_silent_and_the_next_one(self) -> None:
        for nothing in (None, SILENCE):
            with StandIn(lambda line, nothing=nothing: nothing) as first, StandIn(echo) as second:
                with self.gateway(f"{first.address},{second.address}", "--timeout", "0.5") as gateway:
                    gateway.await_first(first)
                    gateway.post(LIST.format("a.b"))
            one, other = self.noted()[-1]["asked"]
            self.check(one, first.address, is_answered=False)
            self.check(other, second.address)


@unittest.skipUnless(has_packages() and has_shapely() and serve_has("--log"), "the packages of Debian for areas, or lostd with --log, are missing")
class BothLogs(Logging):
    """A server with a log of answers behind the gateway."""

    @contextlib.contextmanager
    def running(self) -> Any:
        """A gateway before a server, both with logs."""
        with open(f"{self.folder}/map.jsonl", "w", encoding="utf-8") as file:
            file.write("".join(json.dumps(line) + "\n" for line in [*MAP, {"commit": {}}]))
        port = free_port()
        words = ["--map", file.name, "--journal", f"{self.folder}/journal.jsonl", "--log", f"{self.folder}/answers.log"]
        with Server([*words, "--queries", f"127.0.0.1:{port}"]) as server:
            self.assertEqual(server.first_line(), READY)
            with self.gateway(f"127.0.0.1:{port}") as gateway:
                yield gateway

    def answered(self) -> List[Dict[str, Any]]:
        """The lines of the server's log."""
        with open(f"{self.folder}/answers.log", encoding="utf-8") as file:
            return [json.loads(line) for line in file]

    def commands(self) -> None:
        """Does what GATEWAY says, with the program that is tested."""
        with open(f"{TOP}/docs/GATEWAY.md", encoding="utf-8") as file:
            found = SECTION.search(file.read())
        assert found
        text = found[1].replace("/tmp/queries.jsonl", "queries.jsonl").replace("lostd audit", f"{lostd()} audit")
        ran = subprocess.run(["sh", "-e"], input=text, cwd=self.folder, capture_output=True, text=True, timeout=60)
        self.assertEqual((ran.returncode, ran.stderr), (0, ""))
        self.assertIn(" differ=0 unjudged=0 ", ran.stdout)

    def found(self) -> List[Dict[str, Any]]:
        """The lines of the server's log for the last query, by what GATEWAY says."""
        self.commands()
        with open(f"{self.folder}/answers.jsonl", encoding="utf-8") as file:
            return [json.loads(line) for line in file]

    def check(self, query: Dict[str, Any], count: int) -> None:
        """The lines of a query are found, and no other."""
        self.assertTrue(wait_until(lambda: {one["request"] for one in query["asked"]} <= {answer["request"] for answer in self.answered()}))
        found = self.found()
        self.assertEqual(sorted(answer["request"] for answer in found), sorted(one["request"] for one in query["asked"]))
        self.assertGreaterEqual(len(found), count)
        self.assertEqual({answer["edition"] for answer in found}, {query["edition"]})

    def test_a_query_is_found_among_others_that_ask_the_same(self) -> None:
        with self.running() as gateway:
            for east in (0.5, 2, 0.5):
                gateway.post(located(POINT.format(east)))
                time.sleep(0.01)
            self.assertTrue(wait_until(lambda: sum("findService" in answer["request"] for answer in self.answered()) == 3))
            self.check(self.noted()[-1], 1)

    def test_all_lines_of_an_area(self) -> None:
        with self.running() as gateway:
            gateway.post(located(area(0.5, 1.7)))
            self.assertTrue(os.path.exists(self.log))
            self.check(self.noted()[-1], 20)
