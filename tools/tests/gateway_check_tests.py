"""Tests `lost-gateway --check`: what is said of each request of a file."""
from __future__ import annotations

import os
import subprocess
import tempfile
import unittest
from typing import List, Tuple

from tests.gateway_places_tests import circle, located
from tests.gateway_running import NOT_FOUND, PYTHON, StandIn, has_packages
from tests.lost_client_tests import free_address
from tests.running import TOOLS, run_tool

LIST = '<listServices xmlns="urn:ietf:params:xml:ns:lost1"><path><via source="{}"/></path></listServices>'
POINT = located("<gml:Point><gml:pos>1 2</gml:pos></gml:Point>")
POINT_LINE = '{"findService":{"location":[{"id":"p","pos":[10000000,20000000],"profile":"geodetic-2d"}],"service":"urn:service:sos"}}'


@unittest.skipUnless(has_packages(), "the packages of Debian that the gateway needs are missing")
class Checked(unittest.TestCase):
    """Files of requests."""

    def check(self, text: str, *words: str) -> Tuple[int, List[str], str]:
        """The status, the lines of output and what is said on standard error."""
        with tempfile.TemporaryDirectory() as folder:
            path = f"{folder}/requests.xml"
            with open(path, "w", encoding="utf-8") as file:
                file.write(text)
            status, output, said = run_tool("lost-gateway", ["--check", path, *words])
            return status, output.splitlines(), said.replace(path, "FILE")

    def test_what_each_is_sent_as(self) -> None:
        declared = f'<?xml version="1.0"?>\n{LIST.format("c.d")}'
        text = f"{LIST.format('a.b')}\n\n<!-- the next --> {POINT}{declared}\n{declared}<find/>"
        self.assertEqual(self.check(text), (3, [
            "request 1, line 1: listServices", '  would send  {"listServices":{"path":["a.b"]}}',
            "request 2, line 3: findService", f"  would send  {POINT_LINE}",
            "request 3, line 3: listServices", '  would send  {"listServices":{"path":["c.d"]}}',
            "request 4, line 5: listServices", '  would send  {"listServices":{"path":["c.d"]}}',
            "request 5, line 6: refused", "  badRequest  the outermost element is find of no namespace; a request is findService, "
            "listServicesByLocation, listServices or getServiceBoundary of urn:ietf:params:xml:ns:lost1",
        ], ""))  # fmt: skip

    def test_what_comes_back_and_what_the_client_is_told(self) -> None:
        with StandIn() as server:
            status, lines, _ = self.check(POINT, "--lostd", server.address)
        message = "location 1 (id 'p'): no mapping of 'urn:service:sos' or of a service above it holds it, and no default stands in"
        error = f'<notFound message="{message}" xml:lang="en"/>'
        told = f'<errors xmlns="urn:ietf:params:xml:ns:lost1" source="lost.example">{error}</errors>'
        wanted = [f"  sent        {POINT_LINE}", f"  came back   {NOT_FOUND.decode()}", f"  told        {told}"]
        self.assertEqual((status, lines), (0, ["request 1, line 1: findService", *wanted]))

    def test_a_document_that_is_none_does_not_hide_the_next_one(self) -> None:
        status, lines, _ = self.check(f'<find<\n<?xml version="1.0"?>{POINT}')
        self.assertEqual((status, lines[0], lines[2:]), (3, "request 1, line 1: refused", [
            "request 2, line 2: findService", f"  would send  {POINT_LINE}"]))  # fmt: skip
        self.assertIn("no XML", lines[1])

    def test_an_area_is_sent_as_several_lines(self) -> None:
        shape = located(circle("1 2"))
        self.assertIn("for each of some points of the Circle", self.check(shape)[1][1])
        with StandIn() as server:
            lines = self.check(shape, "--lostd", server.address)[1]
            self.assertEqual(sum(line.startswith("  sent ") for line in lines), len(server.got))
            self.assertGreater(len(server.got), 5)
        self.assertTrue(self.check(shape, "--area", "centre")[1][1].startswith("  would send  {"))

    def test_mistakes(self) -> None:
        self.assertEqual(self.check("")[0::2], (3, "lost-gateway: FILE: no request in it\n"))
        self.assertEqual(self.check(POINT, "--lostd", free_address())[0], 1)
        self.assertEqual(run_tool("lost-gateway", ["--check", "/no/such/file"])[0], 1)
        self.assertEqual(run_tool("lost-gateway", ["--check", "x", "--listen", "127.0.0.1:0"])[0], 2)
        self.assertEqual(run_tool("lost-gateway", ["--check", "-"], POINT)[:2], (0, f"request 1, line 1: findService\n  would send  {POINT_LINE}\n"))

    def test_without_shapely_it_is_said_and_areas_are_asked_for_at_their_centre(self) -> None:
        with tempfile.TemporaryDirectory() as folder:
            os.mkdir(f"{folder}/shapely")
            with open(f"{folder}/shapely/__init__.py", "w", encoding="ascii") as file:
                file.write("raise ImportError\n")
            given = {**os.environ, "PYTHONPATH": folder}
            command = [PYTHON, f"{TOOLS}/lost-gateway", "--check", "-"]
            ran = subprocess.run(command, input=located(circle("1 2")).encode(), capture_output=True, timeout=60, env=given)
        install = "apt-get install python3-shapely"
        self.assertEqual(ran.stderr.decode(), f"lost-gateway: without shapely an area gets the mapping at its centre: {install}\n")
        self.assertIn(b'would send  {"findService":{"location":[{"id":"p","pos":[10000000,20000000]', ran.stdout)
