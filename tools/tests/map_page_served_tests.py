"""tools/map-page --serve in a headless Chromium, beside a running server: its answers, its edition, its digest and its map."""
from __future__ import annotations

import json
import os
import unittest
import urllib.error
import urllib.request
from typing import Any, List, Tuple

from maptools.digest import map_digest, mapping_digest
from tests.browser import browser
from tests.map_page_browsing import COMMIT, HIGH, PATIENCE, POLICE, InBrowser, has_leaflet, mapping, published, square
from tests.running import lostd, start_tool
from tests.server import Server, ask, has_maps, unix


@unittest.skipUnless(has_leaflet, "libjs-leaflet is not there")
@unittest.skipUnless(browser(), "Chromium is not there")
@unittest.skipUnless(lostd(), "lostd is not built")
class Served(InBrowser):
    """The page beside a running server."""

    def serve(self, lines: str) -> Tuple[str, str]:
        """Serves the page of a map that a server holds, too: its address, and the path of the file. The server's desk is desk.sock."""
        path = self.path("served.jsonl", lines)
        for name in ("desk.sock", "ask.sock", "status.sock"):
            if os.path.exists(f"{self.folder.name}/{name}"):
                os.remove(f"{self.folder.name}/{name}")
        words = ["--map", path]
        for option, name in (("--queries", "ask"), ("--desk", "desk"), ("--status", "status")):
            words += [option, f"unix:{self.folder.name}/{name}.sock"]
        server = Server(words)
        self.addCleanup(server.__exit__)
        self.assertEqual(server.first_line(), b"ready\n")
        port = self.free_port()
        lostd_words = ["--lostd", f"unix:{self.folder.name}/ask.sock", "--status", f"unix:{self.folder.name}/status.sock"]
        served = start_tool("map-page", ["--no-findings", path, "--serve", f"127.0.0.1:{port}", *lostd_words])
        self.addCleanup(self.end, served)
        self.assertEqual(served.stdout.readline(), f"ready http://127.0.0.1:{port}/\n".encode())
        return f"http://127.0.0.1:{port}/", path

    def free_port(self) -> int:
        """A port that is free."""
        import socket

        with socket.create_server(("127.0.0.1", 0)) as listener:
            return int(listener.getsockname()[1])

    def end(self, process: Any) -> None:
        """Ends the tool, whose pipes are closed then."""
        process.kill()
        process.wait(PATIENCE)
        for pipe in (process.stdin, process.stdout, process.stderr):
            pipe.close()

    @unittest.skipUnless(has_maps(), "lostd takes no map")
    def test_each_click_asks_the_server_and_a_changed_map_is_shown(self) -> None:
        west = mapping("west", POLICE, square(0, 0, HIGH, HIGH))
        before = published(west)
        address, path = self.serve(before)
        self.page.go(address)
        self.ask("0.5, 0.5", POLICE)
        self.page.wait_for(lambda: self.page.text("#headline") == "west answers.")
        self.assertIn("From the server, edition 1.", self.page.text("#asked"))
        first = map_digest([mapping_digest(west)])
        self.page.wait_for(lambda: self.page.text("#edition").endswith(f"edition 1, digest {first}"))
        self.assertIn(f"Digest {first}.", self.page.text("#about"))
        seen: List[Any] = []
        for x, y in ((400, 420), (20, 700), (600, 300)):
            shown = self.page.text("#asked")
            self.page.click(x, y)
            self.page.wait_for(lambda: self.page.text("#asked") != shown)
            self.look_at(seen)
        self.compare(seen, before)

        # the server's map changes first: the page says that the file has another one; then the file does
        self.ask("0.5, 0.5", POLICE)
        self.page.wait_for(lambda: self.page.text("#headline") == "west answers.")
        newer = mapping("west", POLICE, square(0, 0, HIGH, HIGH // 4), key="west-2", lastUpdated="2026-02-01T00:00:00Z")
        new = mapping("new", POLICE, square(0, HIGH // 4, HIGH, HIGH))
        edits = [json.dumps({"replace": newer}), json.dumps({"publish": new})]
        with unix(f"{self.folder.name}/desk.sock") as desk:
            for line in (*edits, COMMIT.strip()):
                ask(desk, line + "\n")
        self.page.wait_for(lambda: self.page.text("#headline") == "new answers.")
        self.assertIn("The server's map is not that of the file", self.page.text("#answer"))
        later = map_digest(map(mapping_digest, [newer, new]))
        self.page.wait_for(lambda: self.page.text("#edition").endswith(f"edition 3, digest {later}: not the map of this page"))
        with open(path, "a", encoding="utf-8") as file:
            file.write("\n".join(edits) + "\n" + COMMIT)
        self.page.wait_for(lambda: "2 mappings" in self.page.text("#about"))
        self.assertIn(f"Digest {later}.", self.page.text("#about"))
        self.page.wait_for(lambda: self.page.text("#edition").endswith(f"edition 3, digest {later}"))
        self.page.wait_for(lambda: "The point is inside the boundary of new" in self.page.text("#answer"))
        self.assertEqual(self.page.faults(), [])

    def test_what_the_page_is_refused(self) -> None:
        address, _ = self.serve(published(mapping("west", POLICE, square(0, 0, HIGH, HIGH))))
        for path, status in (("nothing", 404), ("answer?latitude=x", 400), ("answer?latitude=900000001&longitude=0&service=x", 400)):
            with self.assertRaises(urllib.error.HTTPError) as caught:
                urllib.request.urlopen(address + path, timeout=PATIENCE)
            self.assertEqual(caught.exception.code, status)
        strange = urllib.request.Request(address, headers={"Host": "elsewhere.example"})
        with self.assertRaises(urllib.error.HTTPError) as caught:
            urllib.request.urlopen(strange, timeout=PATIENCE)
        self.assertEqual(caught.exception.code, 403)
