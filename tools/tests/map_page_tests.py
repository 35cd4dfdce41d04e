"""tools/map-page: the command; and its page in a headless Chromium, each click compared with what lostd answers."""
from __future__ import annotations

import base64
import json
import tempfile
import time
import unittest
from typing import Any, List

from tests.browser import browser
from tests.map_checking import has_shapely
from tests.map_page_browsing import (
    FIRE, HIGH, MAP, MARKUP, POLICE, SOS, InBrowser, has_leaflet, mapping, published, square,
)  # fmt: skip
from tests.running import lostd, run_tool
from tests.server import FREE

FINDINGS = {
    "findings": [
        {"kind": "gap", "severity": "error", "service": POLICE, "identities": [{"source": "map.example", "sourceId": "west"}],
         "point": [2.5, 0.1], "answer": "notFound", "text": "a gap between west and crooked", "area_m2": 5.0, "width_m": 1.0},
        {"kind": "name", "severity": "note", "service": FIRE, "identities": [{"source": "map.example", "sourceId": "fire"}],
         "point": None, "answer": None, "text": "fire has no display name", "area_m2": None, "width_m": None},
    ],
    "counts": {"error": 1, "warning": 0, "note": 1},
}  # fmt: skip


@unittest.skipUnless(has_leaflet, "libjs-leaflet is not there")
class Command(unittest.TestCase):
    """What the command writes and says."""

    def setUp(self) -> None:
        folder = tempfile.TemporaryDirectory()
        self.addCleanup(folder.cleanup)
        self.file = f"{folder.name}/county.jsonl"
        self.write(MAP)

    def write(self, text: str) -> None:
        """Writes the file of the map."""
        with open(self.file, "w", encoding="utf-8") as file:
            file.write(text)

    def test_the_page_stands_alone_and_lets_only_its_own_scripts_run(self) -> None:
        status, page, said = run_tool("map-page", ["--no-findings", self.file, "--title", "A & B <C>"])
        self.assertEqual((status, said), (0, ""))
        self.assertIn("<title>A &amp; B &lt;C&gt;</title>", page)
        self.assertNotIn("src=", page.partition("<body>")[0])
        self.assertNotRegex(page.partition('id="data">')[0], r"https?://(?!leafletjs)")
        self.assertIn("script-src 'sha256-", page)
        self.assertEqual(page.count("<script"), 3)
        self.assertEqual(run_tool("map-page", ["--no-findings", self.file, "--title", "A & B <C>"])[1], page)

    def test_what_is_refused_is_named_and_left_out(self) -> None:
        self.write(MAP + "nonsense\n" + published(mapping("west", POLICE, square(0, 0, 5, 5))))
        status, page, said = run_tool("map-page", ["--no-findings", self.file])
        lines = [f"map-page: {self.file}, line 9: not a line that the server knows",
                 f"map-page: {self.file}, line 10: refused with code 13, IdentityHeld: map.example west is held"]  # fmt: skip
        self.assertEqual((status, said.splitlines()), (3, lines))
        self.assertIn("</html>", page)

    def test_mistakes(self) -> None:
        self.assertEqual(run_tool("map-page", ["--help"])[0], 0)
        self.assertEqual(run_tool("map-page", ["--no-findings", "/no/such/file"])[0], 1)
        for words in ([], ["--status", FREE, self.file], ["--serve", FREE, self.file], ["--lostd", FREE, self.file], ["--serve", "x", "--lostd", "127.0.0.1:1", self.file]):
            self.assertEqual(run_tool("map-page", words)[0], 2, words)


@unittest.skipUnless(has_leaflet, "libjs-leaflet is not there")
@unittest.skipUnless(browser(), "Chromium is not there")
@unittest.skipUnless(lostd(), "lostd is not built")
class Page(InBrowser):
    """The page of a map in a file."""

    def go_to(self, name: str) -> None:
        """Goes to a mapping by the search."""
        self.page.run("document.getElementById('search').value = ''; document.getElementById('search').focus()")
        self.page.type(name)
        self.page.run("document.querySelector('#results button').click()")

    def test_each_click_answers_as_lostd_does(self) -> None:
        self.open()
        self.go_to("west")
        seen: List[Any] = []
        for turn in (0, 120, 120, 120):
            if turn:
                self.page.wheel(400, 420, turn)
                time.sleep(0.6)
            for x, y in ((400, 420), (120, 130), (700, 300), (390, 700), (401, 421), (200, 700), (740, 100)):
                before = self.page.text("#asked")
                self.page.click(x, y)
                self.page.wait_for(lambda: self.page.text("#asked") != before)
                self.look_at(seen)
        self.assertEqual(len({asked for asked, *_ in seen}), len(seen))
        self.assertGreaterEqual(len({tuple(names) for _, names, *_ in seen}), 3)
        self.compare(seen)
        self.assertEqual(self.page.faults(), [])

    def test_points_on_edges_and_corners_at_the_pole_and_the_meridian(self) -> None:
        self.open()
        seen: List[Any] = []
        points = ["0, 0", "0, 1", "1, 0", "0.5, 1", "0.5, 0.9999999", "1, 1", "1, 2", "2, 1", "1.5, 0.25", "90, 180", "90, -180", "89, 180",
                  "89, -180", "90, 0", "-90, -180", "88, 179", "88, -179", "2.5 1.2"]  # fmt: skip
        for service in (POLICE, FIRE, "urn:service:sos.police.harbour", SOS, "urn:service:counseling"):
            for point in points:
                self.ask(point, service)
                self.look_at(seen)
        self.compare(seen)
        self.assertEqual(len(seen), 90)
        self.ask("0.5, 1", POLICE)
        self.assertIn("It is a lower or left edge, which belongs to it", self.page.text("#answer"))
        self.assertIn("It is an upper or right edge, which does not belong to it", self.page.text("#answer"))
        self.ask("91, 0")
        self.assertIn("Give a latitude and a longitude", self.page.text("#headline"))
        self.ask("1, 1", "police")
        self.assertIn("no service URN", self.page.text("#headline"))
        self.assertEqual(self.page.faults(), [])

    def test_the_keys_move_zoom_and_ask(self) -> None:
        self.open()
        self.ask("0.5, 0.5", POLICE)
        self.page.run("document.getElementById('map').focus()")
        seen: List[Any] = []
        for keys in (["Enter"], ["ArrowLeft", "Enter"], ["ArrowDown", "ArrowDown", "Enter"], ["+", "+", "Enter"], ["ArrowUp", "Enter"]):
            before = self.page.text("#asked")
            for key in keys:
                self.page.press(key)
                time.sleep(0.5)
            self.page.wait_for(lambda: self.page.text("#asked") != before or keys == ["+", "+", "Enter"])
            self.look_at(seen)
        self.compare(seen)
        (first, *_), (left, *_), (down, *_), _, (up, *_) = seen
        self.assertLess(abs(first[0] - left[0]), HIGH)
        self.assertGreater(first[1], left[1])
        self.assertLess(down[0], left[0])
        self.assertLess(up[0] - down[0], left[0] - down[0])
        self.assertGreater(up[0], down[0])

    def test_the_mouse_and_fingers_move_zoom_and_ask(self) -> None:
        self.open()
        seen: List[Any] = []
        self.page.click(400, 400)
        self.page.wait_for(lambda: self.page.text("#asked"))
        self.look_at(seen)
        self.page.drag(400, 400, 300, 440)
        self.page.click(300, 440)
        # (where the mouse is now was 50 degrees farther west; on a busy machine the map stays a step of the mouse behind)
        self.page.wait_for(lambda: abs(self.asked()[1] - seen[0][0][1]) < 20 * HIGH)
        scale = self.page.text(".leaflet-control-scale-line")
        self.page.send("Emulation.setTouchEmulationEnabled", enabled=True)
        self.page.touch("touchStart", (350, 400), (450, 400))
        for step in range(1, 9):
            self.page.touch("touchMove", (350 - 20 * step, 400), (450 + 20 * step, 400))
            time.sleep(0.03)
        self.page.touch("touchEnd")
        self.page.wait_for(lambda: self.page.text(".leaflet-control-scale-line") != scale)
        before = self.page.text("#asked")
        time.sleep(0.5)
        self.page.touch("touchStart", (500, 500))
        self.page.touch("touchEnd")
        self.page.wait_for(lambda: self.page.text("#asked") != before)
        self.look_at(seen)
        self.page.send("Emulation.setTouchEmulationEnabled", enabled=False)
        self.compare(seen)
        self.assertEqual(self.page.faults(), [])

    def colors(self) -> int:
        """How many dots of the tiles have a color, once they are drawn."""
        count = ("[...document.querySelectorAll('canvas.leaflet-tile')].map((tile) => tile.getContext('2d')"
                 ".getImageData(0, 0, tile.width, tile.height).data.filter((byte, at) => at % 4 === 3 && byte).length)"
                 ".reduce((sum, next) => sum + next, 0)")  # fmt: skip
        counts = [-1, -2]
        while counts[-1] != counts[-2]:
            time.sleep(1)
            counts.append(int(self.page.run(count)))
        return counts[-1]

    def test_services_are_drawn_and_districts_found(self) -> None:
        self.open(published(mapping("west", POLICE, square(0, 0, HIGH, HIGH)), mapping("fire", FIRE, square(0, HIGH, HIGH, 2 * HIGH)), mapping("state", SOS)))
        self.assertEqual([line.strip() for line in self.page.text("#drawn").splitlines() if line.strip()],
                         ["sos 1 mapping", "sos.fire 1 mapping", "sos.police 1 mapping"])  # fmt: skip
        one = self.colors()
        self.page.run("document.querySelectorAll('#drawn input')[1].click()")
        both = self.colors()
        self.page.run("document.querySelectorAll('#drawn input')[2].click()")
        self.assertTrue(0 < one < both and 0 < self.colors() < both, (one, both))
        for text, found in (("WES", ["west"]), ("sip:fire@", ["fire"]), ("map.example", ["west", "fire", "state"]), ("nobody", [])):
            self.page.run("document.getElementById('search').focus(); document.getElementById('search').value = ''")
            self.page.type(text)
            self.assertEqual([line.split()[0] for line in self.page.text("#results").splitlines()], found)
            self.assertIn(f"{len(found)} mapping", self.page.text("#found"))
        self.go_to("fire")
        self.assertIn("sip:fire@map.example", self.page.text("#answer"))
        self.assertEqual(self.page.faults(), [])

    def test_findings_are_listed_drawn_and_visited(self) -> None:
        self.open(MAP, "--findings", self.path("findings.json", json.dumps(FINDINGS)))
        self.assertEqual(self.page.text("#findings-note"), "1 error, 1 note.")
        listed = self.page.text("#findings").splitlines()
        self.assertEqual(listed, ["error: a gap between west and crooked notFound", "note: fire has no display name"])
        self.page.run("document.querySelectorAll('#findings button')[0].click()")
        self.page.wait_for(lambda: self.page.text("#asked"))
        seen: List[Any] = []
        self.look_at(seen)
        self.assertEqual(seen[0][0], (25_000_000, 1_000_000, POLICE))
        self.compare(seen)
        self.page.run("document.querySelectorAll('#findings button')[1].click()")
        self.assertIn("sip:fire@map.example", self.page.text("#answer"))
        self.assertEqual(self.page.faults(), [])

    def test_a_finding_that_is_a_point_is_a_dot(self) -> None:
        if not has_shapely():
            self.skipTest("map-check needs python3-shapely")
        bow = [[0, 0], [HIGH, HIGH], [HIGH, 0], [0, HIGH], [0, 0]]
        self.open(json.dumps({"publish": mapping("bow", POLICE, bow)}) + '\n{"commit":{}}\n', "--title", "A bow tie")
        self.assertIn("crosses itself", self.page.text("#findings"))
        self.assertEqual(self.page.run("document.querySelectorAll('#map img').length"), 0)
        self.assertEqual(self.page.faults(), [])

    def test_texts_of_the_map_are_never_markup(self) -> None:
        self.open()
        self.ask("0.5, 1.5", POLICE)
        self.assertEqual(self.page.text("#headline"), f"{MARKUP} answers.")
        self.page.run("document.getElementById('search').focus()")
        self.page.type("<img")
        self.assertIn(MARKUP, self.page.text("#results"))
        self.assertEqual(self.page.run("document.querySelectorAll('#panel img').length"), 0)
        self.assertEqual(self.page.faults(), [])
        asked = [event["params"]["request"]["url"] for event in self.page.events if event.get("method") == "Network.requestWillBeSent"]
        self.assertEqual([url for url in asked if not url.startswith(("file:", "data:"))], [])

    def test_screen_readers_have_names_for_all_controls(self) -> None:
        self.open(MAP, "--findings", self.path("findings.json", json.dumps(FINDINGS)))
        nodes = self.page.send("Accessibility.getFullAXTree")["nodes"]
        roles = {"button", "textbox", "searchbox", "combobox", "checkbox", "link", "application"}
        named = [(node["role"]["value"], node.get("name", {}).get("value", "")) for node in nodes if node.get("role", {}).get("value") in roles]
        self.assertEqual([role for role, name in named if not name.strip()], [])
        self.assertLessEqual({"button", "searchbox", "combobox", "checkbox", "link", "application"}, {role for role, _ in named})
        self.assertEqual(self.page.run("document.getElementById('answer').getAttribute('aria-live')"), "polite")
        self.assertEqual(self.page.run("document.documentElement.lang"), "en")

    def test_it_prints_the_map_and_the_answer(self) -> None:
        self.open()
        self.go_to("west")
        self.ask("0.5, 0.5", POLICE)
        printed = base64.b64decode(self.page.send("Page.printToPDF")["data"])
        self.assertEqual(printed[:5], b"%PDF-")
        drawn = "(() => { const canvas = document.querySelector('#print canvas'); return canvas && canvas.getContext('2d')" \
                ".getImageData(0, 0, canvas.width, canvas.height).data.filter((byte, at) => at % 4 === 3 && byte).length })()"  # fmt: skip
        self.assertGreater(self.page.run(drawn), 100_000)
        self.page.send("Emulation.setEmulatedMedia", media="print")
        shown = "(id) => getComputedStyle(document.getElementById(id)).display !== 'none'"
        self.assertEqual([self.page.run(f"({shown})('{name}')") for name in ("print", "answer", "map", "ask")], [True, True, False, False])
        self.page.send("Emulation.setEmulatedMedia", media="")
