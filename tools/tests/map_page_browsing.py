"""Pages of map-page for the tests: their maps, and a browser that looks at them."""
from __future__ import annotations

import json
import os
import tempfile
import unittest
from typing import Any, Dict, List, Optional, Tuple

from maptools.page import LEAFLET
from tests.browser import Browser
from tests.running import found_in, question, replay, run_tool

POLICE, FIRE, SOS = "urn:service:sos.police", "urn:service:sos.fire", "urn:service:sos"
COMMIT = '{"commit":{}}\n'
LOW, HIGH = 0, 10_000_000
PATIENCE = 60


def square(south: int, west: int, north: int, east: int) -> List[List[int]]:
    """A closed ring of four corners."""
    return [[south, west], [south, east], [north, east], [north, west], [south, west]]


def mapping(name: str, service: str, *rings: List[List[int]], **more: Any) -> Dict[str, Any]:
    """A mapping; a default where it has no ring."""
    regions = [{"profile": "geodetic-2d", "polygon": ring} for ring in rings]
    boundary = {"serviceBoundary": regions, "key": f"{name}-1"} if regions else {"default": True}
    return {
        "source": "map.example", "sourceId": name, "lastUpdated": "2026-01-01T00:00:00Z", "expires": "NO-EXPIRATION",
        "service": service, "uri": [f"sip:{name}@map.example"], **boundary, **more,
    }  # fmt: skip


def published(*mappings: Dict[str, Any]) -> str:
    """Desk lines that publish mappings."""
    return "".join(json.dumps({"publish": one}) + "\n" for one in mappings) + COMMIT


# Two districts side by side, a third above both in an S, one that reaches the pole and the 180th meridian, one whose name would
# be markup, another service, one that has expired, and a default.
MARKUP = "<img src=x onerror=alert(1)></script>"
MAP = published(
    mapping("west", POLICE, square(0, 0, HIGH, HIGH), displayName=[{"lang": "en", "text": "West Side"}]),
    mapping("east", POLICE, square(0, HIGH, HIGH, 2 * HIGH), displayName=[{"lang": "en", "text": MARKUP}], serviceNumber="110"),
    mapping("crooked", POLICE, [[HIGH, 0], [HIGH, 2 * HIGH], [2 * HIGH, HIGH], [3 * HIGH, 2 * HIGH], [3 * HIGH, 0], [2 * HIGH, HIGH // 2], [HIGH, 0]]),
    mapping("far", POLICE, square(880_000_000, 1_790_000_000, 900_000_000, 1_800_000_000), square(880_000_000, -1_800_000_000, 900_000_000, -1_790_000_000)),
    mapping("fire", FIRE, square(0, 0, HIGH, 2 * HIGH)),
    mapping("gone", FIRE, square(HIGH, 0, 2 * HIGH, HIGH), expires="2026-01-02T00:00:00Z"),
    mapping("state", SOS),
)

has_leaflet = os.path.isdir(LEAFLET)


def units(text: str) -> int:
    """Degrees of the page in whole units."""
    return round(float(text) * 1e7)


class InBrowser(unittest.TestCase):
    """A browser, and what its page shows."""

    page: Browser
    folder: Any

    @classmethod
    def setUpClass(cls) -> None:
        cls.folder = tempfile.TemporaryDirectory()
        cls.page = Browser()

    @classmethod
    def tearDownClass(cls) -> None:
        cls.page.close()
        cls.folder.cleanup()

    def path(self, name: str, text: str) -> str:
        """The path of a file with a text."""
        path = f"{self.folder.name}/{name}"
        with open(path, "w", encoding="utf-8") as file:
            file.write(text)
        return path

    def open(self, lines: str = MAP, *words: str) -> None:
        """Opens the page of a map."""
        _, page, said = run_tool("map-page", [self.path("county.jsonl", lines), *(words or ["--no-findings"])])
        self.assertEqual(said, "")
        self.page.go(f"file://{self.path('county.html', page)}")

    def asked(self) -> Tuple[int, int, str]:
        """The point and the service that the page shows the answer to."""
        text = self.page.text("#asked")
        service, _, place = text.partition(" at ")
        latitude, longitude = place.rstrip(". ").split(". ")[0].split(", ")
        return units(latitude), units(longitude), service

    def named(self) -> List[str]:
        """The sourceIds of the mappings that the page names."""
        rows = self.page.run("[...document.querySelectorAll('#answer dl')].map((rows) => [...rows.querySelectorAll('dt')]"
                             ".find((word) => word.textContent === 'mapping').nextSibling.textContent)")  # fmt: skip
        return [row.partition(" ")[2] for row in rows]

    def look_at(self, seen: List[Any]) -> None:
        """Keeps what the page asked and answered."""
        seen.append((self.asked(), self.named(), self.page.text("#headline"), self.page.text("#answer")))

    def compare(self, seen: List[Any], lines: str = MAP) -> None:
        """What the page answered is what lostd answers."""
        replies = replay(lines + "".join(question(*asked) for asked, *_ in seen))[-len(seen) :]
        for (asked, names, headline, answer), reply in zip(seen, replies):
            self.assertEqual(names, found_in(reply), asked)
            error = reply.get("errors", {}).get("error", "answer")
            self.assertIn(error, headline, asked)
            for warning in reply.get("findServiceResponse", {}).get("warnings", []):
                self.assertIn(warning, answer, asked)

    def ask(self, point: str, service: Optional[str] = None) -> None:
        """Asks for a typed point."""
        for name, text in (("service", service), ("point", point)):
            if text is not None:
                self.page.run(f"document.getElementById('{name}').value = ''; document.getElementById('{name}').focus()")
                self.page.type(text)
        self.page.press("Enter")
