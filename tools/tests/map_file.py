"""What the tests of `lost-client desk --sync` share: a map file, and a server in a thread that keeps to the rules."""
from __future__ import annotations

import json
import tempfile
import unittest
from typing import Any, Dict, List, Optional, Tuple

from maptools.digest import map_digest, mapping_digest
from tests.fake_servers import DeskServer
from tests.running import run_tool

COMMIT: Dict[str, Any] = {"commit": {}}


def mapping(name: str, day: int = 1, key: str = "", place: int = 0, **more: Any) -> Dict[str, Any]:
    """A mapping with a square of its own."""
    ring = [[place, 0], [place, 10], [place + 10, 10], [place + 10, 0], [place, 0]]
    return {
        "source": "map.example", "sourceId": name, "lastUpdated": f"2025-12-{day:02}T00:00:00Z", "expires": "NO-EXPIRATION",
        "service": "urn:service:sos.police", "uri": [f"sip:{name}@map.example"], "key": key or f"{name}-1",
        "serviceBoundary": [{"profile": "geodetic-2d", "polygon": ring}], **more,
    }  # fmt: skip


def withdrawal(name: str, stamp: str) -> Dict[str, Any]:
    """A withdrawal."""
    return {"withdraw": {"lastUpdated": stamp, "source": "map.example", "sourceId": name}}


def published(*mappings: Dict[str, Any]) -> List[Dict[str, Any]]:
    """Desk lines that publish mappings."""
    return [*({"publish": one} for one in mappings), COMMIT]


A, B, C, D = mapping("A"), mapping("B", place=100), mapping("C", place=200), mapping("D", place=300)


class MapFile(unittest.TestCase):
    """A map file that is changed again and again, and synced with a server."""

    def setUp(self) -> None:
        folder = tempfile.TemporaryDirectory()
        self.addCleanup(folder.cleanup)
        self.folder = folder.name
        self.file = f"{self.folder}/map.jsonl"
        self.server = self.new_server("desk.sock")

    def new_server(self, name: str) -> DeskServer:
        """A server at a socket in the folder."""
        server = DeskServer(f"{self.folder}/{name}")
        self.addCleanup(server.close)
        return server

    def write(self, *lines: Any) -> None:
        """Writes the map file."""
        with open(self.file, "w", encoding="utf-8") as file:
            file.writelines(json.dumps(line) + "\n" for line in lines)

    def sync(self, *more: str, server: Optional[DeskServer] = None) -> Tuple[int, str, str]:
        """Syncs; the status, the output, and what is said."""
        address = (server or self.server).address
        return run_tool("lost-client", ["desk", "--sync", self.file, "--server", address, "--timeout", "20", *more])

    def heard(self, server: Optional[DeskServer] = None) -> List[Any]:
        """The lines of the last connection."""
        return [json.loads(line) for line in (server or self.server).heard[-1]]

    def held(self) -> List[Tuple[str, str, Any]]:
        """What the server holds: the sourceId, the day of lastUpdated and the key of each mapping."""
        return [(one["sourceId"], one["lastUpdated"][8:10], one.get("key")) for one in self.server.book.held.values()]

    def digest(self, *mappings: Dict[str, Any]) -> str:
        """The digest of mappings; without any, of those that the server holds."""
        return map_digest(map(mapping_digest, mappings or self.server.book.held.values()))

    @property
    def nothing(self) -> str:
        """How it begins that nothing is sent."""
        return f"{self.server.address}: nothing to send"

    def done(self, edits: str, edition: int) -> str:
        """The summary of a sync."""
        return f"{self.server.address}: {edits}{self.end(edition)}"

    def end(self, edition: int, server: Optional[DeskServer] = None) -> str:
        """How a summary ends."""
        held = (server or self.server).book.held.values()
        return f"; edition {edition}; map {map_digest(map(mapping_digest, held))}\n"

    def check_held(self, *mappings: Dict[str, Any]) -> None:
        """The server holds these mappings, to the letter."""
        self.assertEqual(self.digest(), self.digest(*mappings))
