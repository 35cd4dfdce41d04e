"""The digest of a map: bytes written out by hand, and what makes no difference."""
from __future__ import annotations

import hashlib
import unittest
from typing import Any

from maptools.digest import map_digest, mapping_digest, parts_of
from maptools.flat_rings import read_flat
from maptools.lines import line_of
from tests.map_file import A, B, MapFile, mapping, published
from tests.running import run_tool

LENGTH = "00000000000000"
# A default of the source `m.e`, with all that a default may have, byte by byte.
DEFAULT: Any = {
    "source": "M.E", "sourceId": "é", "lastUpdated": "2025-12-01T00:00:00Z", "expires": "NO-CACHE", "service": "urn:service:SOS",
    "uri": ["sip:a", "tel:1"], "serviceNumber": "1", "default": True, "displayName": [{"lang": "en", "text": ""}],
}  # fmt: skip
BYTES = bytes.fromhex(
    f"{LENGTH}03 6d2e65 {LENGTH}02 c3a9 {LENGTH}14 323032352d31322d30315430303a30303a30305a 00"
    f"{LENGTH}0f 75726e3a736572766963653a736f73 {LENGTH}02 {LENGTH}05 7369703a61 {LENGTH}05 74656c3a31 01 {LENGTH}01 31"
    f"{LENGTH}00 {LENGTH}00 {LENGTH}00 01 {LENGTH}01 {LENGTH}02 656e {LENGTH}00 00"
)
# Digests of mappings that a program of its own computed, for the same mappings with a boundary from 0,0 to 1,1.
SQUARE = {"A": "42fbbfffbb26ff9ca7aa8ffea7ae0b74", "B": "dafaea4fcfde6c81d75d05b84836f735", "both": "1df6aa4f8b056c1e7f0795b6efe502a9"}


def of_regions(*regions: Any, **more: Any) -> Any:
    """A mapping with these regions."""
    return {**A, "serviceBoundary": list(regions), **more}


def with_square(name: str) -> Any:
    """A mapping of one degree by one."""
    one = 10_000_000
    ring = [[0, 0], [0, one], [one, one], [one, 0], [0, 0]]
    return {**mapping(name), "serviceBoundary": [{"profile": "geodetic-2d", "polygon": ring}]}


class Digests(unittest.TestCase):
    """Digests of mappings and of maps."""

    def test_bytes_by_hand(self) -> None:
        self.assertEqual(b"".join(parts_of(DEFAULT)), BYTES)
        self.assertEqual(mapping_digest(DEFAULT), int(hashlib.md5(BYTES).hexdigest(), 16))

    def test_regions_by_hand(self) -> None:
        polygon = {"profile": "geodetic-2d", "polygon": [[-1, 2], [0, 0], "0 -0.0000003", [-1, 2]]}
        value = of_regions({"profile": "x-token", "tokens": ["t", "s"]}, {"profile": "civic", "pattern": {"country": "US", "A1": "NJ"}}, polygon)
        parts = list(parts_of(value))
        self.assertEqual(parts[7].hex(), f"{LENGTH}01{LENGTH}04ffffffff000000020000000000000000" + "00000000fffffffd" + "ffffffff00000002")
        self.assertEqual(parts[8].hex(), f"{LENGTH}01{LENGTH}02{LENGTH}024131{LENGTH}024e4a{LENGTH}07636f756e747279{LENGTH}025553")
        self.assertEqual(parts[9].hex(), f"{LENGTH}01{LENGTH}02{LENGTH}0174{LENGTH}0173")

    def test_digests_of_another_program(self) -> None:
        for name in ("A", "B"):
            self.assertEqual(f"{mapping_digest(with_square(name)):032x}", SQUARE[name])
        self.assertEqual(map_digest(map(mapping_digest, (with_square("A"), with_square("B")))), SQUARE["both"])
        self.assertEqual(map_digest([]), "0" * 32)

    def test_what_makes_no_difference(self) -> None:
        same = {**A, "source": "MAP.example", "service": "URN:service:sos.POLICE", "default": False, "displayName": [], "note": 1}
        self.assertEqual(mapping_digest(same), mapping_digest(A))
        self.assertEqual(mapping_digest(read_flat(line_of({"publish": A}).encode())[1]), mapping_digest(A))
        self.assertEqual(map_digest([mapping_digest(A), mapping_digest(B)]), map_digest([mapping_digest(B), mapping_digest(A)]))

    def test_what_makes_a_difference(self) -> None:
        changes = ({"key": "k"}, {"expires": "NO-CACHE"}, {"lastUpdated": "2025-12-01T00:00:00.0Z"}, {"uri": ["sip:b"]}, {"sourceId": "b"})
        digests = {mapping_digest({**A, **more}) for more in ({}, *changes)}
        self.assertEqual(len(digests), 1 + len(changes))


class ThereAndBack(unittest.TestCase):
    """Through GeoJSON and back it is the same map."""

    def test_there_and_back(self) -> None:
        regions = [{"profile": "civic", "pattern": {"country": "US", "A1": "NJ"}}, {"profile": "x-token", "tokens": ["t", "s"]}]
        names = [{"lang": "en", "text": "A"}, {"lang": "de", "text": "Ä"}]
        default = {key: value for key, value in mapping("S", default=True).items() if key not in ("key", "serviceBoundary")}
        mappings = [{**B, "displayName": names, "serviceNumber": "110"}, of_regions(*A["serviceBoundary"], *regions), default]
        text = "".join(line_of({"publish": one}) + "\n" for one in mappings) + '{"commit":{}}\n'
        status, features, said = run_tool("desk-to-geojson", ["-"], text)
        self.assertEqual((status, said), (0, ""))
        status, lines, said = run_tool("geojson-to-desk", ["--from-desk", "--commit"], features)
        self.assertEqual(status, 0, said)
        back = [read_flat(line.encode())[1] for line in lines.splitlines()[:-1]]
        self.assertEqual(map_digest(map(mapping_digest, back)), map_digest(map(mapping_digest, mappings)))


class OfServer(MapFile):
    """A server's map as GeoJSON."""

    def test_the_map_of_a_server(self) -> None:
        self.write(*published(A, B))
        self.assertEqual(self.sync()[0], 0)
        status, features, said = run_tool("desk-to-geojson", ["--server", self.server.address])
        self.assertEqual((status, said), (0, f"desk-to-geojson: {self.server.address} holds edition 2, map {self.digest(A, B)}\n"))
        status, lines, said = run_tool("geojson-to-desk", ["--from-desk", "--commit"], features)
        self.assertEqual((status, lines.count("publish")), (0, 2), said)
        with open(self.file, "w", encoding="utf-8") as file:
            file.write(lines)
        self.assertEqual(self.sync()[1][: len(self.nothing)], self.nothing)

    def test_mistakes_and_faults(self) -> None:
        self.assertEqual(run_tool("desk-to-geojson", ["--server", self.server.address, self.file])[0], 2)
        self.assertEqual(run_tool("desk-to-geojson", ["--server", "nowhere"])[0], 2)
        self.assertEqual(run_tool("desk-to-geojson", ["--server", f"unix:{self.folder}/none"])[0], 1)
        self.server.lies = "1" * 32
        status, output, said = run_tool("desk-to-geojson", ["--server", self.server.address])
        self.assertEqual((status, output), (1, ""))
        self.assertIn("has the digest 00000000000000000000000000000000, and it says 1111", said)
