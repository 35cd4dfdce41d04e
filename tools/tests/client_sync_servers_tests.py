"""tools/lost-client desk --sync: servers that hold anything, several of them, stamps, and what fails."""
from __future__ import annotations

import json
import os
import re
import socket
from typing import Any, List

from maptools.desk_rules import Book, apply_edit, empty_book
from tests.fake_servers import DeskServer, copy_of, free_address, serve_once
from tests.map_file import COMMIT, A, B, C, D, MapFile, mapping, published
from tests.running import run_tool

NOW = re.compile(r"20[0-9]{2}-[0-9]{2}-[0-9]{2}T[0-9]{2}:[0-9]{2}:[0-9]{2}Z")
STAMPED = {"commit": {"stamp": "now"}}
LATER = "2100-01-01T00:00:00Z"


def book_of(*mappings: Any) -> Book:
    """A book that holds mappings."""
    book = empty_book()
    for one in mappings:
        apply_edit(book, "publish", one)
    return book


def changed(one: Any, **more: Any) -> Any:
    """A mapping with another URI, and perhaps more."""
    return {**one, "uri": ["sip:changed@map.example"], **more}


class Servers(MapFile):
    """Whatever a server holds, it comes to hold what the file says."""

    def test_a_server_that_was_started_anew_or_changed_by_another_desk(self) -> None:
        self.write(*published(A, B))
        for book in (empty_book(), book_of(A), book_of(changed(A, lastUpdated="2025-11-01T00:00:00Z"), C), book_of(D, C, B, A)):
            self.server.book = copy_of(book)
            self.assertEqual(self.sync()[0], 0)
            self.check_held(A, B)
        self.assertEqual(sorted(os.listdir(self.folder)), ["desk.sock", "map.jsonl"])

    def test_the_stamp_of_what_did_not_change_is_the_server_s(self) -> None:
        for held, file in ((1, 2), (2, 1)):
            self.server.book = book_of(mapping("A", held), B)
            self.write(*published(mapping("A", file), B))
            self.assertEqual(self.sync()[1][: len(self.nothing)], self.nothing)
            self.check_held(mapping("A", held), B)

    def test_several_servers(self) -> None:
        other, third = self.new_server("other.sock"), self.new_server("third.sock")
        other.book, third.book = book_of(A, C), book_of(A, B)
        self.write(*published(A, B))
        status, output, said = self.sync("--server", other.address, "--server", third.address)
        lines = [f"{self.server.address}: 2 published, 0 replaced, 0 withdrawn{self.end(2)}"]
        lines += [f"{other.address}: 1 published, 0 replaced, 1 withdrawn{self.end(2, other)}"]
        lines += [f"{third.address}: nothing to send: it holds what {self.file} says{self.end(0, third)}"]
        self.assertEqual((status, output, said), (0, "".join(lines), ""))
        self.assertEqual(len({line.split()[-1] for line in output.splitlines()}), 1)

    def test_several_servers_of_which_one_fails(self) -> None:
        self.write(*published(A))
        nobody = free_address()
        status, output, said = run_tool("lost-client", ["desk", "--sync", self.file, "--server", nobody, "--server", self.server.address])
        self.assertEqual((status, output), (1, self.done("1 published, 0 replaced, 0 withdrawn", 1)))
        self.assertIn(f"no connection to {nobody}", said)

    def test_another_desk_between(self) -> None:
        self.server.meanwhile = book_of(C)
        self.write(*published(A))
        status, output, said = self.sync()
        self.assertEqual((status, output), (3, ""))
        held, wanted = self.digest(), self.digest(A)
        text = f"holds a map with the digest {held}, and was to hold {wanted}: another desk may have changed it; sync again"
        self.assertEqual(said, f"lost-client: {self.server.address} {text}\n")
        self.assertEqual(self.sync()[0], 0)
        self.check_held(A)

    def test_another_desk_that_took_what_was_to_change(self) -> None:
        self.server.book, self.server.meanwhile = book_of(A), book_of(C)
        self.write(*published(changed(A, lastUpdated=LATER)))
        status, _, said = self.sync()
        self.assertEqual((status, said.count("code 14, IdentityUnknown"), self.server.edition), (3, 1, 0))
        self.assertIn("1 of 1 edits were refused, so nothing was published: the server remembers", said)


class Stamps(MapFile):
    """What changed without a later stamp."""

    def stamps(self) -> List[str]:
        """The stamps that the server holds."""
        return [value["lastUpdated"] for value in self.server.book.held.values()]

    def test_now_stamps_what_changed_without_a_later_stamp(self) -> None:
        self.server.book = book_of(A, B, C)
        lines = [changed(A), changed(B, lastUpdated=LATER), C]
        for commit, words in ((STAMPED, []), (COMMIT, ["--stamp", "now"])):
            self.server.book = book_of(A, B, C)
            self.write(*({"publish": one} for one in lines), commit)
            status, output, said = self.sync(*words)
            self.assertEqual((status, output, said), (0, self.done("0 published, 2 replaced, 0 withdrawn", self.server.edition), ""))
            first, *rest = self.stamps()
            self.assertRegex(first, NOW)
            self.assertEqual(rest, [LATER, C["lastUpdated"]])

    def test_without_it_such_a_line_is_named(self) -> None:
        for commit, words in ((COMMIT, []), (STAMPED, ["--stamp", "file"])):
            self.server.book = book_of(A)
            self.write({"publish": changed(A)}, commit)
            status, output, said = self.sync(*words)
            self.assertEqual((status, output), (3, ""))
            self.assertIn(f"{self.file}, line 1: map.example A: its replacement would be refused with code 15, NotNewer", said)

    def test_a_stamp_of_the_future_is_followed_by_one_a_nanosecond_later(self) -> None:
        self.server.book = book_of({**A, "lastUpdated": LATER})
        self.write({"publish": changed(A)}, STAMPED)
        self.assertEqual(self.sync()[0], 0)
        self.assertEqual(self.stamps(), ["2100-01-01T00:00:00.000000001Z"])

    def test_what_comes_back_is_stamped_again(self) -> None:
        self.server.book = book_of(A)
        self.write(COMMIT)
        self.assertEqual(self.sync()[0], 0)
        self.server.book.traces[("map.example", "A")] = "2026-01-01T00:00:00Z"
        self.write({"publish": B}, {"publish": A}, STAMPED)
        self.assertEqual(self.sync()[:2], (0, self.done("2 published, 0 replaced, 0 withdrawn", self.server.edition)))
        kept, again = self.stamps()
        self.assertEqual(kept, B["lastUpdated"])
        self.assertRegex(again, NOW)

    def test_back_to_an_older_file(self) -> None:
        self.server.book = book_of(changed(A, lastUpdated="2026-01-01T00:00:00Z"), B, D)
        self.server.book.traces[("map.example", "C")] = "2026-01-01T00:00:00Z"
        self.write(*published(A, B, C))
        self.assertEqual(self.sync()[0], 3)
        self.assertEqual(self.sync("--back")[:2], (0, self.done("1 published, 1 replaced, 1 withdrawn", self.server.edition)))
        first, second, third = self.stamps()
        self.assertEqual(second, B["lastUpdated"])
        for stamp in (first, third):
            self.assertRegex(stamp, NOW)
        self.assertEqual(self.server.book.held[("map.example", "A")]["uri"], A["uri"])


class Failing(MapFile):
    """Connections, servers and files that fail."""

    def test_a_connection_that_ends(self) -> None:
        self.write(*published(A, B))
        unknown = "the edits may have been published or not: sync again"
        for interrupt, end in ((b'"publish"', "nothing was published"), (b'"commit"', unknown)):
            self.server.interrupt = interrupt
            status, output, said = self.sync()
            self.assertEqual((status, output), (1, ""))
            self.assertTrue(said.endswith(f"; {end}\n"), said)

    def test_a_file_that_cannot_be_read(self) -> None:
        status, _, said = self.sync()
        self.assertEqual((status, self.server.told), (1, 0))
        self.assertIn("map.jsonl", said)

    def test_a_server_whose_digest_is_not_that_of_its_lines(self) -> None:
        self.server.lies = "0" * 31 + "1"
        self.write(*published(A))
        status, _, said = self.sync()
        told = f"the map that {self.server.address} tells has the digest {'0' * 32}, and it says {self.server.lies}"
        self.assertEqual((status, said, self.server.edition), (1, f"lost-client: {told}\n", 0))

    def test_a_server_that_tells_no_map(self) -> None:
        self.write(*published(A))
        for reply in (b'{"errors":{"badRequest":{}}}\n', b"HTTP/1.1 404 Not Found\r\nContent-Length: 0\r\n\r\n", None):
            address, _ = serve_once(lambda _, reply=reply: reply)
            status, output, said = run_tool("lost-client", ["desk", "--sync", self.file, "--server", address, "--timeout", "5"])
            self.assertEqual((status, output), (1, ""))
            self.assertIn("is it the server's --desk address, and does the server tell its map there?", said)

    def test_a_server_that_serves_another_desk(self) -> None:
        self.write(*published(A))
        busy = DeskServer(f"{self.folder}/busy.sock")
        self.addCleanup(busy.close)
        with socket.socket(socket.AF_UNIX) as other:
            other.connect(f"{self.folder}/busy.sock")
            other.sendall(json.dumps({"publish": B}).encode() + b"\n")
            other.recv(100)
            status, _, said = run_tool("lost-client", ["desk", "--sync", self.file, "--server", busy.address, "--timeout", "3"])
        self.assertEqual(status, 1)
        self.assertIn("no reply yet: another desk is probably being served; this one waits for its turn\n", said)
        self.assertIn("another desk is probably being served, and the server serves one at a time", said)
