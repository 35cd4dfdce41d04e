"""tools/lost-client desk --sync: what is sent by what the server holds, and what would be refused."""
from __future__ import annotations

import json
import re
import unittest
from typing import Any

from maptools.texts import stamp_after
from tests.map_file import COMMIT, A, B, C, D, MapFile, mapping, published, withdrawal
from tests.running import run_tool

NOW = re.compile(r"20[0-9]{2}-[0-9]{2}-[0-9]{2}T[0-9]{2}:[0-9]{2}:[0-9]{2}Z")
LATE = "9000-01-01T00:00:00.999999999Z"


class Sending(MapFile):
    """The difference between what the server holds and the map file."""

    def test_first_all_is_published_and_then_nothing(self) -> None:
        self.write(*published(A, B))
        self.assertEqual(self.sync(), (0, self.done("2 published, 0 replaced, 0 withdrawn", 2), ""))
        self.assertEqual(self.heard(), published(A, B))
        self.check_held(A, B)
        nothing = f"{self.server.address}: nothing to send: it holds what {self.file} says{self.end(2)}"
        self.assertEqual(self.sync(), (0, nothing, ""))
        self.assertEqual((len(self.server.heard), self.server.told), (1, 3))

    def test_a_difference_is_sent_and_no_more(self) -> None:
        self.write(*published(A, B, C))
        self.sync()
        other = {**B, "lastUpdated": "2025-12-02T00:00:00Z", "uri": ["sip:other@map.example"]}
        self.write(*published(D, C, other))
        self.assertEqual(self.sync(), (0, self.done("1 published, 1 replaced, 1 withdrawn", 6), ""))
        gone, *rest = self.heard()
        self.assertRegex(gone["withdraw"]["lastUpdated"], NOW)
        self.assertEqual(gone, withdrawal("A", gone["withdraw"]["lastUpdated"]))
        self.assertEqual(rest, [{"replace": other}, {"publish": D}, COMMIT])
        self.assertEqual(self.held(), [("B", "02", "B-1"), ("C", "01", "C-1"), ("D", "01", "D-1")])

    def test_what_makes_no_difference(self) -> None:
        self.write(*published(A, {**mapping("S", default=True), "key": None, "serviceBoundary": None}))
        self.assertEqual(self.sync()[0], 0)
        same = {**A, "source": "MAP.Example", "service": "URN:service:SOS.police", "default": False}
        same.update({"note": 7, "serviceNumber": None})
        default = {**mapping("S", default=True), "serviceBoundary": [], "displayName": []}
        del default["key"]
        self.write(*published(default, same))
        self.assertEqual(self.sync()[1][: len(self.nothing)], self.nothing)

    def test_the_same_ring_as_text_makes_no_difference(self) -> None:
        self.write(*published(A))
        self.assertEqual(self.sync()[0], 0)
        ring = ["0 0.0", [0, 10], "0.0000010  0.000001", "0.0000010 -0", "0 0"]
        self.write(*published({**A, "serviceBoundary": [{"profile": "geodetic-2d", "polygon": ring}]}))
        self.assertEqual(self.sync()[1][: len(self.nothing)], self.nothing)
        ring[1] = "0 0.0000011"
        self.write(*published({**A, "serviceBoundary": [{"profile": "geodetic-2d", "polygon": ring}]}))
        self.assertIn("code 15, NotNewer", self.sync("--dry-run")[2])

    def test_tokens_and_their_order_make_a_difference(self) -> None:
        def of_tokens(*tokens: str, **more: str) -> Any:
            region = {"profile": "x-token", "tokens": list(tokens)}
            return {**A, "serviceBoundary": [*A["serviceBoundary"], region], **more}

        self.write(*published(of_tokens("t1", "t2")))
        self.assertEqual(self.sync()[0], 0)
        self.write(*published({**of_tokens("t1", "t2"), "serviceBoundary": of_tokens("t1", "t2")["serviceBoundary"][::-1]}))
        self.assertEqual(self.sync()[1][: len(self.nothing)], self.nothing)
        for tokens in (("t2", "t1"), ("t1",), ("T1", "t2")):
            self.write(*published(of_tokens(*tokens)))
            self.assertIn("code 15, NotNewer", self.sync("--dry-run")[2])
            self.write(*published(of_tokens(*tokens, lastUpdated="2025-12-02T00:00:00Z")))
            self.assertIn("code 17, KeyUnchanged", self.sync("--dry-run")[2])
            self.write(*published(of_tokens(*tokens, lastUpdated="2025-12-02T00:00:00Z", key="A-2")))
            status, output, _ = self.sync("--dry-run")
            last = f"{self.server.address}: 0 to publish, 1 to replace, 0 to withdraw; nothing was sent"
            self.assertEqual((status, output.splitlines()[-1]), (0, last))

    def test_what_makes_a_difference(self) -> None:
        name, uris = [{"lang": "en", "text": "A"}], [*A["uri"], "tel:911"]
        changes = [{"expires": "NO-CACHE"}, {"serviceNumber": "911"}, {"displayName": name}, {"service": "urn:service:sos"}]
        for more in (*changes, {"uri": uris}):
            self.write(*published(A))
            self.sync("--back")
            self.write(*published({**A, **more}))
            status, _, said = self.sync("--dry-run")
            self.assertEqual((status, "its replacement would be refused with code 15, NotNewer" in said), (3, True), said)

    def test_a_log_is_read_by_its_last_state(self) -> None:
        edits = [{"replace": mapping("A", 2)}, withdrawal("B", "2025-12-05T00:00:00Z"), {"publish": C}, COMMIT]
        self.write(*published(A, B), *edits)
        self.assertEqual(self.sync()[1], self.done("2 published, 0 replaced, 0 withdrawn", 2))
        self.assertEqual(self.heard(), published(mapping("A", 2), C))

    def test_the_name_of_a_line_in_other_white_space(self) -> None:
        with open(self.file, "w", encoding="utf-8") as file:
            file.write(f' {{ "replace" : {json.dumps(mapping("A", 2))} }} \r\n{json.dumps(COMMIT)}'.replace("replace", "publish"))
        self.assertEqual(self.sync()[0], 0)
        with open(self.file, "w", encoding="utf-8") as file:
            file.write(f'{{\t"publish"\t:{json.dumps(mapping("A", 3, "A-3"))}}}\n{json.dumps(COMMIT)}')
        self.assertEqual(self.sync()[0], 0)
        self.assertEqual(self.heard(), [{"replace": mapping("A", 3, "A-3")}, COMMIT])

    def test_a_withdrawal_has_the_stamp_of_the_file_or_one_that_is_late_enough(self) -> None:
        self.write(*published(A, B, mapping("F", lastUpdated=LATE, place=400)))
        self.sync()
        self.write({"publish": A}, withdrawal("A", "2025-12-09T00:00:00Z"), COMMIT)
        self.assertEqual(self.sync()[0], 0)
        first, second, third, commit = self.heard()
        self.assertEqual(first, withdrawal("A", "2025-12-09T00:00:00Z"))
        self.assertRegex(second["withdraw"]["lastUpdated"], NOW)
        self.assertEqual([third, commit], [withdrawal("F", "9000-01-01T00:00:01.000000000Z"), COMMIT])

    def test_the_stamp_after_another_one(self) -> None:
        for stamp, after in (
            ("2025-12-31T23:59:59.999999999Z", "2026-01-01T00:00:00.000000000Z"),
            ("0001-01-01T00:00:00Z", "0001-01-01T00:00:00.000000001Z"),
            ("2025-12-01T00:00:00.1Z", "2025-12-01T00:00:00.100000001Z"),
            ("9999-12-31T23:59:59.999999999Z", "9999-12-31T23:59:59.999999999Z"),
        ):
            self.assertEqual(stamp_after(stamp), after)

    def test_keys_move_along(self) -> None:
        self.write(*published(A, B, C))
        self.sync()
        moved = [mapping("A", 2, "B-1"), mapping("B", 2, "C-1", place=100), mapping("C", 2, "C-2", place=200), {**D, "key": "A-1"}]
        self.write(*published(*moved))
        self.assertEqual(self.sync()[1], self.done("1 published, 3 replaced, 0 withdrawn", 7))
        self.assertEqual(self.held(), [("A", "02", "B-1"), ("B", "02", "C-1"), ("C", "02", "C-2"), ("D", "01", "A-1")])

    def test_a_key_of_what_is_gone_is_free(self) -> None:
        self.write(*published(A, B))
        self.sync()
        self.write(*published(mapping("A", 2, "B-1"), {**D, "key": "A-1"}))
        self.assertEqual(self.sync()[0], 0)

    def test_everything_may_be_withdrawn_by_a_commit_alone(self) -> None:
        self.write(*published(A, B))
        self.sync()
        self.write(COMMIT)
        self.assertEqual(self.sync()[1], self.done("0 published, 0 replaced, 2 withdrawn", 4))

    def test_a_large_map(self) -> None:
        many = [mapping(f"m{number}", place=number) for number in range(3_000)]
        self.write(*published(*many))
        self.assertEqual(self.sync()[1], self.done("3000 published, 0 replaced, 0 withdrawn", 3000))
        later = [{**one, "lastUpdated": "2025-12-02T00:00:00Z", "expires": "NO-CACHE"} for one in many[1_000:2_000]]
        self.write(*published(*later, *many[2_000:]))
        self.assertEqual(self.sync("--most-withdrawn", "1000")[1], self.done("0 published, 1000 replaced, 1000 withdrawn", 5000))

    def test_json_prints_the_replies(self) -> None:
        self.write(*published(A))
        status, output, said = self.sync("--json")
        self.assertEqual((status, output), (0, '{"staged": {"pending": 1}}\n{"committed": {"edition": 1}}\n'))
        self.assertEqual(said, self.done("1 published, 0 replaced, 0 withdrawn", 1))

    def test_what_would_be_sent(self) -> None:
        self.write(*published(A, B))
        self.sync()
        self.write(*published(mapping("A", 2, uri=["sip:a@map.example"]), C))
        counts = f"{self.server.address}: 1 to publish, 1 to replace, 1 to withdraw; nothing was sent\n"
        plan = ["B: withdrawn", "A: uri sip:A@map.example -> sip:a@map.example"]
        plan += ["C: new, urn:service:sos.police, sip:C@map.example, 4 positions", counts]
        self.assertEqual(self.sync("--dry-run"), (0, "\n".join(plan), ""))
        status, output, said = self.sync("--dry-run", "--show")
        gone, *rest = (json.loads(line) for line in output.splitlines())
        self.assertEqual((status, said), (0, counts))
        wanted = [{"replace": mapping("A", 2, uri=["sip:a@map.example"])}, {"publish": C}, COMMIT]
        self.assertEqual((gone["withdraw"]["sourceId"], rest), ("B", wanted))
        self.assertEqual(len(self.server.heard), 1)
        self.check_held(A, B)


class Refusing(MapFile):
    """What is said before anything is sent."""

    def refused(self, *lines: Any) -> str:
        """What is said of a file that would be refused; nothing may be sent."""
        connections = len(self.server.heard)
        self.write(*lines)
        status, output, said = self.sync()
        self.assertEqual((status, output, len(self.server.heard)), (3, "", connections))
        fault, more = said.splitlines()
        self.assertRegex(more, "^lost-client: (unix:.*: )?nothing was sent$")
        return fault

    def test_changes_that_would_be_refused(self) -> None:
        self.write(*published(A, B))
        self.sync()
        changed = f"lost-client: {self.file}, line 2: map.example B: its replacement would be refused with code "
        stale = "15, NotNewer: 2025-12-01T00:00:00Z is not after 2025-12-01T00:00:00Z; give a later stamp, or drop the edit"
        self.assertEqual(self.refused(*published(A, {**B, "uri": ["sip:x@map.example"]})), changed + stale)
        moved = "17, KeyUnchanged: the regions changed, and the key did not; give a new key"
        self.assertEqual(self.refused(*published(A, mapping("B", 2, place=101))), changed + moved)

    def test_what_comes_back_too_early(self) -> None:
        self.write(*published(A, B))
        self.sync()
        self.write(*published(A))
        self.assertEqual(self.sync()[0], 0)
        self.write(*published(A, B))
        status, output, said = self.sync()
        cause = f"{self.file}, line 2: map.example B: refused with code 21, Withdrawn: it was withdrawn, at this lastUpdated or later"
        why = "the server remembers a later withdrawal, or another desk changed its map meanwhile; sync again, perhaps with --stamp now"
        last = f"lost-client: {self.server.address}: 1 of 1 edits were refused, so nothing was published: {why}"
        self.assertEqual((status, output, said.splitlines()), (3, "", [f"lost-client: {cause}", last]))
        self.write(*published(A, {**B, "lastUpdated": LATE}))
        self.assertEqual(self.sync()[0], 0)
        self.check_held(A, {**B, "lastUpdated": LATE})

    def test_a_mapping_of_the_end_of_time_stays(self) -> None:
        self.write(*published(A, {**B, "lastUpdated": "9999-12-31T23:59:59.999999999Z"}))
        self.sync()
        gone = f"map.example B, which {self.file} no longer has: its withdrawal would be refused with code 15, NotNewer"
        self.assertIn(gone, self.refused(*published(A)))

    def test_keys_that_are_exchanged(self) -> None:
        self.write(*published(A, B))
        self.sync()
        before = self.server.book
        self.write(*published(mapping("A", 2, "B-1"), mapping("B", 2, "A-1", place=100)))
        status, _, said = self.sync()
        self.assertEqual((status, said.count("refused with code 16, KeyHeld"), self.server.book), (3, 2, before))

    def test_a_file_with_a_fault(self) -> None:
        self.write(*published(A))
        self.sync()
        twice = f"lost-client: {self.file}, line 2: refused with code 13, IdentityHeld: map.example A is held"
        self.assertEqual(self.refused({"publish": A}, {"publish": A}, COMMIT), twice)
        no_desk_line = "line 2: refused with code 1, BadLine: this is not a desk line"
        self.assertIn(no_desk_line, self.refused(COMMIT, {"findService": {}}, COMMIT))
        self.assertIn("line 1: refused with code 7, BadUri", self.refused(*published({**A, "uri": []})))

    def test_a_file_that_was_cut_off(self) -> None:
        self.write(*published(A))
        self.sync()
        no_commit = f"lost-client: {self.file}: its last line is not a commit; add one, to show that the file is whole"
        self.assertEqual(self.refused({"publish": A}, COMMIT, {"publish": B}), no_commit)
        self.assertEqual(self.refused(), no_commit)

    def test_mistakes_on_the_command_line(self) -> None:
        server = ["--server", self.server.address]
        for words in (
            ["--sync", "-", *server], ["--sync", self.file, "--keep-open", *server], [self.file, "--back", *server],
            [self.file, "--dry-run", *server], [self.file, "--stamp", "now", *server], ["--sync", self.file, "--show", *server],
            [self.file, *server, *server], ["--sync", self.file, "--stamp", "then", *server],
            ["--sync", self.file, *server, *server, "--dry-run", "--svg", "x"], ["--sync", self.file, "--dry-run"],
            ["--sync", self.file], [self.file], [self.file, "--most-withdrawn", "3", *server], ["--sync", self.file, "--svg", "x", *server],
            ["--sync", self.file, "--most-withdrawn", "-1", *server],
        ):  # fmt: skip
            self.assertEqual(run_tool("lost-client", ["desk", *words])[0], 2, words)


