"""lost-feed follow: what a follower sends, and where it stops. No database is needed."""
from __future__ import annotations

import contextlib
import io
import re
import unittest
from typing import List

from maptools.addresses import Tcp, server_of
from maptools.connection import Broken
from maptools.feeding.differing import first_difference
from maptools.feeding.following import FEW
from maptools.feeding.health import health_of, listen, metrics_of
from maptools.feeding.journals import Kept, add, begin, end
from maptools.feeding.log import Commit
from maptools.feeding.publishing import Stopped
from maptools.feeding.snapshots import write_journal
from maptools.feeding.standing import EMPTY, Standing
from maptools.status_page import page_of
from tests.feed_fakes import A, B, C, D, E, Feeding, MemoryLog, commits_of, digest, line
from tests.map_file import mapping


class Following(Feeding):
    """A follower and its server."""

    def test_each_row_is_a_commit(self) -> None:
        log = MemoryLog(commits_of(A, B))
        follower = self.follower(log)
        follower.catch_up(log)
        self.assertEqual(self.heard(), ["publish commit publish commit"])
        self.assertEqual(health_of(follower.level), (200, f"edition 2, map {digest(A, B)}\n"))
        log.commits = commits_of(A, B, C)
        follower.catch_up(log)
        self.assertEqual(self.heard()[1:], ["publish commit"])
        follower.report(log, is_due=True)
        self.assertEqual(log.said[-1], ("a", self.server.address, Standing(3, digest(A, B, C)), ""))
        self.assertEqual((follower.level.commits, follower.level.edits, follower.level.commits_behind), (3, 3, 0))

    def test_it_goes_on_from_where_the_server_is(self) -> None:
        log = MemoryLog(commits_of(A, B, C))
        self.edit(A, B)
        follower = self.follower(log)
        self.assertEqual(health_of(follower.level)[0], 503)
        follower.catch_up(log)
        self.assertEqual(self.heard(), ["publish commit"])
        self.assertEqual(health_of(follower.level)[0], 200)

    def test_many_rows_at_once(self) -> None:
        many = [mapping(f"m{number}", place=number * 20) for number in range(FEW + 5)]
        log = MemoryLog(commits_of(*many))
        follower = self.follower(log)
        follower.catch_up(log)
        self.assertEqual(self.heard(), [" ".join(["publish commit"] * len(many))])
        self.assertEqual(self.server.edition, len(many))

    def test_a_server_that_was_started_again(self) -> None:
        log = MemoryLog(commits_of(A, B))
        follower = self.follower(log)
        follower.catch_up(log)
        self.empty()
        self.assertIn("has not reached the end of the log since it started", health_of(follower.level)[1])
        log.commits = commits_of(A, B, C)
        follower.catch_up(log)
        self.assertEqual(self.heard()[1:], ["publish commit publish commit publish commit"])
        self.assertEqual(health_of(follower.level)[0], 200)

    def test_an_edit_behind_the_log_s_back(self) -> None:
        log = MemoryLog(commits_of(A, B))
        follower = self.follower(log)
        follower.catch_up(log)
        self.edit(D)
        self.assertIn("which the log is not known to have", health_of(follower.level)[1])
        with self.assertRaisesRegex(Stopped, "from edition 3 on: it holds edition 3, .* no commit that makes edition 3: start this server again"):
            follower.look(log)
        log.commits = commits_of(A, B, C)
        with self.assertRaisesRegex(Stopped, f"from edition 3 on: .* edition 3 with map {digest(A, B, C)}: start this server again"):
            follower.look(log)

    def test_an_edit_while_rows_are_sent(self) -> None:
        log = MemoryLog(commits_of(A, B))
        follower = self.follower(log)
        follower.catch_up(log)
        log.commits = commits_of(A, B, C)
        self.edit(D)
        with self.assertRaisesRegex(Stopped, "from edition 3 on"):
            follower.catch_up(log)
        self.assertNotIn("C", [one["sourceId"] for one in self.server.book.held.values()])

    def test_a_server_that_is_ahead_or_was_never_the_log_s(self) -> None:
        self.edit(A, B, C)
        with self.assertRaisesRegex(Stopped, "at edition 2, if not before: it holds edition 3"):
            self.follower(MemoryLog(commits_of(A)))
        with self.assertRaisesRegex(Stopped, "at edition 3, if not before: it holds edition 3"):
            self.follower(MemoryLog(commits_of(A, B, E)))

    def test_a_server_that_somebody_else_feeds_too(self) -> None:
        log = MemoryLog(commits_of(A, B, C))
        follower = self.follower(log)
        follower.catch_up(MemoryLog(commits_of(A)))
        # (the other follower's commits come between the look and the lines)
        self.server.before_lines = lambda: self.edit(B, C)
        follower.catch_up(log)
        self.assertEqual(self.heard(), ["publish commit", "publish"])
        self.assertEqual(health_of(follower.level), (200, f"edition 3, map {digest(A, B, C)}\n"))

    def test_a_journal_tells_the_first_edition_that_differs(self) -> None:
        log = MemoryLog(commits_of(A, B, C))
        self.journal = f"{self.folder}/lost.journal"
        for mappings, edition in (((A, B, D), 3), ((A, D, C), 2), ((D, B, C, E), 1), ((A, B, C, D, E), 4)):
            with self.subTest(edition=edition):
                self.empty()
                self.edit(*mappings)
                with open(self.journal, "wb") as file:
                    write_journal(MemoryLog(commits_of(*mappings)), file)
                with self.assertRaisesRegex(Stopped, f"^differs from the log from edition {edition} on: it holds edition {len(mappings)}, "):
                    self.follower(log)

    def test_a_journal_that_says_nothing(self) -> None:
        log = MemoryLog(commits_of(A, B, C))
        self.edit(A, B, D)
        for journal in (f"{self.folder}/nothing", self.folder, "/dev/null"):
            said, self.journal = io.StringIO(), journal
            with contextlib.redirect_stderr(said), self.assertRaisesRegex(Stopped, "^differs from the log at edition 3, if not before: "):
                self.follower(log)
            self.assertEqual(len(said.getvalue().splitlines()), journal != "/dev/null", said.getvalue())

    def test_another_log_after_a_new_connection(self) -> None:
        log = MemoryLog(commits_of(A, B))
        follower = self.follower(log)
        follower.catch_up(log)
        follower.is_verified = False
        self.assertEqual(health_of(follower.level)[0], 200)
        with self.assertRaisesRegex(Stopped, f"at edition 2, if not before: it holds edition 2, .* edition 2 with map {digest(A, C)}"):
            follower.look(MemoryLog(commits_of(A, C)))

    def test_a_line_that_is_refused(self) -> None:
        log = MemoryLog([*commits_of(A), Commit(1, 2, line("publish", A), digest(A, B))])
        follower = self.follower(log)
        with self.assertRaisesRegex(Stopped, "line 1 of the commit that makes edition 2 is refused with code 13, IdentityHeld"):
            follower.catch_up(log)
        self.assertEqual(self.heard(), ["publish commit publish", "publish"])

    def test_a_server_that_lacks_memory_or_room(self) -> None:
        many = [mapping(f"m{number}", place=number * 20) for number in range(FEW + 5)]
        for code, mappings in ((20, many[:2]), (23, many[:2]), (23, many)):
            with self.subTest(code=code, mappings=len(mappings)):
                self.empty()
                log = MemoryLog(commits_of(*mappings))
                follower = self.follower(log)
                self.server.refuses = {"publish": code}
                with self.assertRaisesRegex(Broken, f"line 1 of the commit that makes edition [0-9]+ is refused with code {code}"):
                    follower.catch_up(log)
                self.server.refuses = {}
                follower.catch_up(log)
                self.assertEqual(health_of(follower.level), (200, f"edition {len(mappings)}, map {digest(*mappings)}\n"))

    def test_a_commit_that_is_not_kept(self) -> None:
        log = MemoryLog(commits_of(A, B))
        follower = self.follower(log)
        self.server.refuses = {"commit": 23}
        with self.assertRaisesRegex(Broken, "the commit that makes edition 1 is refused with code 23, NotKept"):
            follower.catch_up(log)
        self.server.refuses = {}
        follower.catch_up(log)
        self.assertEqual(self.heard(), ["publish commit", "publish commit publish commit"])

    def test_another_edition_or_another_digest_than_in_the_log(self) -> None:
        log = MemoryLog([Commit(0, 2, line("publish", A), digest(A))])
        with self.assertRaisesRegex(Stopped, "holds edition 1"):
            self.follower(log).catch_up(log)
        log = MemoryLog([*commits_of(A), Commit(1, 2, line("publish", B), digest(A, C))])
        with self.assertRaisesRegex(Stopped, "from edition 2 on: it holds edition 2"):
            self.follower(log).catch_up(log)

    def test_a_server_that_is_gone_or_not_ready(self) -> None:
        log = MemoryLog(commits_of(A))
        follower = self.follower(log)
        self.pages.is_ready = False
        with self.assertRaisesRegex(Broken, "is not ready"):
            follower.look(log)
        self.assertIn("is not ready", health_of(follower.level)[1])
        self.pages.is_ready = True
        self.server.interrupt = b"commit"
        with self.assertRaises(Broken):
            follower.catch_up(log)
        self.server.interrupt = b""
        follower.catch_up(log)
        self.assertEqual(self.server.edition, 1)

    def test_the_address_of_a_follower(self) -> None:
        log = MemoryLog(commits_of(A))
        follower = self.follower(log)
        address = listen(Tcp("127.0.0.1", 0), follower.level)
        server = server_of(address)
        self.assertEqual(page_of(server, "/health", 5).status, 503)
        follower.catch_up(log)
        self.assertEqual(page_of(server, "/health", 5), (200, f"edition 1, map {digest(A)}\n".encode()))
        metrics = page_of(server, "/metrics", 5).body.decode()
        self.assertEqual({line.split()[0] for line in metrics.splitlines() if "#" not in line}, set(re.findall(r"# TYPE (\S+) ", metrics)))
        self.assertEqual(page_of(server, "/", 5).status, 404)
        with self.assertRaisesRegex(Broken, f"--listen {address}: Address already in use"):
            listen(server, follower.level)

    def test_behind_and_apart(self) -> None:
        log = MemoryLog(commits_of(A))
        level = self.follower(log).level
        level.stand(EMPTY)
        level.reach_end()
        self.assertEqual(health_of(level)[0], 200)
        late = commits_of(A)[0]._replace(age=30.0)
        level.wait_for([late], 1)
        self.assertIn("the server is 30 seconds behind the log", health_of(level)[1])
        self.assertRegex(metrics_of(level), "\nlostd_feed_commits_behind 1\n")
        level.reach_end()
        level.contact_at -= 60
        self.assertEqual((health_of(level)[0], round(level.seconds_apart())), (200, 60))
        level.most_apart = 30.0
        self.assertIn("the log has not been reached for", health_of(level)[1])


class Differing(unittest.TestCase):
    """Where a journal and the log part, whose commits may have other sizes."""

    def first(self, kept: List[Kept], log: MemoryLog) -> int:
        """The first edition of a journal that the log does not have."""
        file = io.BytesIO()
        begin(file)
        for one in kept:
            add(file, one, "")
        end(file)
        file.seek(0)
        return first_difference(file, log)

    def test_commits_of_other_sizes(self) -> None:
        a, b, c, d = (line("publish", one).encode() for one in (A, B, C, D))
        log = MemoryLog([Commit(0, 2, b"\n".join((a, b)).decode(), digest(A, B)), Commit(2, 3, c.decode(), digest(A, B, C))])
        one_by_one = [Kept([a], Standing(1, digest(A))), Kept([b], Standing(2, digest(A, B))), Kept([c], Standing(3, digest(A, B, C)))]
        self.assertEqual(self.first(one_by_one, log), 0)
        self.assertEqual(self.first([Kept([a, b, c], Standing(3, digest(A, B, C)))], log), 0)
        self.assertEqual(self.first([*one_by_one, Kept([d], Standing(4, digest(A, B, C, D)))], log), 4)
        self.assertEqual(self.first([Kept([a, b, d], Standing(3, digest(A, B, D)))], log), 3)
        self.assertEqual(self.first([Kept([a], Standing(1, digest(A))), Kept([d, c], Standing(3, digest(A, C, D)))], log), 2)
        self.assertEqual(self.first([Kept([a, d], Standing(2, digest(A, D))), Kept([c], Standing(3, digest(A, C, D)))], log), 2)

    def test_commits_of_the_log_on_top_of_an_odd_one(self) -> None:
        a, b, c, d, e = (line("publish", one).encode() for one in (A, B, C, D, E))
        rows = [Commit(0, 1, a.decode(), digest(A)), Commit(1, 3, b"\n".join((b, c)).decode(), digest(A, B, C))]
        log = MemoryLog([*rows, Commit(3, 5, b"\n".join((d, e)).decode(), digest(A, B, C, D, E))])
        odd = line("publish", mapping("odd")).encode()
        kept = [Kept([a], Standing(1, digest(A))), Kept([odd], Standing(2, "1" * 32)), Kept([b, c], Standing(4, "2" * 32))]
        self.assertEqual(self.first(kept, log), 2)

    def test_a_journal_whose_edits_are_all_the_log_s(self) -> None:
        a, b = (line("publish", one).encode() for one in (A, B))
        log = MemoryLog(commits_of(A, B))
        self.assertEqual(self.first([Kept([a, b], Standing(2, digest(A, C)))], log), 0)
        self.assertEqual(self.first([Kept([a], Standing(1, digest(A)))], log), 0)

    def test_a_journal_without_edits(self) -> None:
        self.assertEqual(self.first([], MemoryLog([])), 0)
        self.assertEqual(self.first([Kept([line("publish", A).encode()], Standing(1, digest(A)))], MemoryLog([])), 1)
