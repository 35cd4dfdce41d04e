"""lost-feed publish and snapshot: what is judged, what is written, and the command line. No database is needed."""
from __future__ import annotations

import contextlib
import io
import os
import subprocess
import tempfile
import unittest
from typing import Any, List, Optional

from maptools.addresses import server_of
from maptools.connection import Broken
from maptools.feeding.journals import BEGINNING, OPEN, commits_in
from maptools.feeding.judge import Judge
from maptools.feeding.log import Commit
from maptools.feeding.publishing import Judging, Publisher, Stopped, groups_of, is_commit, publish_all, publish_each
from maptools.feeding.snapshots import FILE, refresh, snapshot_in, write_journal
from maptools.feeding.standing import EMPTY, Standing, standing_of
from tests import journal_tests
from tests.feed_fakes import A, B, C, D, MemoryLog, commits_of, digest, line
from tests.fake_servers import free_address
from tests.running import has_serve, lostd, replay, run_tool, serve_has
from tests.server import READY, Server, has_maps

COMMIT = '{"commit":{}}'


def file_of(*lines: str) -> io.BytesIO:
    """A file of lines."""
    return io.BytesIO("".join(f"{one}\n" for one in lines).encode())


class MemoryJudge:
    """A judge that refuses the lines with a word in them."""

    def __init__(self) -> None:
        self.edition, self.staged = 0, 0

    def standing(self) -> Standing:
        """Where it stands."""
        return Standing(self.edition, f"{self.edition:032x}")

    def standing_after(self, _edition: int) -> Standing:
        """Where it stands after a commit."""
        return self.standing()

    def ask(self, lines: List[bytes]) -> List[Any]:
        """The replies."""
        return list(map(self.reply, lines))

    def reply(self, one: bytes) -> Any:
        """The reply to a line."""
        if b"faulty" in one:
            return "refused", {"code": 13, "name": "IdentityHeld"}
        if one == COMMIT.encode():
            self.edition, self.staged = self.edition + self.staged, 0
            return "committed", {"edition": self.edition}
        self.staged += 1
        return "staged", {"pending": self.staged}


class MemoryPublisher(Publisher):
    """Publishes to a log in memory."""

    def __init__(self, log: MemoryLog) -> None:  # pylint: disable=super-init-not-called
        self.log = log


class Publishing(unittest.TestCase):
    """What becomes of a file."""

    def publish(self, how: Any, *lines: str, log: Optional[MemoryLog] = None) -> str:
        """Publishes lines to a log; what is printed."""
        self.log = log or MemoryLog([])
        output = io.StringIO()
        with contextlib.redirect_stdout(output):
            how(Judging(MemoryJudge(), "file"), MemoryPublisher(self.log), groups_of(file_of(*lines), "file"))
        return output.getvalue()

    def rows(self) -> List[Any]:
        """What the log has."""
        return [one[:3] for one in self.log.commits]

    def test_a_row_for_each_commit(self) -> None:
        said = self.publish(publish_all, "a", "b", COMMIT, COMMIT, "c", '{ "commit" : {"stamp":"now"}}')
        self.assertEqual(self.rows(), [(0, 2, "a\nb"), (2, 3, "c")])
        self.assertEqual(said, f"3 edits in 2 commits: edition 3, map {3:032x}\n")
        self.assertEqual(self.publish(publish_all, COMMIT), f"nothing to publish: edition 0, map {0:032x}\n")

    def test_each_by_itself(self) -> None:
        said = self.publish(publish_each, "a", COMMIT, "b", COMMIT)
        self.assertEqual(said, f"1 edit in 1 commit: edition 1, map {1:032x}\n1 edit in 1 commit: edition 2, map {2:032x}\n")
        with self.assertRaisesRegex(Stopped, "file, line 3: refused with code 13"):
            self.publish(publish_each, "a", COMMIT, "faulty", COMMIT)
        self.assertEqual(self.rows(), [(0, 1, "a")])

    def test_what_is_refused_is_named_and_nothing_is_written(self) -> None:
        with self.assertRaises(Stopped) as stopped:
            self.publish(publish_all, "a", COMMIT, "faulty 1", "b", COMMIT, "faulty 2", COMMIT)
        told = str(stopped.exception).splitlines()
        self.assertEqual([one[:31] for one in told], ["file, line 3: refused with code", "file, line 6: refused with code", "nothing was published"])
        self.assertEqual(self.rows(), [])

    def test_of_many_refused_lines_20_are_named(self) -> None:
        with self.assertRaises(Stopped) as stopped:
            self.publish(publish_all, *["faulty"] * 300, COMMIT)
        told = str(stopped.exception).splitlines()
        self.assertEqual([one.partition(":")[0] for one in told[:20]], [f"file, line {number}" for number in range(1, 21)])
        self.assertEqual(told[20:], ["280 more lines with like faults, the last of them file, line 300", "nothing was published"])

    def test_a_file_that_does_not_end_with_a_commit(self) -> None:
        with self.assertRaisesRegex(Stopped, "file: its last line is not a commit; add one, to show that the file is whole$"):
            self.publish(publish_all, "a", COMMIT, "b")
        self.assertEqual(self.rows(), [])

    def test_geojson_is_told_from_a_file_without_a_commit(self) -> None:
        with self.assertRaisesRegex(Stopped, "is not a commit; .*: if this is GeoJSON, geojson-to-desk makes desk lines of it$"):
            self.publish(publish_all, "{", '"type": "FeatureCollection",', '"features": []}')
        self.assertEqual(self.rows(), [])

    def test_two_publishers_from_one_edition(self) -> None:
        first = Commit(0, 5, "x", "y", "alice", "2026-01-01T00:00:00Z")
        with self.assertRaisesRegex(Stopped, "alice published edition 5 first, at 2026-01-01T00:00:00Z, from the same edition 0: nothing was"):
            self.publish(publish_all, "a", COMMIT, log=MemoryLog([first]))
        self.assertEqual(self.log.commits, [first])

    def test_commits_whose_answer_was_lost(self) -> None:
        for held, wanted in (([], commits_of(A)), (commits_of(A), commits_of(A))):
            publisher = MemoryPublisher(MemoryLog(held))
            publisher.add_again(commits_of(A))
            self.assertEqual(publisher.log.commits, wanted)
        with self.assertRaisesRegex(Stopped, "published edition 1 first"):
            MemoryPublisher(MemoryLog(commits_of(B))).add_again(commits_of(A))

    def test_what_is_a_commit_line(self) -> None:
        for yes in (b'{"commit":{}}', b' { "commit" : {"a":1} }', b'{"\\u0063ommit":{}}'):
            self.assertTrue(is_commit(yes), yes)
        for no in (b"", b'{"publish":{"commit":{}}}', b'{"commit":1}', b'{"commit":{},"a":1}', b'{"commits":{}}', b'["commit"]'):
            self.assertFalse(is_commit(no), no)

    @unittest.skipUnless(has_serve() and has_maps(), "no program is built that reads a map")
    def test_a_server_judges(self) -> None:
        with tempfile.NamedTemporaryFile() as file:
            file.write(f"{line('publish', A)}\n{COMMIT}\n".encode())
            file.flush()
            with Judge(lostd(), file.name) as judge:
                judging = Judging(judge, "file")
                groups = list(groups_of(file_of(line("publish", B), line("publish", A), COMMIT, line("publish", C), COMMIT), "file"))
                self.assertEqual(judging.take(groups[0]), [])
                self.assertRegex(judging.complaints[0], "^file, line 2: refused with code 13, IdentityHeld")
            with Judge(lostd(), file.name) as judge:
                judging = Judging(judge, "file")
                self.assertEqual(judging.take(groups[1]), [Commit(1, 2, line("publish", C), digest(A, C))])
            file.write(b"faulty\n")
            file.flush()
            with self.assertRaisesRegex(Broken, "the lostd that judges did not begin: lostd: --map: line 3: 1 BadLine"):
                Judge(lostd(), file.name)

    def test_no_judge(self) -> None:
        with self.assertRaisesRegex(Broken, "--lostd: /nothing is not a program"):
            Judge("/nothing", "map")
        self.assertRaisesRegex(Broken, "did not begin: it says nothing", Judge, "/bin/true", "map")


def journal_bytes(commits: List[Commit], until: Optional[int] = None) -> bytes:
    """The journal of a log with these commits."""
    file = io.BytesIO()
    write_journal(MemoryLog(commits), file, until)
    return file.getvalue()


class Snapshots(unittest.TestCase):
    """The log as a journal."""

    def setUp(self) -> None:
        folder = tempfile.TemporaryDirectory()
        self.addCleanup(folder.cleanup)
        self.folder = folder.name

    def state(self) -> bytes:
        """What is kept between calls."""
        with open(f"{self.folder}/state/{FILE}", "rb") as file:
            return file.read()

    def test_it_is_what_a_server_would_have_written(self) -> None:
        edits = [journal_tests.ONE, journal_tests.TWO, journal_tests.THREE]
        rows, edition = [], 0
        for group in ([edits[0]], [], [edits[1], edits[2]]):
            edition += len(group)
            if group:
                row = Commit(edition - len(group), edition, "".join(group).rstrip("\n"), journal_tests.digest_of(edits[:edition]), "", journal_tests.TIME)
                rows.append(row)
        begun = journal_tests.commit_line([], [], BEGINNING)
        for until, commits in ((None, ([edits[0]], edits[1:])), (2, ([edits[0]],)), (0, ())):
            wanted = journal_tests.journal_of(*commits).replace(journal_tests.commit_line([], []), begun)
            self.assertEqual(journal_bytes(rows, until), wanted)

    def test_its_commits_are_read_again(self) -> None:
        commits = commits_of(A, B, C)
        wanted = [(one.desk_lines(), one.standing()) for one in commits]
        self.assertEqual(list(commits_in(io.BytesIO(journal_bytes(commits)))), wanted)
        behind = f"{line('publish', C)}\n".encode()
        self.assertEqual(list(commits_in(io.BytesIO(journal_bytes(commits[:2]) + behind))), wanted[:2])
        with self.assertRaisesRegex(ValueError, "says no edition and no map"):
            list(commits_in(file_of(line("publish", A), COMMIT)))

    @unittest.skipUnless(lostd(), "no program is built")
    def test_it_is_a_file_of_desk_lines(self) -> None:
        self.assertEqual(replay(journal_bytes(commits_of(A, B, C)).decode())[-1], {"committed": {"edition": 3}})

    @unittest.skipUnless(serve_has("--journal"), "no program with --journal is built")
    def test_a_server_takes_it_for_its_journal(self) -> None:
        path, whole = f"{self.folder}/lost.journal", journal_bytes(commits_of(A, B, C))
        for journal, wanted, said in ((whole, 0, ""), (whole[:-2], 3, "the journal ends before its last commit"), (journal_bytes([]), 0, "")):
            with open(path, "wb") as file:
                file.write(journal)
            ran = subprocess.run([str(lostd()), "check", "--journal", path], capture_output=True, text=True, timeout=60)
            self.assertEqual(ran.returncode, wanted, ran.stderr)
            self.assertIn(said, ran.stderr)
        with open(path, "wb") as file:
            file.write(whole)
        ran = subprocess.run([str(lostd()), "check", "--journal", path], capture_output=True, text=True, timeout=60)
        self.assertEqual(ran.stdout, f"done lines=7 edition=3 mappings=3 map={digest(A, B, C)} dropped=0\n")
        with Server(["--queries", f"unix:{self.folder}/queries", "--journal", path, "--status", f"unix:{self.folder}/status"]) as server:
            self.assertEqual(server.first_line(), READY)
            self.assertEqual(standing_of(server_of(f"unix:{self.folder}/status"), 5), Standing(3, digest(A, B, C)))

    def test_what_is_kept_grows_with_the_log(self) -> None:
        for commits in (commits_of(A), commits_of(A, B, C), [], commits_of(B), commits_of(A, C), commits_of(A, C, D)):
            log = MemoryLog(commits)
            for _ in range(2):
                with snapshot_in(log, f"{self.folder}/state") as kept:
                    self.assertEqual(kept, f"{self.folder}/state/{FILE}")
                self.assertEqual(self.state(), journal_bytes(commits))

    def test_what_is_kept_and_broken_off_is_written_anew(self) -> None:
        log = MemoryLog(commits_of(A, B))
        whole = journal_bytes(log.commits)
        for broken in (whole[:-2], whole[:-1], whole + b'{"publish":', whole[:-2] + OPEN, b"\n", b"{}", f"{line('publish', A)}\n{COMMIT}\n".encode()):
            with self.subTest(broken=broken[-20:]):
                os.makedirs(f"{self.folder}/state", exist_ok=True)
                with open(f"{self.folder}/state/{FILE}", "wb") as file:
                    file.write(broken)
                with open(f"{self.folder}/state/{FILE}", "a+b") as file:
                    self.assertEqual(refresh(log, file), log.last())
                self.assertEqual(self.state(), whole)

    def test_without_a_folder_nothing_is_kept(self) -> None:
        with snapshot_in(MemoryLog([]), None) as path, open(path, "rb") as file:
            self.assertEqual(file.read(), journal_bytes([]))
        self.assertFalse(os.path.exists(path))
        self.assertEqual(EMPTY, Standing(0, "0" * 32))


class CommandLine(unittest.TestCase):
    """What goes wrong before there is a log."""

    def test_mistakes(self) -> None:
        for words in ([], ["init"], ["follow", "--log", "x"], ["publish", "--log", "x"], ["status", "--log", "x", "--nothing"]):
            self.assertEqual(run_tool("lost-feed", words)[0], 2, words)
        listen = ["follow", "--log", "x", "--desk", "unix:/x", "--status", "unix:/y", "--listen", "nowhere"]
        self.assertIn("is not HOST:PORT", run_tool("lost-feed", listen)[2])

    def test_no_database_or_no_driver(self) -> None:
        for words in (["init"], ["status"], ["snapshot"], ["publish", "/dev/null"]):
            status, output, said = run_tool("lost-feed", [*words, "--log", f"postgresql://{free_address()}/lost"])
            self.assertEqual((status, output), (1, ""))
            self.assertRegex(said, r"^lost-feed: (no connection to the database: .*|/usr/bin/python3 lacks the module psycopg2: on Debian 12: .*)\n$")
        self.assertEqual(run_tool("lost-feed", ["publish", "--log", "x", "/nothing"])[0], 1)
