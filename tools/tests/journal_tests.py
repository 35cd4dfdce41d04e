"""`lostd serve --journal`: what is committed survives, and what a crash or damage leaves is told apart. Skipped where no program is
built. The expected sums and digests are made here, and never read off the program."""
from __future__ import annotations

import contextlib
import http.client
import json
import os
import re
import signal
import stat
import subprocess
import tempfile
import unittest
from typing import Iterator, List, Sequence, Tuple

from maptools.digest import map_digest, mapping_digest
from tests.running import TOP, lostd, serve_has
from tests.server import COMMITTED, FREE, PATIENCE, READY, Server, ask, unix

COMMIT = '{"commit":{}}\n'
TIME = "2026-01-01T00:00:00Z"
WORD = (1 << 64) - 1
NEWLINE = b"\n"
CLOSED, OPEN = b" \n", b"\t\n"
# What a small disk gives a file at once.
PAGE = 4096


def turned(word: int, bits: int) -> int:
    """A word of 64 bits, turned to the left."""
    return (word << bits | word >> (64 - bits)) & WORD


def rounded(state: Sequence[int]) -> Tuple[int, int, int, int]:
    """The state of SipHash after a round."""
    a, b, c, d = state
    a, c = (a + b) & WORD, (c + d) & WORD
    b, d = turned(b, 13) ^ a, turned(d, 16) ^ c
    a = turned(a, 32)
    c, a = (c + b) & WORD, (a + d) & WORD
    b, d = turned(b, 17) ^ c, turned(d, 21) ^ a
    return a, b, turned(c, 32), d


def sip_hash(text: bytes) -> int:
    """SipHash-1-3 under the key 0."""
    state = (0x736F6D6570736575, 0x646F72616E646F6D, 0x6C7967656E657261, 0x7465646279746573)
    padded = text + bytes(7 - len(text) % 8) + bytes([len(text) % 256])
    for at in range(0, len(padded), 8):
        word = int.from_bytes(padded[at : at + 8], "little")
        a, b, c, d = state
        a, b, c, d = rounded((a, b, c, d ^ word))
        state = (a ^ word, b, c, d)
    a, b, c, d = state
    state = (a, b, c ^ 0xFF, d)
    for _ in range(3):
        state = rounded(state)
    return state[0] ^ state[1] ^ state[2] ^ state[3]


def publish(number: int) -> str:
    """The line that publishes the mapping of this number."""
    place = number * 20_000_000
    ring = [[place, 0], [place, 10_000_000], [place + 10_000_000, 10_000_000], [place + 10_000_000, 0], [place, 0]]
    mapping = {
        "expires": "NO-EXPIRATION",
        "key": f"K-{number}",
        "lastUpdated": "2025-12-01T00:00:00Z",
        "service": "urn:service:sos.police",
        "serviceBoundary": [{"polygon": ring, "profile": "geodetic-2d"}],
        "source": "map.example",
        "sourceId": f"S{number}",
        "uri": [f"sip:S{number}@map.example"],
    }
    return json.dumps({"publish": mapping}, separators=(",", ":")) + "\n"


def digest_of(edits: Sequence[str]) -> str:
    """The digest of the map that these publishes make."""
    return map_digest(mapping_digest(json.loads(edit)["publish"]) for edit in edits)


def commit_line(edits: Sequence[str], since: Sequence[str], time: str = TIME) -> bytes:
    """The line of a commit of `since`, up to its gate, with which all of `edits` are published."""
    total = sip_hash("".join(since).encode())
    return b'{"commit":{"edition":%d,"map":"%s","sum":"%016x","time":"%s"}}' % (len(edits), digest_of(edits).encode(), total, time.encode())


def journal_of(*commits: Sequence[str]) -> bytes:
    """A journal with these commits, each a list of publishes."""
    text, edits = commit_line([], []), []  # type: bytes, List[str]
    for commit in commits:
        edits += commit
        text += OPEN + "".join(commit).encode() + commit_line(edits, commit)
    return text + CLOSED


def timeless(journal: bytes) -> bytes:
    """A journal with the same time in each commit."""
    return re.sub(rb'"time":"2[0-9]{3}-[0-9]{2}-[0-9]{2}T[0-9]{2}:[0-9]{2}:[0-9]{2}Z"', b'"time":"' + TIME.encode() + b'"', journal)


def dropped(behind: bytes) -> str:
    """What is said where these bytes stood behind the last commit."""
    return f"lostd: --journal: dropped what stood behind the last commit: bytes {len(behind)}, whole lines {behind.count(NEWLINE)}\n"


ONE, TWO, THREE, FOUR = (publish(number) for number in range(1, 5))


class SipHashTests(unittest.TestCase):
    """The sum of this file."""

    def test_known_sums(self) -> None:
        """The sum of nothing, as Rust's DefaultHasher gives it, and the sums of texts of all lengths differ."""
        self.assertEqual(sip_hash(b""), 15130871412783076140)
        self.assertEqual(len({sip_hash(bytes(length)) for length in range(64)}), 64)


@unittest.skipUnless(serve_has("--journal"), "no program with --journal is built")
class Journals(unittest.TestCase):
    """A folder with a journal, and a server of a desk and clients over it."""

    def setUp(self) -> None:
        folder = tempfile.TemporaryDirectory()
        self.addCleanup(folder.cleanup)
        self.folder = folder.name
        self.journal = f"{self.folder}/lost.journal"
        self.desk, self.queries, self.status = (f"{self.folder}/{name}.sock" for name in ("desk", "queries", "status"))
        self.words = ["--desk", f"unix:{self.desk}", "--queries", f"unix:{self.queries}", "--status", f"unix:{self.status}"]
        with open(f"{TOP}/examples/one-mapping.jsonl", encoding="utf-8") as session:
            self.question = session.readlines()[2]

    def server(self, *words: str) -> Server:
        """A server over the journal."""
        return Server([*self.words, "--journal", self.journal, *words])

    def ready(self, *words: str) -> Server:
        """The same, which is ready."""
        server = self.server(*words)
        self.assertEqual(server.first_line(), READY)
        return server

    def file(self) -> bytes:
        """The bytes of the journal."""
        with open(self.journal, "rb") as file:
            return file.read()

    def write(self, journal: bytes) -> None:
        """Makes the journal these bytes."""
        with open(self.journal, "wb") as file:
            file.write(journal)

    def map(self, lines: str) -> str:
        """The path of a map with these lines."""
        path = f"{self.folder}/map.jsonl"
        with open(path, "w", encoding="utf-8") as file:
            file.write(lines)
        return path

    def page(self, path: str) -> str:
        """A page of the server's status."""
        connection = http.client.HTTPConnection("localhost", timeout=PATIENCE)
        connection.sock = unix(self.status)
        with contextlib.closing(connection):
            connection.request("GET", path)
            return connection.getresponse().read().decode()

    def holds(self, edits: Sequence[str]) -> None:
        """The server that runs has published these publishes."""
        self.assertEqual(self.page("/health"), f"ready\nedition {len(edits)}\nmap {digest_of(edits)}\n")

    def change(self, *commits: Sequence[str]) -> None:
        """Commits these publishes, where none was committed before."""
        edition = 0
        with unix(self.desk) as desk:
            for commit in commits:
                for pending, edit in enumerate(commit, 1):
                    self.assertEqual(ask(desk, edit), '{"staged":{"pending":%d}}\n' % pending)
                edition += len(commit)
                self.assertEqual(ask(desk, COMMIT), '{"committed":{"edition":%d}}\n' % edition)

    def kill(self, server: Server) -> List[str]:
        """Ends a server as a crash does, and gives what it said and no test has read, beside its commits."""
        server.process.send_signal(signal.SIGKILL)
        server.process.wait(PATIENCE)
        assert server.process.stderr is not None
        said = server.process.stderr.read().decode().splitlines()
        return [line for line in said if not COMMITTED.match(line)]


class KeptTests(Journals):
    """What is committed is kept."""

    def test_a_new_journal(self) -> None:
        """It has its first line, and only its owner may read and write it; nothing else is left beside it."""
        with self.ready():
            self.assertEqual(timeless(self.file()), journal_of())
            self.assertEqual(stat.S_IMODE(os.stat(self.journal).st_mode), 0o600)
            self.assertEqual(sorted(os.listdir(self.folder)), ["desk.sock", "lost.journal", "queries.sock", "status.sock"])
            self.holds([])

    def test_an_empty_file(self) -> None:
        """An empty file is begun like one that is not there."""
        self.write(b"")
        with self.ready():
            self.assertEqual(timeless(self.file()), journal_of())

    def test_commits_survive(self) -> None:
        """After SIGKILL the same edition and map are served, and the file is, byte for byte, what these commits make."""
        with self.ready() as server:
            self.change([ONE], [TWO, THREE])
            self.holds([ONE, TWO, THREE])
            self.kill(server)
        self.assertEqual(timeless(self.file()), journal_of([ONE], [TWO, THREE]))
        with self.ready() as server:
            self.holds([ONE, TWO, THREE])
            with unix(self.queries) as client:
                question = self.question.replace("[5000000,5000000]", "[65000000,5000000]")
                self.assertIn('"sourceId":"S3"', ask(client, question))
            with unix(self.desk) as desk:
                self.assertEqual(ask(desk, ONE), '{"refused":{"code":13,"name":"IdentityHeld"}}\n')
                self.assertEqual(ask(desk, FOUR), '{"staged":{"pending":1}}\n')
                self.assertEqual(ask(desk, COMMIT), '{"committed":{"edition":4}}\n')
            self.kill(server)
        self.assertEqual(timeless(self.file()), journal_of([ONE], [TWO, THREE], [FOUR]))

    def test_pending_edits(self) -> None:
        """They do not survive, and what stood of them is said."""
        with self.ready() as server:
            self.change([ONE])
            with unix(self.desk) as desk:
                self.assertEqual(ask(desk, TWO), '{"staged":{"pending":1}}\n')
                self.kill(server)
        with self.ready() as server:
            self.assertEqual(server.said(), dropped(TWO.encode()))
            self.holds([ONE])
        self.assertEqual(timeless(self.file()), journal_of([ONE]))

    def test_edits_that_a_desk_leaves(self) -> None:
        """What a desk leaves pending, and what is refused, is in no later commit."""
        with self.ready() as server:
            with unix(self.desk) as desk:
                self.assertEqual(ask(desk, TWO), '{"staged":{"pending":1}}\n')
                self.assertEqual(ask(desk, TWO), '{"refused":{"code":13,"name":"IdentityHeld"}}\n')
            self.change([ONE])
            self.kill(server)
        self.assertEqual(timeless(self.file()), journal_of([ONE]))

    def test_a_commit_of_nothing(self) -> None:
        """It leaves the file as it is."""
        with self.ready() as server, unix(self.desk) as desk:
            self.assertEqual(ask(desk, COMMIT), '{"committed":{"edition":0}}\n')
            self.kill(server)
        self.assertEqual(timeless(self.file()), journal_of())

    def test_desk_lines(self) -> None:
        """The journal is a file of desk lines: `lostd check` and --map read the same map out of it."""
        with self.ready() as server:
            self.change([ONE], [TWO, THREE])
            self.kill(server)
        checked = subprocess.run([str(lostd()), "check", self.journal], capture_output=True, timeout=PATIENCE)
        done = b"done lines=6 refused=0 badRequest=0 internalError=0 edition=3\n"
        self.assertEqual((checked.returncode, checked.stdout), (0, done))
        with Server([*self.words, "--map", self.journal]) as server:
            self.assertEqual(server.first_line(), READY)
            self.holds([ONE, TWO, THREE])


class MapTests(Journals):
    """A map beside a journal."""

    def test_a_map_begins_it(self) -> None:
        """The map's commits are in the file before the server is ready, and the next start needs no map."""
        path = self.map(ONE + COMMIT + TWO + THREE + COMMIT)
        with self.ready("--map", path) as server:
            self.assertEqual(timeless(self.file()), journal_of([ONE], [TWO, THREE]))
            self.kill(server)
        with self.ready():
            self.holds([ONE, TWO, THREE])

    def test_a_map_for_a_journal_without_edits(self) -> None:
        """It is read as for a new one."""
        self.write(journal_of())
        with self.ready("--map", self.map(ONE + COMMIT)):
            self.assertEqual(timeless(self.file()), journal_of([ONE]))

    def test_a_map_beside_edits(self) -> None:
        """It is refused, and the file stays."""
        self.write(journal_of([ONE, TWO]))
        path = self.map(THREE + COMMIT)
        with self.server("--map", path) as server:
            said = (
                f"lostd: --journal: {self.journal} holds 2 edits, so --map {path} is not read: "
                'compare both by "lostd check" and the map digest, and leave out one of them'
            )
            self.assertEqual(server.end(), (2, [said]))
        self.assertEqual(self.file(), journal_of([ONE, TWO]))

    def test_a_faulty_map(self) -> None:
        """It begins no journal; the same, mended, does."""
        path = self.map(ONE + ONE + COMMIT)
        with self.server("--map", path) as server:
            status, said = server.end()
        self.assertEqual((status, len(said)), (3, 2))
        self.assertRegex(said[0], r"^lostd: --map: line 2: 13 IdentityHeld")
        self.assertFalse(os.path.exists(self.journal))
        with self.ready("--map", self.map(ONE + COMMIT)):
            self.assertEqual(timeless(self.file()), journal_of([ONE]))

    def test_keep_going(self) -> None:
        """With --keep-going the journal has what was accepted and committed."""
        path = self.map(ONE + ONE + COMMIT + TWO)
        with self.ready("--map", path, "--keep-going") as server:
            said = self.kill(server)
        self.assertRegex(said[0], r"^lostd: --map: line 2: 13 IdentityHeld")
        self.assertEqual(said[1:], ["lostd: --map: 1 edits after the last commit were left out"])
        with self.ready():
            self.holds([ONE])


class CrashTests(Journals):
    """What a crash may leave behind the last commit is dropped."""

    def dropped(self, journal: bytes, behind: bytes, edits: Sequence[str]) -> None:
        """These bytes behind a journal are dropped, and that is said."""
        self.write(journal + behind)
        with self.ready() as server:
            self.assertEqual(server.said(), dropped(behind))
            self.holds(edits)
            self.kill(server)
        self.assertEqual(self.file(), journal)

    def test_behind_the_last_commit(self) -> None:
        """An edit, half of one, a commit and half of one, and bytes that are no lines."""
        journal = journal_of([ONE])
        commit = TWO.encode() + commit_line([ONE, TWO], [TWO]) + CLOSED
        wrong = TWO.encode() + commit_line([ONE, TWO], [THREE]) + CLOSED
        garbage = bytes(range(256)) * 8
        # What a longer edit that was refused left behind a commit, and an old copy of the journal's own commits.
        longer, copied = commit + THREE.encode()[99:], journal_of([ONE], [TWO])
        for behind in (TWO.encode(), TWO.encode()[:99], commit, commit[:-1], commit[:-2], longer, copied, wrong, wrong + garbage, garbage, b"\n", b"\0"):
            with self.subTest(behind=behind):
                self.dropped(journal, behind, [ONE])

    def test_behind_the_first_line(self) -> None:
        """The same where nothing was committed."""
        self.dropped(journal_of(), ONE.encode() + commit_line([ONE], [ONE]) + CLOSED, [])

    def test_each_end(self) -> None:
        """A commit that is cut after any number of bytes is dropped."""
        journal = journal_of([ONE])
        commit = TWO.encode() + commit_line([ONE, TWO], [TWO]) + CLOSED
        for count in range(1, len(commit), 37):
            with self.subTest(count=count):
                self.dropped(journal, commit[:count], [ONE])


class DamageTests(Journals):
    """A damaged journal starts no server, and stays as it is."""

    def damaged(self, journal: bytes, line: int, text: str) -> None:
        """No server starts over these bytes, and the cause is said."""
        self.write(journal)
        offset = len(NEWLINE.join(journal.split(NEWLINE)[: line - 1])) + min(line - 1, 1)
        said = f"lostd: --journal: {self.journal}: line {line}, offset {offset}: {text}"
        with self.server() as server:
            self.assertEqual(server.end(), (3, [said]))
        self.assertEqual(self.file(), journal)
        self.assertEqual(os.listdir(self.folder), ["lost.journal"])

    def flipped(self, old: bytes, new: bytes, line: int, text: str) -> None:
        """So with one text in place of another one that stands once in a journal."""
        journal = journal_of([ONE], [TWO, THREE])
        self.assertEqual(journal.count(old), 1)
        self.damaged(journal.replace(old, new), line, text)

    def test_edits(self) -> None:
        """An edit with another byte is refused, or has another sum."""
        other = "the commit says another edition, map or sum than its edits make"
        self.flipped(b"sip:S1@map.example", b"sip:S1@mao.example", 3, other)
        self.flipped(b"sip:S3@map.example", b"sip:S3@mao.example", 6, other)
        self.flipped(b'"sourceId":"S3"', b'"sourceId":"S1"', 5, "the edit is refused with code 13")
        self.flipped(b'"sourceId":"S3"', b'"sourceIe":"S3"', 5, "the edit is refused with code 1")
        self.flipped(ONE.encode(), b'{"listServices":{}}\n', 2, "the line is neither an edit nor a commit")

    def test_commits(self) -> None:
        """A commit with another edition, map or sum."""
        other = "the commit says another edition, map or sum than its edits make"
        first, second = commit_line([ONE], [ONE]), commit_line([ONE, TWO, THREE], [TWO, THREE])
        self.flipped(first, first.replace(b'"edition":1', b'"edition":2'), 3, other)
        self.flipped(second, second.replace(b'"edition":3', b'"edition":2'), 6, other)
        self.flipped(first, first.replace(digest_of([ONE]).encode(), digest_of([TWO]).encode()), 3, other)
        self.flipped(second, commit_line([ONE, TWO, THREE], [THREE, TWO]), 6, other)
        self.flipped(second, commit_line([ONE, TWO, THREE], []), 6, other)

    def test_gates(self) -> None:
        """A gate that is neither open nor closed, and an open one at the end."""
        torn = "the byte before the end of the commit's line is neither a space nor a tab"
        end = "the journal ends before its last commit"
        first = commit_line([ONE], [ONE])
        self.flipped(first + OPEN, first + b"\r\n", 3, torn)
        journal = journal_of([ONE], [TWO])
        self.damaged(journal[:-2] + b"x\n", 5, torn)
        self.damaged(journal[:-2] + OPEN, 6, end)
        self.damaged(journal[:-1], 5, end)

    def test_a_closed_gate_before_commits(self) -> None:
        """Behind it a crash leaves no commit whose gate is open."""
        behind = "a whole commit whose line ends in a tab stands behind a commit whose line ends in a space"
        journal = journal_of([ONE], [TWO], [THREE])
        first = commit_line([ONE], [ONE])
        self.damaged(journal.replace(first + OPEN, first + CLOSED), 5, behind)
        commit = TWO.encode() + commit_line([ONE, TWO], [TWO]) + OPEN
        self.damaged(journal_of([ONE]) + commit, 5, behind)
        self.damaged(journal_of([ONE]) + commit + b"x", 5, behind)

    def test_other_files(self) -> None:
        """Files that are no journal."""
        self.damaged((ONE + COMMIT).encode(), 2, "the byte before the end of the commit's line is neither a space nor a tab")
        self.damaged(b"\n", 1, "the line is neither an edit nor a commit")
        self.damaged(b"x" * 9_000_000 + b"\n", 1, "a line is too long")
        self.damaged(b"x", 1, "the journal ends before its last commit")


class FaultTests(Journals):
    """Files that cannot be used, and disks that fail."""

    def test_a_second_server(self) -> None:
        """It ends with one line, and the first goes on."""
        with self.ready():
            with Server(["--queries", FREE, "--journal", self.journal]) as other:
                self.assertEqual(other.end(), (1, [f"lostd: --journal: {self.journal}: the journal is in use, or another one stands in its place"]))
            self.change([ONE])
            self.holds([ONE])

    def test_no_file(self) -> None:
        """A folder, a link and a path without a folder are no journals, and an empty path is a mistake."""
        os.symlink(f"{self.folder}/elsewhere", f"{self.folder}/link")
        for path in (self.folder, f"{self.folder}/link", f"{self.folder}/nowhere/lost.journal"):
            with Server([*self.words, "--journal", path]) as server:
                status, said = server.end()
            self.assertEqual((status, len(said)), (1, 1))
            self.assertTrue(said[0].startswith(f"lostd: --journal: {path}: "), said)
        with Server([*self.words, "--journal", ""]) as server:
            self.assertEqual(server.end(), (2, ["lostd: --journal is empty: it must name a file"]))
        self.assertEqual(os.listdir(self.folder), ["link"])

    def test_nothing_to_serve(self) -> None:
        """A journal alone is enough, and neither a desk nor a map nor a journal is not."""
        with Server(["--queries", FREE, "--journal", self.journal]) as server:
            self.assertEqual(server.first_line(), READY)
        with Server(["--queries", FREE]) as server:
            status, said = server.end()
        self.assertEqual((status, len(said)), (2, 1))
        self.assertIn("--journal", said[0])

    @contextlib.contextmanager
    def small_disk(self) -> Iterator[str]:
        """A folder with 64 KiB of room."""
        folder = f"{self.folder}/disk"
        os.mkdir(folder)
        words = ["mount", "-t", "tmpfs", "-o", "size=64k", "tmpfs", folder]
        if os.geteuid() != 0 or subprocess.run(words, capture_output=True).returncode != 0:
            self.skipTest("no disk can be mounted")
        try:
            yield folder
        finally:
            subprocess.run(["umount", folder], check=True)

    def test_a_full_disk(self) -> None:
        """Edits and commits that have no room are refused and change nothing; once there is room, all goes on."""
        not_kept = '{"refused":{"code":23,"name":"NotKept"}}\n'
        with self.small_disk() as disk:
            self.journal = f"{disk}/lost.journal"
            with self.ready() as server:
                self.change([ONE])
                with open(f"{disk}/filler", "wb", buffering=0) as filler, contextlib.suppress(OSError):
                    while filler.write(bytes(PAGE)):
                        pass
                # It ends a few bytes before the page that it has.
                spaces = " " * (PAGE - 9 - len(self.file()) - len(TWO))
                edits = [ONE, TWO.replace("\n", f"{spaces}\n")]
                with unix(self.desk) as desk:
                    self.assertEqual(ask(desk, edits[1]), '{"staged":{"pending":1}}\n')
                    self.assertEqual(ask(desk, THREE), not_kept)
                    self.assertEqual(ask(desk, COMMIT), not_kept)
                    self.holds([ONE])
                    os.unlink(f"{disk}/filler")
                    self.assertEqual(ask(desk, COMMIT), '{"committed":{"edition":2}}\n')
                self.holds(edits)
                self.assertIn("\nlostd_journal_failed 0\n", self.page("/metrics"))
                self.assertIn('lostd_refusals_total{code="23",name="NotKept"} 2\n', self.page("/metrics"))
                (said,) = self.kill(server)
                self.assertRegex(said, "^lostd: --journal: the disk failed: ")
            with self.ready() as server:
                self.holds(edits)
                self.kill(server)
            self.assertEqual(timeless(self.file()), journal_of([ONE], edits[1:]))
