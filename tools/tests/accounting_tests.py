"""`lostd check --journal`, `compact`, `audit` and `explain`, and the log of answers. Skipped where no program with them is built.
The expected digests and texts are made here, and never read off the program."""
from __future__ import annotations

import json
import os
import re
import stat
import subprocess
import threading
import time
import unittest
from typing import Any, Dict, List, Sequence, Tuple

from tests.journal_tests import CLOSED, COMMIT, ONE, OPEN, THREE, TWO, FOUR, Journals, commit_line, digest_of, journal_of, publish, sip_hash, timeless
from tests.running import lostd, serve_has
from tests.server import PATIENCE, ask, unix

WITHDRAW = '{"withdraw":{"lastUpdated":"2026-01-01T00:00:00Z","source":"map.example","sourceId":"S1"}}\n'
NAME = ["--name", "lost.example"]
# How long a line may take into the log, and after how long a log that was taken away is noticed.
SOON = 10.0
LOOK = 1.2
# How often a journal is looked at while a desk commits, and at most how often it commits meanwhile.
LOOKS, MOST_COMMITS = 20, 50_000
TIMES = re.compile(r"^[0-9]{4}-[0-9]{2}-[0-9]{2}T[0-9]{2}:[0-9]{2}:[0-9]{2}\.[0-9]{9}Z$")


def run(words: Sequence[str], given: bytes = b"") -> Tuple[int, str, str]:
    """The status, the output and what is said on standard error."""
    ran = subprocess.run([str(lostd()), *words], input=given, capture_output=True, timeout=PATIENCE)
    return ran.returncode, ran.stdout.decode(errors="surrogateescape"), ran.stderr.decode()


def numbered(number: int) -> str:
    """A publish of the same place under a name of this number."""
    line = json.loads(ONE)
    line["publish"].update(sourceId=f"N{number}", key=f"N{number}")
    return json.dumps(line) + "\n"


def stamped(edit: str, stamp: str) -> str:
    """A publish with another stamp."""
    return edit.replace("2025-12-01T00:00:00Z", stamp)


@unittest.skipUnless(serve_has("--log"), "no program with --log is built")
class CheckTests(Journals):
    """A journal is checked without a server."""

    def test_whole(self) -> None:
        """What it keeps is told, and the file stays as it is, also beside the server that uses it."""
        journal = journal_of([ONE], [TWO, THREE])
        self.write(journal)
        done = f"done lines=6 edition=3 mappings=3 map={digest_of([ONE, TWO, THREE])} dropped=0\n"
        self.assertEqual(run(["check", "--journal", self.journal]), (0, done, ""))
        self.assertEqual(self.file(), journal)
        with self.ready():
            self.assertEqual(run(["check", "--journal", self.journal]), (0, done, ""))

    def test_while_a_server_commits(self) -> None:
        """The journal that a server goes on to write is no damage: each look at it finds a commit."""
        with self.ready() as server:
            is_over = threading.Event()
            desk = threading.Thread(target=self.commit_until, args=(is_over,))
            desk.start()
            try:
                for _ in range(LOOKS):
                    status, output, said = run(["check", "--journal", self.journal])
                    self.assertEqual((status, said), (0, ""))
                    self.assertRegex(output, r"edition=(\d+) mappings=\1 ")
                    self.assertEqual(run(["compact", "--journal", self.journal])[0], 0)
                    asked = ["explain", "--journal", self.journal, *NAME, "--now", "2100-01-01T00:00:00Z"]
                    self.assertEqual(run(asked, self.question.encode())[0], 0)
            finally:
                is_over.set()
                desk.join(PATIENCE)
            self.kill(server)

    def commit_until(self, is_over: threading.Event) -> None:
        """Commits one mapping after another until told to end."""
        with unix(self.desk) as desk:
            for number in range(MOST_COMMITS):
                self.assertIn("staged", ask(desk, numbered(number)))
                self.assertIn("committed", ask(desk, COMMIT))
                if is_over.is_set():
                    return

    def test_behind_the_last_commit(self) -> None:
        """What a server would drop is told, and stays."""
        behind = TWO.encode() + b"half"
        self.write(journal_of([ONE]) + behind)
        done = f"done lines=3 edition=1 mappings=1 map={digest_of([ONE])} dropped={len(behind)}\n"
        self.assertEqual(run(["check", "--journal", self.journal]), (0, done, ""))
        self.assertEqual(self.file(), journal_of([ONE]) + behind)

    def test_damaged(self) -> None:
        """It is told in the words of the server."""
        self.write(journal_of([ONE], [TWO]).replace(b"sip:S2@", b"sip:S3@"))
        status, output, said = run(["check", "--journal", self.journal])
        with self.server() as server:
            self.assertEqual(server.end(), (status, said.splitlines()))
        self.assertEqual((status, output), (3, ""))

    def test_no_journal(self) -> None:
        """No file, an empty one, a folder, and files beside it on the command line."""
        missing = f"lostd: --journal: {self.journal}: no file is there, or an empty one\n"
        self.assertEqual(run(["check", "--journal", self.journal]), (1, "", missing))
        self.write(b"")
        self.assertEqual(run(["check", "--journal", self.journal]), (1, "", missing))
        folder = f"lostd: --journal: {self.folder}: the journal is not a regular file\n"
        self.assertEqual(run(["check", "--journal", self.folder]), (1, "", folder))
        self.assertEqual(run(["check", "--journal", self.journal, "map.jsonl"])[0], 2)


@unittest.skipUnless(serve_has("--log"), "no program with --log is built")
class CompactTests(Journals):
    """A journal is written anew."""

    def compact(self, *words: str) -> str:
        """Writes the journal anew, in its own place; gives what is said."""
        status, output, said = run(["compact", "--journal", self.journal, *words])
        self.assertEqual(status, 0, said)
        self.write(output.encode())
        return said

    def test_the_same_map(self) -> None:
        """Replaced and withdrawn mappings are gone, the map has the same digest, and what was withdrawn is remembered."""
        again = TWO.replace("sip:S2@", "sip:T2@").replace('"publish"', '"replace"').replace("2025-12-01", "2025-12-02")
        with self.ready():
            with unix(self.desk) as desk:
                for edit in (ONE, TWO, WITHDRAW, again, THREE, COMMIT):
                    self.assertNotIn("refused", ask(desk, edit))
            digest = self.page("/health").split()[-1]
        said = self.compact()
        self.assertEqual(said, f"lostd: compact: edition 5, map {digest}: now edition 4, 2 mappings, 1 withdrawals, map {digest}\n")
        self.assertEqual(run(["check", "--journal", self.journal])[1], f"done lines=6 edition=4 mappings=2 map={digest} dropped=0\n")
        with self.ready():
            self.assertEqual(self.page("/health"), f"ready\nedition 4\nmap {digest}\n")
            with unix(self.desk) as desk:
                self.assertEqual(ask(desk, ONE), '{"refused":{"code":21,"name":"Withdrawn"}}\n')
                self.assertEqual(ask(desk, stamped(ONE, "2026-01-01T00:00:00Z")), '{"refused":{"code":21,"name":"Withdrawn"}}\n')
                self.assertEqual(ask(desk, stamped(ONE, "2026-01-01T00:00:01Z")), '{"staged":{"pending":1}}\n')

    def test_its_text(self) -> None:
        """It is a journal with one commit."""
        self.write(journal_of([ONE], [TWO], [THREE]))
        self.compact()
        lines = self.file().splitlines(keepends=True)
        wanted = commit_line([], []) + OPEN + b"".join(lines[1:-1]) + commit_line([ONE, TWO, THREE], [line.decode() for line in lines[1:-1]]) + CLOSED
        self.assertEqual(timeless(self.file()), wanted)
        self.assertEqual([json.loads(line) for line in lines[1:-1]], [json.loads(edit) for edit in (ONE, TWO, THREE)])

    def test_nothing(self) -> None:
        """A journal without edits stays one."""
        self.write(journal_of())
        self.compact()
        with self.ready():
            self.holds([])

    def test_drop_expired(self) -> None:
        """What expired before a time is left out."""
        expired = TWO.replace("NO-EXPIRATION", "2026-06-01T00:00:00Z")
        self.write(journal_of([ONE], [expired]))
        self.compact("--drop-expired", "2026-05-31T23:59:59Z")
        self.assertIn(" mappings=2 ", run(["check", "--journal", self.journal])[1])
        self.compact("--drop-expired", "2026-06-01T00:00:00Z")
        self.assertIn(f" mappings=1 map={digest_of([ONE])} ", run(["check", "--journal", self.journal])[1])

    def test_faults(self) -> None:
        """No journal, a damaged one, and a time that is none."""
        self.assertEqual(run(["compact", "--journal", self.journal])[0], 1)
        self.write(journal_of([ONE])[:-1])
        self.assertEqual(run(["compact", "--journal", self.journal])[:2], (3, ""))
        self.assertEqual(run(["compact", "--journal", self.journal, "--drop-expired", "soon"])[0], 2)


@unittest.skipUnless(serve_has("--log"), "no program with --log is built")
class Logs(Journals):
    """A server with a journal and a log."""

    def setUp(self) -> None:
        super().setUp()
        self.log = f"{self.folder}/answers.log"

    def logged(self, count: int) -> List[Dict[str, Any]]:
        """The lines of the log, once so many are whole."""
        patience = time.monotonic() + SOON
        while time.monotonic() < patience:
            lines = [line for line in self.lines() if line.endswith(b"\n")]
            if len(lines) >= count:
                return [json.loads(line) for line in lines]
            time.sleep(0.01)
        raise AssertionError(f"the log has {len(self.lines())} lines in place of {count}")

    def lines(self) -> List[bytes]:
        """The lines that the log has now."""
        if not os.path.exists(self.log):
            return []
        with open(self.log, "rb") as file:
            return file.read().splitlines(keepends=True)

    def asked(self, number: int) -> str:
        """The line that asks for a place of the mapping of this number."""
        return self.question.replace("[5000000,5000000]", f"[{number * 20_000_000 + 5_000_000},5000000]")

    def history(self, *words: str) -> List[str]:
        """Commits and questions in turn; gives the replies to the questions, whose lines are in the log."""
        replies = []
        with self.ready("--log", self.log, *words) as server, unix(self.queries) as client:
            for number, edits in enumerate(([ONE], [TWO, THREE]), 1):
                with unix(self.desk) as desk:
                    for edit in [*edits, COMMIT]:
                        ask(desk, edit)
                for place in range(1, 5):
                    replies.append(ask(client, self.asked(place)))
                self.logged(4 * number)
            self.kill(server)
        return replies

    def audit(self, given: bytes = b"") -> Tuple[int, List[str], str]:
        """The status, the lines and what is said of an audit."""
        status, output, said = run(["audit", "--journal", self.journal, *NAME], given or b"".join(self.lines()))
        return status, output.splitlines(), said


class LogTests(Logs):
    """The log of answers."""

    def test_lines(self) -> None:
        """A line for each request line: its time, the edition that its reply names, the connection, and the texts."""
        replies = self.history("--log-replies", "whole")
        lines = self.logged(8)
        self.assertEqual([line["request"] + "\n" for line in lines], [self.asked(place) for place in range(1, 5)] * 2)
        self.assertEqual([line["reply"] + "\n" for line in lines], replies)
        self.assertEqual([line["edition"] for line in lines], [1] * 4 + [3] * 4)
        self.assertEqual({line["connection"] for line in lines}, {1})
        for line in lines:
            self.assertEqual(list(line), ["time", "edition", "connection", "request", "reply"])
            self.assertRegex(line["time"], TIMES)
        self.assertEqual([line["time"] for line in lines], sorted(line["time"] for line in lines))
        self.assertEqual(stat.S_IMODE(os.stat(self.log).st_mode), 0o600)

    def test_kept_replies(self) -> None:
        """Digests of the replies by themselves, or nothing of them."""
        replies = self.history()
        self.assertEqual([line["digest"] for line in self.logged(8)], ["%016x" % sip_hash(reply[:-1].encode()) for reply in replies])
        os.unlink(self.log)
        os.unlink(self.journal)
        self.history("--log-replies", "none")
        for line in self.logged(8):
            self.assertEqual(list(line), ["time", "edition", "connection", "request"])

    def test_bytes(self) -> None:
        """Bytes that are no UTF-8, control codes, marks and letters come back as they were."""
        requests = [b'{"x":"\xff\xc3(\xe2\x82"}', "é€𝄞\\\"".encode(), bytes(code for code in range(32) if code != 10), b"\\udc80\x80", b"", b"\x7f"]
        with self.ready("--log", self.log, "--log-replies", "whole") as server, unix(self.queries) as client:
            for request in requests:
                client.sendall(request + b"\n")
                client.recv(65_536)
            lines = self.logged(len(requests))
            self.kill(server)
        self.assertEqual([line["request"].encode(errors="surrogateescape") for line in lines], requests)
        self.assertEqual(self.audit()[:2], (0, [f"done lines={len(requests)} differ=0 unjudged=0 internalError=0 leftOut=0 edition=0"]))

    def test_connections(self) -> None:
        """Each connection has its number."""
        with self.ready("--log", self.log) as server:
            for _ in range(3):
                with unix(self.queries) as client:
                    ask(client, self.question)
            numbers = [line["connection"] for line in self.logged(3)]
            self.kill(server)
        self.assertEqual(sorted(numbers), [1, 2, 3])

    def test_renamed(self) -> None:
        """A log that is renamed goes on at its path, and so does one that is removed."""
        with self.ready("--log", self.log) as server, unix(self.queries) as client:
            for take_away in (lambda: os.rename(self.log, f"{self.log}.1"), lambda: os.unlink(self.log)):
                ask(client, self.question)
                self.logged(1)
                take_away()
                time.sleep(LOOK)
            ask(client, self.question)
            self.logged(1)
            with open(f"{self.log}.1", "rb") as file:
                self.assertEqual(len(file.read().splitlines()), 1)
            self.assertIn("\nlostd_log_lines_total 3\n", self.page("/metrics"))
            self.kill(server)

    def test_not_ended(self) -> None:
        """A line that a killed server has not ended is cut off, and that is said; what is no line of a log is ended."""
        self.history()
        whole = b"".join(self.lines())
        for torn in (b"{", b'{"time":"2026', self.lines()[0][:-1], b'{"leftOut":{"lines":1'):
            with open(self.log, "wb") as file:
                file.write(whole + torn)
            with self.ready("--log", self.log) as server:
                self.assertEqual(self.kill(server), [f"lostd: --log: dropped a last line that was not ended: bytes {len(torn)}"])
            self.assertEqual(b"".join(self.lines()), whole)
        for kept, wanted in ((b"notes", b"notes\n"), (whole, whole), (b"a\n\nb", b"a\n\nb\n"), (b"x" * 200_000, b"x" * 200_000 + b"\n")):
            with open(self.log, "wb") as file:
                file.write(kept)
            with self.ready("--log", self.log) as server:
                self.assertEqual(self.kill(server), [])
            self.assertEqual(b"".join(self.lines()), wanted)

    def test_rotated(self) -> None:
        """A log that is cut goes on."""
        with self.ready("--log", self.log) as server, unix(self.queries) as client:
            ask(client, self.question)
            self.logged(1)
            os.truncate(self.log, 0)
            ask(client, self.question)
            self.logged(1)
            self.assertIn("\nlostd_log_lines_total 2\n", self.page("/metrics"))
            self.assertIn("\nlostd_log_left_out_total 0\n", self.page("/metrics"))
            self.kill(server)

    def test_a_pipe_that_nobody_reads(self) -> None:
        """Answers go on; what the pipe does not take is left out and counted, and said once there is room."""
        os.mkfifo(self.log)
        with self.ready("--log", self.log, "--log-replies", "none") as server, unix(self.queries) as client:
            long = json.dumps({"listServices": {}, "x": "y" * 200_000}) + "\n"
            # The first one fills the pipe, once the thread that writes has looked; 64 wait for it, and 1 MiB at the worker.
            ask(client, long)
            time.sleep(LOOK)
            for line in [*[self.question] * 65, *[long] * 6, *[self.question] * 5]:
                ask(client, line)
            self.assertNotIn("\nlostd_log_left_out_total 0\n", self.page("/metrics"))
            pipe = os.open(self.log, os.O_RDONLY | os.O_NONBLOCK)
            try:
                said = b""
                patience = time.monotonic() + PATIENCE
                while b'{"leftOut":{"lines":' not in said and time.monotonic() < patience:
                    ask(client, self.question)
                    try:
                        said += os.read(pipe, 1_048_576)
                    except BlockingIOError:
                        time.sleep(0.01)
            finally:
                os.close(pipe)
            self.assertRegex(said, rb'\n\{"leftOut":\{"lines":[0-9]+,"from":"[^"]+Z","to":"[^"]+Z"\}\}\n')
            self.kill(server)

    def test_no_log(self) -> None:
        """A path that cannot be opened ends the server with one line."""
        with self.server("--log", f"{self.folder}/nowhere/answers.log") as server:
            status, said = server.end()
        self.assertEqual((status, len(said)), (1, 1))
        self.assertTrue(said[0].startswith(f"lostd: --log: {self.folder}/nowhere/answers.log: "), said)


class AuditTests(Logs):
    """A log is audited."""

    def done(self, lines: int, differ: int = 0, unjudged: int = 0, left_out: int = 0) -> str:
        """The last line of an audit."""
        return f"done lines={lines} differ={differ} unjudged={unjudged} internalError=0 leftOut={left_out} edition=3"

    def test_right(self) -> None:
        """Each reply is right, with whole replies and with digests."""
        self.history("--log-replies", "whole")
        self.assertEqual(self.audit(), (0, [self.done(8)], ""))
        os.unlink(self.log)
        os.unlink(self.journal)
        self.history()
        self.assertEqual(self.audit(), (0, [self.done(8)], ""))

    def test_spoilt_replies(self) -> None:
        """Each is named, with both replies."""
        replies = self.history("--log-replies", "whole")
        lines = self.lines()
        for number in (1, 5):
            wrong = lines[number].replace(b"sip:S2@", b"sip:S9@").replace(b"notFound", b"notHeard")
            self.assertNotEqual(wrong, lines[number])
            lines[number] = wrong
        status, said, _ = self.audit(b"".join(lines))
        self.assertEqual((status, len(said)), (3, 3))
        for line, number, edition in zip(said, (1, 5), (1, 3)):
            wrong = json.loads(lines[number])["reply"]
            self.assertEqual(line, f"line {number + 1}: edition {edition}, connection 1: the reply was {wrong}, and the right reply is {replies[number].rstrip()}")
        self.assertEqual(said[2], self.done(8, differ=2))

    def test_spoilt_digest(self) -> None:
        """It is named, with the right reply."""
        replies = self.history()
        lines = self.lines()
        digest = json.loads(lines[2])["digest"]
        lines[2] = lines[2].replace(digest.encode(), b"0123456789abcdef")
        status, said, _ = self.audit(b"".join(lines))
        wanted = f"line 3: edition 1, connection 1: the reply had the digest 0123456789abcdef, and the right reply is {replies[2].rstrip()}"
        self.assertEqual((status, said), (3, [wanted, self.done(8, differ=1)]))

    def test_other_times_and_editions(self) -> None:
        """A moment decides what has expired; an edition that no commit made, and one that the journal does not have, are named."""
        expired = ONE.replace("NO-EXPIRATION", "2026-06-01T00:00:00Z")
        self.write(journal_of([expired], [TWO, THREE]))
        asked = self.asked(1).rstrip("\n")
        wanted = [("2026-05-01T00:00:00Z", 1, "found"), ("2026-07-01T00:00:00Z", 1, "serviceNotImplemented")]
        lines = b""
        for moment, edition, _ in wanted:
            status, reply, _ = run(["explain", "--journal", self.journal, *NAME, "--now", moment, "--edition", str(edition)], self.asked(1).encode())
            self.assertEqual(status, 0)
            lines += self.line(moment, edition, asked, reply)
        self.assertIn('"sourceId":"S1"', json.loads(lines.splitlines()[0])["reply"])
        self.assertIn("serviceNotImplemented", json.loads(lines.splitlines()[1])["reply"])
        self.assertEqual(self.audit(lines)[:2], (0, ["done lines=2 differ=0 unjudged=0 internalError=0 leftOut=0 edition=1"]))
        swapped = lines.replace(b"2026-05-01", b"2026-0X-01").replace(b"2026-07-01", b"2026-05-01").replace(b"2026-0X-01", b"2026-07-01")
        self.assertEqual(self.audit(swapped)[1][-1], "done lines=2 differ=2 unjudged=0 internalError=0 leftOut=0 edition=1")
        passed = "not judged: its edition was passed: no commit made it, or the line comes too late (see --help)"
        for edition, cause in ((2, passed), (4, "not judged: the journal has no such edition")):
            line = self.line(wanted[0][0], edition, asked, "{}\n")
            self.assertEqual(self.audit(line)[1], [f"line 1: edition {edition}, connection 7: {cause}", self.done(1, unjudged=1)])

    def line(self, moment: str, edition: int, request: str, reply: str) -> bytes:
        """A line of a log."""
        return (json.dumps({"time": moment, "edition": edition, "connection": 7, "request": request, "reply": reply.rstrip("\n")}, separators=(",", ":")) + "\n").encode()

    def test_out_of_order(self) -> None:
        """Lines of one log need not be in order of editions."""
        self.history("--log-replies", "whole")
        lines = self.lines()
        self.assertEqual(self.audit(b"".join(reversed(lines))), (0, [self.done(8)], ""))

    def test_other_lines(self) -> None:
        """What is no line of a log is named; lines that the log left out are counted."""
        self.history("--log-replies", "whole")
        left_out = b'{"leftOut":{"lines":12,"from":"2026-01-01T00:00:00.000000000Z","to":"2026-01-01T00:00:01.000000000Z"}}\n'
        lines = b"".join(self.lines())
        self.assertEqual(self.audit(lines + left_out), (0, [self.done(9, left_out=12)], ""))
        for other in (b"\n", b"{}\n", lines[:50] + b"\n", lines.splitlines(keepends=True)[0].replace(b'"}\n', b'"\n')):
            status, said, _ = self.audit(other + lines)
            self.assertEqual((status, said), (3, ["line 1: not judged: it is no line of a log of answers", self.done(9, unjudged=1)]))

    def test_long_lines(self) -> None:
        """A line of the log may be six times as long as its request; one that is longer than any is named."""
        codes = b'{"x":"' + b"\x07" * 1_000_000 + b'"}\n'
        with self.ready("--log", self.log, "--log-replies", "whole") as server, unix(self.queries) as client:
            client.sendall(codes)
            self.assertIn(b"badRequest", client.recv(65_536))
            self.logged(1)
            self.kill(server)
        line = self.lines()[0]
        self.assertGreater(len(line), 6_000_000)
        self.assertEqual(self.audit()[:2], (0, ["done lines=1 differ=0 unjudged=0 internalError=0 leftOut=0 edition=0"]))
        status, said, _ = self.audit(line + b"x" * 67_108_865 + b"\n")
        self.assertEqual((status, said), (3, ["line 2: not judged: it has more than 64 MiB", "done lines=2 differ=0 unjudged=1 internalError=0 leftOut=0 edition=0"]))

    def test_without_replies(self) -> None:
        """A log that keeps nothing of its replies cannot be judged."""
        self.history("--log-replies", "none")
        status, said, _ = self.audit()
        self.assertEqual((status, said[-1]), (3, self.done(8, unjudged=8)))
        self.assertEqual(said[0], "line 1: edition 1, connection 1: not judged: the log keeps nothing of its reply")

    def test_a_changed_journal(self) -> None:
        """It is damaged, and said so."""
        self.history()
        self.write(self.file().replace(b"sip:S1@", b"sip:S9@"))
        status, said, told = self.audit()
        self.assertEqual((status, said), (3, []))
        self.assertIn("line 3, offset ", told)


class ExplainTests(Journals):
    """Requests are answered as of an edition."""

    @unittest.skipUnless(serve_has("--log"), "no program with --log is built")
    def test_editions(self) -> None:
        """By its number, and by the times of the commits."""
        text = commit_line([], [], "2026-01-01T00:00:00Z") + OPEN
        text += ONE.encode() + commit_line([ONE], [ONE], "2026-02-01T00:00:00Z") + OPEN
        text += TWO.encode() + commit_line([ONE, TWO], [TWO], "2026-03-01T00:00:00Z") + CLOSED
        self.write(text)
        question = self.question.replace("[5000000,5000000]", "[45000000,5000000]").encode()
        words = ["explain", "--journal", self.journal, *NAME, "--now"]
        for moment, edition, wanted in (
            ("2026-02-15T00:00:00Z", ["--edition", "1"], "notFound"),
            ("2026-02-15T00:00:00Z", ["--edition", "2"], '"sourceId":"S2"'),
            ("2026-02-28T23:59:59Z", [], "notFound"),
            ("2026-03-01T00:00:00Z", [], '"sourceId":"S2"'),
            ("2027-03-01T00:00:00Z", [], '"sourceId":"S2"'),
            ("2026-01-15T00:00:00Z", [], "serviceNotImplemented"),
        ):
            with self.subTest(moment=moment, edition=edition):
                status, output, said = run([*words, moment, *edition], question)
                self.assertEqual((status, said), (0, ""))
                self.assertIn(wanted, output)
        self.assertEqual(run([*words, "2025-01-01T00:00:00Z"], question), (1, "", f"lostd: --journal: {self.journal}: it begins after the time of --now\n"))
        self.assertEqual(run([*words, "2026-02-15T00:00:00Z", "--edition", "7"], question), (1, "", f"lostd: --journal: {self.journal}: no commit made edition 7\n"))
        self.assertEqual(run([*words, "soon"], question)[0], 2)
