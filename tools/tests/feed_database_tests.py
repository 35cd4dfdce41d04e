"""lost-feed with PostgreSQL and real servers. Skipped where one of PostgreSQL, psycopg2 and the program lostd is missing."""
from __future__ import annotations

import json
import os
import re
import signal
import subprocess
import unittest
import urllib.error
import urllib.request
from typing import Any, List, Tuple

from tests.fake_servers import free_address
from tests.feed_database import COMMIT, PATIENCE, WithDatabase, await_that
from tests.feed_fakes import A, B, C, D, E, digest, line
from tests.running import TOP, lostd, run_tool, serve_has, start_tool
from tests.server import Server, ask, unix

from database import Database, Unable  # (its folder is on the path since feed_database was read)


def page(address: str, path: str) -> Tuple[int, str]:
    """The status and the text of a page; 0 where nobody answers."""
    try:
        with urllib.request.urlopen(f"http://{address}{path}", timeout=PATIENCE) as answer:
            return answer.status, answer.read().decode()
    except urllib.error.HTTPError as error:
        return error.code, error.read().decode()
    except OSError:
        return 0, ""


class Feeds(WithDatabase):
    """The commands, one after another as an operator runs them."""

    def server(self, *words: str) -> Tuple[Server, List[str]]:
        """A server with a desk and a status, and the words by which a follower finds it."""
        status, desk = free_address(), f"unix:{self.folder}/desk.sock"
        server = Server(["--queries", free_address(), "--desk", desk, "--status", status, *words])
        self.assertEqual(server.first_line(), b"ready\n")
        self.addCleanup(server.__exit__)
        return server, ["--desk", desk, "--status", status]

    def follower(self, words: List[str]) -> Tuple[Any, str]:
        """A follower, and its address."""
        follower = start_tool("lost-feed", ["follow", "--log", self.log, "--name", "a", "--listen", "127.0.0.1:0", *words])
        self.addCleanup(follower.wait, PATIENCE)
        for pipe in (follower.stdin, follower.stdout, follower.stderr):
            self.addCleanup(pipe.close)
        self.addCleanup(follower.kill)
        return follower, follower.stdout.readline().decode().split()[1]

    def await_edition(self, address: str, edition: int, *mappings: Any) -> None:
        """Waits until a follower's server holds these mappings."""
        await_that(lambda: page(address, "/health") == (200, f"edition {edition}, map {digest(*mappings)}\n"), f"no edition {edition}")

    def test_publish_and_snapshot(self) -> None:
        self.assertEqual(self.feed("init")[1], f"the log is there: edition 0, map {'0' * 32}\n")
        state = ("--state", f"{self.folder}/state")
        said = self.publish(line("publish", A), line("publish", B), COMMIT, words=state)[1]
        self.assertEqual(said, f"2 edits in 1 commit: edition 2, map {digest(A, B)}\n")
        said = self.publish(line("publish", C), COMMIT, words=state)[1]
        self.assertEqual(said, f"1 edit in 1 commit: edition 3, map {digest(A, B, C)}\n")
        status, output, said = self.publish(line("publish", D), COMMIT, line("publish", A), COMMIT, words=state)
        self.assertEqual((status, output), (3, ""))
        self.assertRegex(said, "^lost-feed: standard input, line 3: refused with code 13, IdentityHeld.*\nlost-feed: nothing was published\n$")
        status, output, said = self.feed("snapshot")
        lines = [json.loads(one) for one in output.splitlines()]
        self.assertEqual([next(iter(one)) for one in lines], ["commit", "publish", "publish", "commit", "publish", "commit"])
        self.assertEqual((lines[5]["commit"]["edition"], lines[5]["commit"]["map"]), (3, digest(A, B, C)))
        self.assertEqual(said, f"lost-feed: edition 3, map {digest(A, B, C)}\n")
        for until, wanted in (("2", 4), ("1", 1), ("3", 6)):
            self.assertEqual(len(self.feed("snapshot", "--until", until)[1].splitlines()), wanted)

    @unittest.skipUnless(serve_has("--journal"), "no program with --journal is built")
    def test_a_snapshot_is_a_journal(self) -> None:
        self.publish(line("publish", A), line("publish", B), COMMIT, line("publish", C), COMMIT)
        times = self.database.sql(self.name, """SELECT to_char(published AT TIME ZONE 'UTC', 'YYYY-MM-DD"T"HH24:MI:SS"Z"') FROM feed.commits ORDER BY 1""")
        for until, wanted in ((("--until", "2"), (4, 2, [A, B])), ((), (6, 3, [A, B, C]))):
            path = self.written(*until)
            checked = subprocess.run([str(lostd()), "check", "--journal", path], capture_output=True, text=True, timeout=PATIENCE)
            lines, edition, held = wanted
            done = f"done lines={lines} edition={edition} mappings={len(held)} map={digest(*held)} dropped=0\n"
            self.assertEqual((checked.returncode, checked.stdout, checked.stderr), (0, done, ""))
        with open(path, encoding="utf-8") as file:
            commits = [one["commit"] for one in map(json.loads, file) if "commit" in one]
        self.assertEqual([(one["edition"], one["map"]) for one in commits[1:]], [(2, digest(A, B)), (3, digest(A, B, C))])
        self.assertEqual("\n".join(one["time"] for one in commits[1:]), times)

    def test_the_reverse_of_a_mistaken_edit(self) -> None:
        self.publish(line("publish", A), line("publish", B), COMMIT)
        mistake = {**A, "lastUpdated": "2026-01-01T00:00:00Z", "key": "A-2", "serviceBoundary": C["serviceBoundary"]}
        gone = {"source": B["source"], "sourceId": "B", "lastUpdated": "2026-01-01T00:00:00Z"}
        self.publish(line("replace", mistake), line("withdraw", gone), line("publish", D), COMMIT)
        with open(f"{self.folder}/now.jsonl", "w", encoding="utf-8") as file:
            file.write(self.feed("snapshot")[1])
        features = run_tool("desk-to-geojson", ["-"], self.feed("snapshot", "--until", "2")[1])[1]
        words = ["-", "--from-desk", "--updated", "now", "--against", f"{self.folder}/now.jsonl"]
        status, output, said = run_tool("geojson-to-desk", words, features)
        self.assertEqual((status, said), (0, "geojson-to-desk: 1 to publish, 1 to replace, 1 to withdraw, 0 unchanged\n"))
        self.assertEqual(self.publish(*output.splitlines())[0], 0)
        stamps = re.compile(r'"lastUpdated": *"[^"]*"')
        held = {one["sourceId"]: stamps.sub("", json.dumps(one, sort_keys=True)) for one in self.held()}
        self.assertEqual(held, {one["sourceId"]: stamps.sub("", json.dumps(one, sort_keys=True)) for one in (A, B)})

    def held(self) -> List[Any]:
        """The mappings that a server holds which reads the log."""
        server, words = self.server("--map", self.written())
        lines = run_tool("desk-to-geojson", ["--server", words[1]])[1]
        server.__exit__()
        return [one["publish"] for one in map(json.loads, run_tool("geojson-to-desk", ["-", "--from-desk"], lines)[1].splitlines())]

    def written(self, *words: str) -> str:
        """The path of a journal with the log."""
        with open(f"{self.folder}/journal.jsonl", "w", encoding="utf-8", newline="") as file:
            file.write(self.feed("snapshot", *words)[1])
        return file.name

    def test_two_publishers_from_one_edition(self) -> None:
        slow = subprocess.Popen(
            [f"{TOP}/tools/lost-feed", "publish", "--log", self.log, "--lostd", str(lostd()), "--each", "-"],
            stdin=subprocess.PIPE, stdout=subprocess.PIPE, stderr=subprocess.PIPE, text=True,
        )  # fmt: skip
        slow.stdin.write(f"{line('publish', A)}\n{COMMIT}\n")
        slow.stdin.flush()
        self.assertEqual(slow.stdout.readline(), f"1 edit in 1 commit: edition 1, map {digest(A)}\n")
        self.assertEqual(self.publish(line("publish", B), line("publish", C), COMMIT)[0], 0)
        output, said = slow.communicate(f"{line('publish', D)}\n{COMMIT}\n", timeout=PATIENCE)
        self.assertEqual((slow.returncode, output), (3, ""))
        self.assertRegex(said, r"^lost-feed: postgres published edition 3 first, at .*Z, from the same edition 1: nothing was published; .*\n$")
        self.assertEqual(self.database.sql(self.name, "SELECT begins, edition FROM feed.commits ORDER BY 1"), "0|1\n1|3")

    def test_a_publisher_goes_on_after_a_restart(self) -> None:
        words = [f"{TOP}/tools/lost-feed", "publish", "--log", self.log, "--lostd", str(lostd()), "--each", "-"]
        publisher = subprocess.Popen(words, stdin=subprocess.PIPE, stdout=subprocess.PIPE, text=True)
        for number, one in enumerate((A, B, C), 1):
            publisher.stdin.write(f"{line('publish', one)}\n{COMMIT}\n")
            publisher.stdin.flush()
            self.assertEqual(publisher.stdout.readline(), f"1 edit in 1 commit: edition {number}, map {digest(*(A, B, C)[:number])}\n")
            self.database.kill(signal.SIGQUIT)
            self.database.start()
        self.assertEqual((publisher.communicate(timeout=PATIENCE)[0], publisher.returncode), ("", 0))
        self.assertEqual(self.database.sql(self.name, "SELECT edition FROM feed.commits ORDER BY 1"), "1\n2\n3")

    def test_a_publisher_that_is_ended_leaves_no_judge(self) -> None:
        for number, (one, how) in enumerate(((A, signal.SIGTERM), (B, signal.SIGKILL)), 1):
            words = [f"{TOP}/tools/lost-feed", "publish", "--log", self.log, "--lostd", str(lostd()), "--each", "-"]
            publisher = subprocess.Popen(words, stdin=subprocess.PIPE, stdout=subprocess.PIPE, text=True)
            publisher.stdin.write(f"{line('publish', one)}\n{COMMIT}\n")
            publisher.stdin.flush()
            self.assertIn(f"edition {number},", publisher.stdout.readline())
            with open(f"/proc/{publisher.pid}/task/{publisher.pid}/children", encoding="ascii") as file:
                (judge,) = file.read().split()
            publisher.send_signal(how)
            publisher.communicate(timeout=PATIENCE)
            await_that(lambda: not os.path.exists(f"/proc/{judge}"), "the judge goes on")
            self.assertEqual(publisher.returncode, 143 if how == signal.SIGTERM else -how)

    def test_a_user_who_may_not(self) -> None:
        self.database.sql(self.name, f"CREATE ROLE {self.name}_y LOGIN; DROP SCHEMA feed CASCADE")
        self.assertRegex(self.feed("status")[2], '^lost-feed: relation "feed.commits" does not exist: is this the database of the log, .*\n$')
        self.log = self.database.url(self.name, f"{self.name}_y")
        self.assertRegex(self.feed("init")[2], "^lost-feed: the log cannot be made: permission denied for database .*\n$")

    def test_roles(self) -> None:
        self.database.sql(self.name, f"""CREATE ROLE {self.name}_p LOGIN IN ROLE feed_publisher; CREATE ROLE {self.name}_f LOGIN IN ROLE feed_follower;
            CREATE ROLE {self.name}_x LOGIN""")
        owner = self.log
        for user, wanted in (("p", 0), ("f", 1), ("x", 1)):
            self.log = self.database.url(self.name, f"{self.name}_{user}")
            given = {"p": A, "f": B, "x": C}[user]
            status, _, said = self.publish(line("publish", given), COMMIT)
            self.assertEqual(status, wanted, said)
            self.assertLessEqual(len(said.splitlines()), 1)
        self.log = owner
        self.assertEqual(self.database.sql(self.name, "SELECT publisher FROM feed.commits"), f"{self.name}_p")
        for statement in ("DELETE FROM feed.commits", "UPDATE feed.commits SET map = map", "TRUNCATE feed.commits CASCADE"):
            with self.assertRaisesRegex(Unable, "rows of the log are only added"):
                self.database.sql(self.name, statement)
            with self.assertRaisesRegex(Unable, "permission denied"):
                self.database.sql(self.name, statement, f"{self.name}_p")
        with self.assertRaisesRegex(Unable, "violates foreign key"):
            self.database.sql(self.name, f"INSERT INTO feed.commits (begins, edition, lines, map) VALUES (7, 8, 'x', '{'0' * 32}')")

    def test_a_follower_through_restarts(self) -> None:
        self.publish(line("publish", A), COMMIT)
        server, words = self.server()
        follower, address = self.follower(words)
        self.await_edition(address, 1, A)
        self.publish(line("publish", B), COMMIT)
        self.await_edition(address, 2, A, B)
        self.assertIn("\nlostd_feed_healthy 1\n", page(address, "/metrics")[1])
        self.database.kill(signal.SIGQUIT)
        self.database.start()
        self.publish(line("publish", C), COMMIT)
        self.await_edition(address, 3, A, B, C)
        server.__exit__()
        self.assertEqual(page(address, "/health")[0], 503)
        self.again(words)
        self.await_edition(address, 3, A, B, C)
        status, output, _ = self.feed("status")
        self.assertEqual(status, 0)
        self.assertRegex(output, rf"^log: edition 3, map {digest(A, B, C)}\nfollower .*\na +[0-9]")
        follower.terminate()
        self.assertEqual(follower.wait(PATIENCE), 0)

    @unittest.skipUnless(serve_has("--journal"), "no program with --journal is built")
    def test_a_server_with_a_journal(self) -> None:
        self.publish(line("publish", A), COMMIT, line("publish", B), COMMIT)
        journal = ["--journal", self.written()]
        server, words = self.server(*journal)
        follower, address = self.follower(words)
        self.await_edition(address, 2, A, B)
        self.publish(line("publish", C), COMMIT)
        self.await_edition(address, 3, A, B, C)
        self.assertIn("\nlostd_feed_commits_total 1\n", page(address, "/metrics")[1])
        server.__exit__()
        self.publish(line("publish", D), COMMIT)
        server = self.again(words, *journal)
        self.await_edition(address, 4, A, B, C, D)
        self.assertIn("\nlostd_feed_commits_total 2\n", page(address, "/metrics")[1])
        follower.terminate()
        follower.wait(PATIENCE)
        given = f"{line('publish', E)}\n{COMMIT}\n"
        self.assertEqual(run_tool("lost-client", ["desk", "--server", words[1], "-"], given)[0], 0)
        server.__exit__()
        self.again(words, *journal)
        for more, where in (([], "at edition 5, if not before"), (journal, "from edition 5 on")):
            follower, address = self.follower([*words, *more])
            self.assertEqual(follower.wait(PATIENCE), 3)
            self.assertRegex(follower.stderr.read().decode(), rf"^lost-feed: unix:.*/desk.sock differs from the log {where}: .*: start this server again, .*\n$")

    def again(self, words: List[str], *more: str) -> Server:
        """A server that is started again."""
        server = Server(["--queries", free_address(), *words, *more])
        self.addCleanup(server.__exit__)
        self.assertEqual(server.first_line(), b"ready\n")
        return server

    def test_a_server_that_starts_from_a_snapshot_and_one_that_differs(self) -> None:
        self.publish(line("publish", A), COMMIT, line("publish", B), COMMIT)
        _, words = self.server("--map", self.written())
        follower, address = self.follower(words)
        self.await_edition(address, 2, A, B)
        self.assertIn("\nlostd_feed_commits_total 0\n", page(address, "/metrics")[1])
        given = f"{line('publish', D)}\n{COMMIT}\n"
        self.assertEqual(run_tool("lost-client", ["desk", "--server", words[1], "-"], given)[0], 0)
        self.assertEqual(follower.wait(PATIENCE), 3)
        said = follower.stderr.read().decode()
        self.assertRegex(said, r"^lost-feed: unix:.*/desk.sock differs from the log from edition 3 on: .*: start this server again, .*\n$")
        self.assertEqual(page(address, "/health")[0], 0)
        status, output, _ = self.feed("status", "--json")
        self.assertEqual(status, 3)
        self.assertTrue(re.search("differs from the log from edition 3 on", json.loads(output)["followers"][0]["fault"]))

    def test_a_server_that_is_behind(self) -> None:
        self.publish(line("publish", A), COMMIT)
        _, words = self.server()
        _, address = self.follower([*words, "--most-behind", "1"])
        self.await_edition(address, 1, A)
        with unix(words[1][len("unix:") :]) as desk:
            ask(desk, f"{line('publish', D)}\n")
            self.publish(line("publish", B), COMMIT)
            await_that(lambda: page(address, "/health")[0] == 503, "it is not behind")
            self.assertRegex(page(address, "/health")[1], "^the server is [0-9]+ seconds behind the log\n$")
        self.await_edition(address, 2, A, B)

    def test_a_follower_waits_for_no_standby(self) -> None:
        self.publish(line("publish", A), COMMIT)
        self.set_waiting("nobody")
        self.addCleanup(self.set_waiting, "")
        _, words = self.server()
        _, address = self.follower(words)
        self.await_edition(address, 1, A)
        await_that(lambda: "\na " in self.feed("status")[1], "the follower does not report")

    def set_waiting(self, names: str) -> None:
        """Has each commit wait for these standbys."""
        self.database.sql("postgres", f"ALTER SYSTEM SET synchronous_standby_names = '{names}'")
        self.database.sql("postgres", "SELECT pg_reload_conf()")

    def test_a_follower_at_a_standby(self) -> None:
        self.publish(line("publish", A), COMMIT)
        standby = Database(int(free_address().rpartition(":")[2]), "standby")
        self.addCleanup(standby.remove)
        standby.copy_of(self.database)
        standby.start()
        _, words = self.server()
        primary, self.log = self.log, standby.url(self.name)
        said = self.publish(line("publish", B), COMMIT)[2]
        self.assertEqual(said, "lost-feed: the log takes nothing from here: cannot execute INSERT in a read-only transaction\n")
        _, address = self.follower(words)
        self.await_edition(address, 1, A)
        self.log = primary
        self.publish(line("publish", B), COMMIT)
        self.await_edition(address, 2, A, B)
        self.log = standby.url(self.name)
        standby.run("pg_ctl", "-D", standby.data, "-w", "promote")
        self.publish(line("publish", C), COMMIT)
        self.await_edition(address, 3, A, B, C)
        await_that(lambda: "\na " in self.feed("status")[1], "the follower does not report")
