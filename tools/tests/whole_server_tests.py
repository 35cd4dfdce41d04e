"""What only a whole server shows: counts that go back, late readers, desks that break off, faulty maps, slow clients. Skipped
where no program is built."""
from __future__ import annotations

import os
import select
import socket
import struct
import tempfile
import threading
import time
import unittest
from typing import List, Tuple

from tests.running import TOP, serve_has
from tests.server import PATIENCE, READY, Server, ask, ended, has_maps, unix

LIST = '{"listServices":{}}\n'
NOTHING = '{"listServicesResponse":{"edition":%d,"path":["lost.example"],"serviceList":[]}}\n'
COMMIT = '{"commit":{}}\n'


def committed(edition: int) -> str:
    """The reply to a commit."""
    return '{"committed":{"edition":%d}}\n' % edition


def port_of(listener: socket.socket) -> int:
    """The port of a listener, which is then free again."""
    with listener:
        return int(listener.getsockname()[1])


def tcp(port: int) -> socket.socket:
    """A connection to a port of this machine."""
    return socket.create_connection(("127.0.0.1", port), PATIENCE)


class WholeServer(unittest.TestCase):
    """A folder for sockets and maps, and two free ports."""

    def setUp(self) -> None:
        self.folder = tempfile.TemporaryDirectory()
        self.desk, self.queries = self.path("desk.sock"), self.path("queries.sock")
        self.port = port_of(socket.create_server(("127.0.0.1", 0)))
        with open(f"{TOP}/examples/one-mapping.jsonl", encoding="utf-8") as session:
            self.publish, _, self.question = session

    def tearDown(self) -> None:
        self.folder.cleanup()

    def path(self, name: str) -> str:
        """A path in the folder of this test."""
        return os.path.join(self.folder.name, name)

    def server(self, *words: str) -> Server:
        """A server of a desk and clients over Unix sockets, which is ready."""
        return self.ready("--desk", f"unix:{self.desk}", "--queries", f"unix:{self.queries}", *words)

    def ready(self, *words: str, workers: int = 2) -> Server:
        """A server that is ready."""
        server = Server(list(words), workers=workers)
        self.assertEqual(server.first_line(), READY)
        return server


@unittest.skipUnless(serve_has("--line-time"), "no program with --line-time is built")
class Clients(WholeServer):
    """Clients that come one after another, read late, or send slowly."""

    def test_an_address_leaves(self) -> None:
        """Far more connections of one address come one after another than may be open at once."""
        words = ["--desk", f"unix:{self.desk}", "--queries", f"127.0.0.1:{self.port}"]
        for limit in ("--per-address", "--most-connections"):
            with self.ready(*words, limit, "2"):
                for _ in range(40):
                    with tcp(self.port) as client:
                        self.assertEqual(ask(client, LIST), NOTHING % 0)
                        client.shutdown(socket.SHUT_WR)
                        self.assertTrue(ended(client))

    def test_one_refused_for_its_address_leaves(self) -> None:
        """Connections that were refused for their address take no room of others."""
        words = ["--desk", f"unix:{self.desk}", "--queries", f"127.0.0.1:{self.port}", "--per-address", "1"]
        with self.ready(*words, "--most-connections", "3", "--quiet"), tcp(self.port) as first:
            self.assertEqual(ask(first, LIST), NOTHING % 0)
            for _ in range(10):
                with tcp(self.port) as refused:
                    self.assertTrue(ended(refused))
            with socket.create_connection(("127.0.0.1", self.port), PATIENCE, ("127.0.0.2", 0)) as other:
                self.assertEqual(ask(other, LIST), NOTHING % 0)

    def test_clients_after_faults(self) -> None:
        """A worker whose clients were reset or passed a limit goes on answering those that stay, and those that come."""
        words = ["--desk", f"unix:{self.desk}", "--queries", f"127.0.0.1:{self.port}", "--line-time", "1", "--quiet"]
        with self.ready(*words, workers=1), tcp(self.port) as stays:
            for _ in range(8):
                with tcp(self.port) as reset:
                    reset.sendall(LIST.encode() + b'{"list')
                    self.assertEqual(reset.recv(4096).decode(), NOTHING % 0)
                    reset.setsockopt(socket.SOL_SOCKET, socket.SO_LINGER, struct.pack("ii", 1, 0))
            with tcp(self.port) as slow:
                slow.sendall(b'{"list')
                self.assertTrue(ended(slow))
            for client in (stays, tcp(self.port)):
                with client:
                    self.assertEqual(ask(client, LIST), NOTHING % 0)

    def test_a_late_reader(self) -> None:
        """A client that reads only once some 3 MiB of replies are due gets each of them, and others are answered meanwhile."""
        count = 40_000
        with self.server(), unix(self.queries) as late, unix(self.queries) as other:
            sender = threading.Thread(target=late.sendall, args=(LIST.encode() * count,))
            sender.start()
            time.sleep(1)
            self.assertEqual(ask(other, LIST), NOTHING % 0)
            late.settimeout(PATIENCE)
            with late.makefile("rb") as replies:
                for _ in range(count):
                    self.assertEqual(replies.readline().decode(), NOTHING % 0)
            sender.join(PATIENCE)

    def test_idle_counts_from_the_connection(self) -> None:
        """A server that had no client for longer than --idle answers the next one."""
        with self.server("--idle", "2"):
            time.sleep(3)
            with unix(self.queries) as client:
                self.assertEqual(ask(client, LIST), NOTHING % 0)
                time.sleep(1)
                self.assertEqual(ask(client, LIST), NOTHING % 0)

    def test_half_a_line_behind_a_whole_one(self) -> None:
        """Half a line that came with a whole one, and goes on byte by byte, is ended in time."""
        with self.server("--line-time", "1") as server, unix(self.queries) as slow:
            self.assertEqual(ask(slow, LIST + '{"list'), NOTHING % 0)
            begun = time.monotonic()
            while time.monotonic() - begun < 10 and not select.select([slow], [], [], 0.2)[0]:
                try:
                    slow.sendall(b" ")
                except OSError:
                    break
            self.assertLess(time.monotonic() - begun, 8)
            self.assertRegex(server.said(), r": it did not finish a line in time$")

    def test_more_lines_than_one_connection_may_have(self) -> None:
        """With --connections a connection is ended after a million lines; each of them has its reply."""
        count, lines = 1_000_000, b"\n" * 50_000
        words = ["--desk", f"unix:{self.desk}", "--queries", f"unix:{self.queries}", "--connections", "1"]
        with self.ready(*words) as server:
            unix(self.desk).close()
            with unix(self.queries) as client:
                sender = threading.Thread(target=self.send_all, args=(client, lines, count // len(lines) + 1))
                sender.start()
                client.settimeout(PATIENCE)
                came = 0
                try:
                    while piece := client.recv(1 << 20):
                        came += piece.count(b"\n")
                except ConnectionResetError:
                    pass
                sender.join(PATIENCE)
                self.assertEqual(came, count)
            self.assertEqual(server.end(), (0, ["lostd: query connection 1 from a unix socket: it sent too many lines for one connection"]))
            self.assertEqual(server.output, "done lines=0 faults=1\n")

    @staticmethod
    def send_all(client: socket.socket, lines: bytes, times: int) -> None:
        """Sends lines until the server ends the connection."""
        try:
            for _ in range(times):
                client.sendall(lines)
        except OSError:
            pass


@unittest.skipUnless(has_maps(), "no program with --map is built")
class DesksAndMaps(WholeServer):
    """Desks that break off or wait, and maps with faulty lines."""

    def test_a_desk_that_breaks_off(self) -> None:
        """What a desk left pending whose connection was reset is dropped before the next desk's commit."""
        with self.ready("--desk", f"127.0.0.1:{self.port}", "--queries", f"unix:{self.queries}") as server:
            broken = tcp(self.port)
            self.assertEqual(ask(broken, self.publish), '{"staged":{"pending":1}}\n')
            broken.setsockopt(socket.SOL_SOCKET, socket.SO_LINGER, struct.pack("ii", 1, 0))
            broken.close()
            with tcp(self.port) as desk, unix(self.queries) as client:
                self.assertEqual(ask(desk, COMMIT), committed(0))
                self.assertEqual(ask(client, LIST), NOTHING % 0)
            self.assertRegex(server.said(), r"^lostd: desk connection from 127\.0\.0\.1:[0-9]+: it could not be read$")

    def test_a_third_desk_behind_a_silent_one(self) -> None:
        """A desk waits for the first desk and then for a silent second one, which gives way after ten seconds."""
        with self.server(), unix(self.desk) as first, unix(self.desk) as silent, unix(self.desk) as third:
            self.assertEqual(ask(first, self.publish + COMMIT), '{"staged":{"pending":1}}\n' + committed(1))
            first.close()
            begun = time.monotonic()
            self.assertEqual(ask(third, COMMIT), committed(1))
            self.assertTrue(9 < time.monotonic() - begun < 20)
            self.assertTrue(ended(silent))

    def test_a_desk_alone_keeps_its_turn(self) -> None:
        """A desk that sent a line may then be silent for more than ten seconds, if no other waits."""
        with self.server(), unix(self.desk) as desk:
            self.assertEqual(ask(desk, self.publish), '{"staged":{"pending":1}}\n')
            time.sleep(11)
            self.assertEqual(ask(desk, COMMIT), committed(1))

    def started(self, given: str, *words: str) -> Tuple[int, List[str]]:
        """The status of a server that does not start with a map on standard input, and what it says."""
        with Server(["--map", "-", "--queries", f"unix:{self.queries}", *words], given.encode()) as server:
            status, said = server.end()
        self.assertFalse(os.path.exists(self.queries))
        return status, said

    def test_a_map_with_a_line_that_is_too_long(self) -> None:
        """A line of more than a mebibyte is named, with its number."""
        status, said = self.started(self.publish + " " * 1_048_577 + "\n" + COMMIT)
        self.assertEqual(status, 3)
        self.assertEqual(said[0], "lostd: --map: line 2: 1 BadLine: the line has more than 1048576 bytes")
        self.assertRegex(said[1], r"1 lines refused, 0 edits after the last commit")

    def test_standard_input_with_and_without_keep_going(self) -> None:
        """A map on standard input with a refused line, or without a commit, starts a server only with --keep-going."""
        for given, edition in ((self.publish + COMMIT + self.publish, 1), (self.publish, 0)):
            self.queries = self.path(f"queries-{edition}.sock")
            self.assertEqual(self.started(given)[0], 3)
            words = ["--map", "-", "--keep-going", "--queries", f"unix:{self.queries}"]
            with Server(words, given.encode()) as server:
                self.assertEqual(server.first_line(), READY)
                with unix(self.queries) as client:
                    self.assertIn(f'"edition":{edition},', ask(client, LIST))

    def test_a_second_server_on_the_same_sockets(self) -> None:
        """One that cannot listen at either address leaves the first one's sockets, and all it has there goes on."""
        with self.server():
            ways = ((self.desk, self.path("other.sock")), (self.path("other.sock"), self.queries), (self.desk, self.queries))
            for desk, queries in ways:
                with Server(["--desk", f"unix:{desk}", "--queries", f"unix:{queries}"]) as second:
                    status, said = second.end()
                self.assertEqual((status, len(said)), (1, 1))
                self.assertRegex(said[0], r" is in use: another program listens there$")
                self.assertFalse(os.path.exists(self.path("other.sock")))
                with unix(self.desk) as desk_now, unix(self.queries) as client:
                    self.assertEqual(ask(desk_now, COMMIT), committed(0))
                    self.assertEqual(ask(client, LIST), NOTHING % 0)

    def test_the_status_beside_a_slow_client(self) -> None:
        """A client of the status that sends a byte a second is ended, and the next one is answered."""
        with self.server("--status", f"127.0.0.1:{self.port}"), tcp(self.port) as slow:
            asking = threading.Thread(target=self.trickle, args=(slow,))
            asking.start()
            begun = time.monotonic()
            with tcp(self.port) as client:
                client.sendall(b"GET /health HTTP/1.1\r\nHost: lost\r\n\r\n")
                self.assertIn(b"200", client.recv(65_536))
            self.assertLess(time.monotonic() - begun, 10)
            asking.join(PATIENCE)

    @staticmethod
    def trickle(slow: socket.socket) -> None:
        """Sends a byte a second until the server ends the connection."""
        try:
            for byte in b"GET /health HTTP/1.1\r\n":
                slow.sendall(bytes([byte]))
                time.sleep(1)
        except OSError:
            pass


if __name__ == "__main__":
    unittest.main()
