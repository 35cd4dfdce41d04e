"""tools/lost-client: the addresses of servers, ports and sockets in the file system."""
from __future__ import annotations

import json
import os
import socket
import subprocess
import tempfile
import unittest

from maptools.addresses import Tcp, Unix, server_of, tcp_of
from tests.fake_servers import line_of, serve_once, unix_listener
from tests.running import has_ipv6, run_tool, start_tool

SERVICES = {"listServicesResponse": {"edition": 5, "path": ["lost.example"], "serviceList": ["urn:service:sos"]}}


class Addresses(unittest.TestCase):
    """The texts of addresses."""

    def test_they_are_read_and_named_as_given(self) -> None:
        for text, server in (
            ("localhost:5222", Tcp("localhost", 5222)), ("[::1]:5222", Tcp("::1", 5222)), ("10.0.0.5:1", Tcp("10.0.0.5", 1)),
            ("unix:/run/lostd/desk.sock", Unix("/run/lostd/desk.sock")), ("unix:desk.sock", Unix("desk.sock")),
            ("unix:5222", Unix("5222")), ("unix:/a b:c", Unix("/a b:c")),
        ):  # fmt: skip
            self.assertEqual((server_of(text), str(server)), (server, text))

    def test_what_is_no_address(self) -> None:
        no_port = ("", "localhost", "localhost:", "localhost:0", "localhost:65536", "a:b")
        for text in (*no_port, ":5222", "::1:5222", "[]:5222", "unix:"):
            self.assertRaises(ValueError, server_of, text)
        self.assertRaises(ValueError, tcp_of, "unix:/run/lostd/desk.sock")


class Sockets(unittest.TestCase):
    """Servers at sockets in the file system, and by name."""

    def setUp(self) -> None:
        folder = tempfile.TemporaryDirectory()
        self.addCleanup(folder.cleanup)
        self.folder = folder.name

    def test_a_request_and_a_desk_over_a_socket(self) -> None:
        server, got = serve_once(lambda line: line_of(SERVICES), f"{self.folder}/queries.sock")
        output = run_tool("lost-client", ["services", "--server", server])[:2]
        self.assertEqual(output, (0, "urn:service:sos\nfrom lost.example, edition 5\n"))
        self.assertEqual(json.loads(got[0]), {"listServices": {}})
        server, _ = serve_once(lambda line: line_of({"committed": {"edition": 7}}), f"{self.folder}/desk.sock")
        output = run_tool("lost-client", ["desk", "--server", server, "-"], '{"commit":{}}\n')[:2]
        self.assertEqual(output, (0, "1 lines: 0 edits staged, 1 commits, 0 refused; edition 7\n"))

    def test_a_relative_path(self) -> None:
        server, _ = serve_once(lambda line: line_of(SERVICES), f"{self.folder}/queries.sock")
        relative = os.path.relpath(server[len("unix:") :])
        self.assertEqual(run_tool("lost-client", ["services", "--server", f"unix:{relative}"])[0], 0)

    def test_faults_name_the_socket_as_given(self) -> None:
        with open(f"{self.folder}/file", "w", encoding="ascii"):
            pass
        unix_listener(f"{self.folder}/stale").close()
        long = f"{self.folder}/{'x' * 120}"
        for path, cause in (
            (f"{self.folder}/none", "No such file or directory"), (f"{self.folder}/file", "Connection refused"),
            (f"{self.folder}/stale", "Connection refused"), (long, "AF_UNIX path too long"),
        ):  # fmt: skip
            status, output, said = run_tool("lost-client", ["services", "--server", f"unix:{path}"])
            self.assertEqual((status, output), (1, ""))
            self.assertRegex(said, rf"\Alost-client: no connection to unix:{path}: .*{cause}\n\Z")
        self.assertEqual(run_tool("lost-client", ["services", "--server", "unix:"])[0], 2)

    def test_a_full_queue_is_waited_for_so_long(self) -> None:
        path = f"{self.folder}/busy"
        with unix_listener(path) as listener, socket.socket(socket.AF_UNIX) as first:
            listener.listen(0)
            first.connect(path)
            status, _, said = run_tool("lost-client", ["services", "--server", f"unix:{path}", "--timeout", "0.3"])
            self.assertEqual((status, "temporarily unavailable" in said), (1, True), said)
            client = start_tool("lost-client", ["services", "--server", f"unix:{path}", "--timeout", "20"])
            with self.assertRaises(subprocess.TimeoutExpired):
                client.wait(timeout=1)
            listener.accept()[0].close()
            with listener.accept()[0] as connection:
                connection.sendall(line_of(SERVICES))
                output, said = client.communicate(timeout=20)
        self.assertEqual((client.returncode, output[:16], said), (0, b"urn:service:sos\n", b""))

    def test_localhost(self) -> None:
        server, _ = serve_once(lambda line: line_of(SERVICES))
        port = server.rpartition(":")[2]
        self.assertEqual(run_tool("lost-client", ["services", "--server", f"localhost:{port}"])[0], 0)

    @unittest.skipUnless(has_ipv6(), "this machine has no IPv6")
    def test_ipv6(self) -> None:
        server, _ = serve_once(lambda line: line_of(SERVICES), host="::1")
        self.assertEqual(server[:6], "[::1]:")
        self.assertEqual(run_tool("lost-client", ["services", "--server", server])[0], 0)
