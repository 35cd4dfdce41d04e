"""Where `lostd serve` listens: addresses of TCP, names, and Unix sockets with the rights of their files."""
from __future__ import annotations

import os
import shutil
import socket
import stat
import subprocess
import tempfile
import threading
import unittest
from typing import Any, Dict, List, Set, Tuple, Union

from tests.running import has_ipv6, has_serve, lostd, question

PATIENCE = 20
NOBODY = 65534
Place = Union[str, Tuple[str, int]]


def has_unix() -> bool:
    """Whether the built program listens on Unix sockets."""
    if not has_serve():
        return False
    told = subprocess.run([str(lostd()), "serve", "--help"], capture_output=True, timeout=PATIENCE)
    return b"unix:" in told.stdout


def free_port(family: int, host: str) -> int:
    """A port at which nobody listens."""
    with socket.create_server((host, 0), family=family) as listener:
        port: int = listener.getsockname()[1]
        return port


def words_of(queries: str, *more: str) -> List[str]:
    """The command line of a server."""
    words = [str(lostd()), "serve", "--name", "lost.example", "--queries", queries, "--desk", "127.0.0.1:0", "--workers", "1"]
    return [*words, "--connections", "5", "--quiet", *more]


def ask(family: int, place: Place) -> bool:
    """Whether a question at this place gets the reply of a server without a map."""
    with socket.socket(family, socket.SOCK_STREAM) as client:
        client.settimeout(PATIENCE)
        client.connect(place)
        client.sendall(question(1, 1).encode())
        return client.makefile("rb").readline() == b'{"errors":{"edition":0,"error":"serviceNotImplemented"}}\n'


class Running:
    """A server that runs, in a folder; its end is a kill."""

    def __init__(self, queries: str, *more: str, **how: Any) -> None:
        self.process = subprocess.Popen(words_of(queries, *more), stdout=subprocess.PIPE, stderr=subprocess.PIPE, **how)

    def is_ready(self) -> bool:
        """Whether it says so."""
        assert self.process.stdout is not None
        return self.process.stdout.readline() == b"ready\n"

    def __enter__(self) -> Running:
        return self

    def __exit__(self, *_: object) -> None:
        self.process.kill()
        self.process.communicate()


@unittest.skipUnless(has_serve(), "lostd is not built, or has no serve")
class Addresses(unittest.TestCase):
    """Addresses of TCP."""

    def reach(self, queries: str, *places: Tuple[int, Place]) -> None:
        with Running(queries) as server:
            self.assertTrue(server.is_ready(), queries)
            for family, place in places:
                self.assertTrue(ask(family, place), f"{queries} by {place}")

    @unittest.skipUnless(has_ipv6(), "there is no IPv6 here")
    def test_an_address_of_ipv6(self) -> None:
        port = free_port(socket.AF_INET6, "::1")
        self.reach(f"[::1]:{port}", (socket.AF_INET6, ("::1", port)))

    @unittest.skipUnless(has_ipv6(), "there is no IPv6 here")
    def test_all_addresses_of_both_kinds(self) -> None:
        port = free_port(socket.AF_INET6, "::")
        with open("/proc/sys/net/ipv6/bindv6only", encoding="ascii") as file:
            is_alone = file.read().strip() == "1"
        both = [(socket.AF_INET6, ("::1", port))] + ([] if is_alone else [(socket.AF_INET, ("127.0.0.1", port))])
        self.reach(f"[::]:{port}", *both)

    def test_a_name(self) -> None:
        found = socket.getaddrinfo("localhost", None, type=socket.SOCK_STREAM)
        family, address = found[0][0], str(found[0][4][0])
        port = free_port(family, address)
        self.reach(f"localhost:{port}", (family, (address, port)))

    def said(self, queries: str) -> str:
        """What a server that cannot listen says behind the address."""
        ran = subprocess.run(words_of(queries), capture_output=True, timeout=PATIENCE)
        self.assertEqual((ran.returncode, ran.stdout), (1, b""), queries)
        front, said = f"lostd: --queries '{queries}' ", ran.stderr.decode()
        self.assertTrue(said.startswith(front), said)
        return said[len(front) :]

    def test_no_address(self) -> None:
        texts = ["127.0.0.1", "127.0.0.1:65536", "127.0.0.1:lost", "[::1]", "[::1]:65536", "localhost", "no-such-host.invalid:5222", ""]
        for queries in texts:
            self.assertEqual(
                self.said(queries),
                "cannot be used: it must be an address or a name of this machine and a port, as 127.0.0.1:5222\n",
                queries,
            )

    def test_an_address_of_another_machine(self) -> None:
        self.assertEqual(self.said("192.0.2.1:0"), "is no address of this machine\n")

    def test_a_port_that_is_in_use(self) -> None:
        with socket.create_server(("127.0.0.1", 0)) as listener:
            queries = f"127.0.0.1:{listener.getsockname()[1]}"
            self.assertEqual(self.said(queries), "is in use: another program listens there\n")


class Watch:
    """Looks at a path again and again, from another thread, and keeps the modes of what stood there."""

    def __init__(self, path: str) -> None:
        self.path = path
        self.modes: Set[int] = set()
        self.is_over = False
        self.thread = threading.Thread(target=self.look, daemon=True)
        self.thread.start()

    def look(self) -> None:
        while not self.is_over:
            try:
                self.modes.add(stat.S_IMODE(os.lstat(self.path).st_mode))
            except FileNotFoundError:
                pass

    def end(self) -> Set[int]:
        """The modes that were seen."""
        self.is_over = True
        self.thread.join()
        return self.modes


@unittest.skipUnless(has_unix(), "lostd is not built, or listens on no Unix socket")
class UnixSockets(unittest.TestCase):
    """Paths of Unix sockets."""

    def setUp(self) -> None:
        room = tempfile.TemporaryDirectory()
        self.addCleanup(room.cleanup)
        self.folder = room.name
        os.chmod(self.folder, 0o755)
        self.path = f"{self.folder}/queries.sock"
        self.how: Dict[str, Any] = {"cwd": self.folder}

    def said(self, queries: str, **how: Any) -> Tuple[int, str]:
        """The status of a server that cannot listen, and what it says behind the address."""
        ran = subprocess.run(words_of(queries), capture_output=True, timeout=PATIENCE, **{**self.how, **how})
        front, back = f"lostd: --queries '{queries}' ", "\n"
        said = ran.stderr.decode()
        self.assertTrue(said.startswith(front) and said.endswith(back) and said.count("\n") == 1, said)
        return ran.returncode, said[len(front) : -len(back)]

    def test_the_file_never_has_wider_rights(self) -> None:
        before = os.umask(0)
        self.addCleanup(os.umask, before)
        watch = Watch(self.path)
        for _ in range(20):
            with Running(f"unix:{self.path}", **self.how) as server:
                self.assertTrue(server.is_ready())
                self.assertTrue(ask(socket.AF_UNIX, self.path))
        self.assertEqual(watch.end(), {0o600})
        self.assertEqual(os.listdir(self.folder), ["queries.sock"])

    def test_the_mode_is_that_of_the_option(self) -> None:
        with Running(f"unix:{self.path}", "--socket-mode", "0660", **self.how) as server:
            self.assertTrue(server.is_ready())
            self.assertEqual(stat.S_IMODE(os.lstat(self.path).st_mode), 0o660)

    def test_a_relative_path_begins_at_the_folder_of_the_start(self) -> None:
        with Running("unix:queries.sock", **self.how) as server:
            self.assertTrue(server.is_ready())
            self.assertTrue(ask(socket.AF_UNIX, self.path))

    def test_a_server_that_lives_stays(self) -> None:
        with Running(f"unix:{self.path}", **self.how) as server:
            self.assertTrue(server.is_ready())
            self.assertEqual(self.said(f"unix:{self.path}"), (1, "is in use: another program listens there"))
            self.assertTrue(ask(socket.AF_UNIX, self.path))

    def test_a_server_that_was_killed_is_replaced(self) -> None:
        for _ in range(3):
            with Running(f"unix:{self.path}", **self.how) as server:
                self.assertTrue(server.is_ready())
                self.assertTrue(ask(socket.AF_UNIX, self.path))
            self.assertTrue(os.path.exists(self.path))

    def test_a_file_in_the_way_stays(self) -> None:
        """A file, a folder, and links, one of which leads to a socket."""
        with open(f"{self.folder}/file", "w", encoding="ascii") as file:
            file.write("kept")
        os.mkdir(f"{self.folder}/folder")
        os.symlink("queries.sock", f"{self.folder}/link")
        os.symlink("nowhere", f"{self.folder}/broken")
        with Running(f"unix:{self.path}", **self.how) as server:
            self.assertTrue(server.is_ready())
            for name in ("file", "folder", "link", "broken"):
                told = (1, "cannot be used: something that is no socket stands there")
                self.assertEqual(self.said(f"unix:{self.folder}/{name}"), told, name)
            self.assertEqual(sorted(os.listdir(self.folder)), ["broken", "file", "folder", "link", "queries.sock"])
        with open(f"{self.folder}/file", encoding="ascii") as file:
            self.assertEqual(file.read(), "kept")

    @unittest.skipUnless(os.geteuid() == 0, "this user is not root, and cannot be another one")
    def test_rights(self) -> None:
        # Nobody may not reach the program where it was built.
        nobody = {"user": NOBODY, "executable": shutil.copy(str(lostd()), f"{self.folder}/program")}
        rights = "may not be used: this user lacks rights to that file or to its folder"
        self.assertEqual(self.said(f"unix:{self.path}", **nobody), (1, rights))
        with Running(f"unix:{self.path}", **self.how) as server:
            self.assertTrue(server.is_ready())
            self.assertEqual(self.said(f"unix:{self.path}", **nobody), (1, rights))
            self.assertTrue(ask(socket.AF_UNIX, self.path))

    def test_the_longest_path(self) -> None:
        with Running(f"unix:{'x' * 96}", **self.how) as server:
            self.assertTrue(server.is_ready())
            self.assertEqual(os.listdir(self.folder), ["x" * 96])

    def test_paths_that_cannot_be(self) -> None:
        with open(f"{self.folder}/file", "w", encoding="ascii") as file:
            file.write("no folder")
        for path, cause in (
            ("", "cannot be used: a path must stand behind unix:, as unix:/run/lostd/desk.sock"),
            ("none/queries.sock", "cannot be used: its folder is not there"),
            ("file/queries.sock", "cannot be used: its folder is not there"),
            ("x" * 97, "cannot be used: the path of a socket has at most 96 bytes"),
        ):
            self.assertEqual(self.said(f"unix:{path}"), (1, cause))


def begin_at_once(count: int, path: str, folder: str) -> List[str]:
    """The first line of each of so many servers that begin at once at one path."""
    words = words_of(f"unix:{path}")
    servers = [subprocess.Popen(words, stdout=subprocess.PIPE, stderr=subprocess.STDOUT, cwd=folder) for _ in range(count)]
    said = []
    for server in servers:
        assert server.stdout is not None
        said.append(server.stdout.readline().decode())
    for server in servers:
        server.kill()
        server.communicate()
    return said


@unittest.skipUnless(has_unix(), "lostd is not built, or listens on no Unix socket")
class ManyServers(unittest.TestCase):
    """Servers that begin at once where nothing stands: one has the path, and the others end."""

    def test_one_has_the_path(self) -> None:
        for _ in range(50):
            with tempfile.TemporaryDirectory() as folder:
                path = f"{folder}/queries.sock"
                in_use = f"lostd: --queries 'unix:{path}' is in use: another program listens there\n"
                self.assertEqual(sorted(begin_at_once(4, path, folder)), [in_use, in_use, in_use, "ready\n"])
                self.assertEqual(os.listdir(folder), ["queries.sock"])
