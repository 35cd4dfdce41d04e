"""What the tests of lost-feed share: a log in memory, and a server in a thread that shows its status too."""
from __future__ import annotations

import argparse
import json
import tempfile
import unittest
from typing import Any, Dict, Iterator, List, Optional, Tuple

from maptools.addresses import server_of
from maptools.desk_rules import empty_book
from maptools.digest import map_digest, mapping_digest
from maptools.feeding.following import Follower
from maptools.feeding.log import Commit, Taken
from maptools.feeding.standing import EMPTY, Standing
from tests.fake_servers import DeskServer, serve_pages
from tests.map_file import mapping

A, B, C, D, E = (mapping(name, place=100 * number) for number, name in enumerate("ABCDE"))


def line(kind: str, value: Any) -> str:
    """A desk line."""
    return json.dumps({kind: value})


def digest(*mappings: Dict[str, Any]) -> str:
    """The digest of mappings."""
    return map_digest(map(mapping_digest, mappings))


def commits_of(*mappings: Dict[str, Any]) -> List[Commit]:
    """Commits that publish one mapping each."""
    return [Commit(place, place + 1, line("publish", one), digest(*mappings[: place + 1])) for place, one in enumerate(mappings)]


class MemoryLog:
    """A log in memory, which is used as the one in a database is."""

    def __init__(self, commits: List[Commit]) -> None:
        self.commits, self.said = list(commits), []  # type: List[Commit], List[Tuple[Any, ...]]

    def last(self) -> Standing:
        """Where it stands."""
        return self.commits[-1].standing() if self.commits else EMPTY

    def map_at(self, edition: int) -> str:
        """The digest at an edition."""
        return self.maps().get(edition, "")

    def maps(self) -> Dict[int, str]:
        """The digest at each edition."""
        return {EMPTY.edition: EMPTY.map, **{one.edition: one.map for one in self.commits}}

    def after(self, edition: int) -> List[Commit]:
        """The next commits."""
        return [one for one in self.commits if one.begins >= edition]

    def all_after(self, edition: int) -> Iterator[Commit]:
        """All of them."""
        return iter(self.after(edition))

    def count_after(self, edition: int) -> int:
        """How many they are."""
        return len(self.after(edition))

    def add(self, commits: List[Commit]) -> None:
        """Adds commits; Taken where another one begins there."""
        if commits[0].begins != self.last().edition:
            raise Taken
        self.commits += commits

    def is_standby(self) -> bool:
        """It takes reports."""
        return False

    def report(self, *said: Any) -> None:
        """Keeps what is reported."""
        self.said.append(said)


class Pages:
    """The pages of a server's status."""

    def __init__(self, server: DeskServer) -> None:
        self.server, self.is_ready = server, True

    def get(self, _path: str, _other: Any) -> Tuple[int, bytes]:
        """The status."""
        held = self.server.book.held.values()
        value = {"edition": self.server.edition, "map": map_digest(map(mapping_digest, held)), "ready": self.is_ready}
        return 200, json.dumps(value).encode()


class Feeding(unittest.TestCase):
    """Each test has an empty server, and can start a follower of it."""

    def setUp(self) -> None:
        folder = tempfile.TemporaryDirectory()
        self.addCleanup(folder.cleanup)
        self.folder, self.journal = folder.name, None  # type: str, Optional[str]
        self.server = DeskServer(f"{self.folder}/desk.sock")
        self.addCleanup(self.server.close)
        self.pages = Pages(self.server)
        self.status = serve_pages(self.pages)
        self.addCleanup(self.status.server_close)
        self.addCleanup(self.status.shutdown)

    def follower(self, log: Optional[MemoryLog] = None) -> Follower:
        """A follower of the server, which has looked at it if there is a log."""
        words = {"desk": server_of(self.server.address), "status": server_of(self.status.address), "name": "a"}
        follower = Follower(argparse.Namespace(log="", most_behind=10.0, most_apart=None, journal=self.journal, **words))
        if log is not None:
            follower.look(log)
        return follower

    def empty(self) -> None:
        """Starts the server again, empty."""
        self.server.book = empty_book()
        self.server.edition = 0

    def edit(self, *mappings: Dict[str, Any]) -> None:
        """Edits the server behind the log's back."""
        for one in mappings:
            self.server.book.held[("map.example", one["sourceId"])] = one
        self.server.edition += len(mappings)

    def heard(self) -> List[str]:
        """The kinds of the lines that the server got, a text for each connection that sent some."""
        return [" ".join(next(iter(json.loads(one))) for one in lines) for lines in self.server.heard if lines]
