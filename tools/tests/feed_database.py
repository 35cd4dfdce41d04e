"""What the tests of lost-feed and postgis-to-desk share that need a database."""
from __future__ import annotations

import os
import subprocess
import sys
import tempfile
import time
import unittest
from typing import Any, ClassVar, Tuple

from tests.fake_servers import free_address
from tests.running import TOP, lostd, run_tool
from tests.server import has_maps

sys.path.append(f"{TOP}/checks/replicas")

from database import Database, programs  # noqa: E402

PATIENCE = 20.0
COMMIT = '{"commit":{}}'


def lacks() -> str:
    """What is missing for these tests; empty where all is there."""
    if not programs():
        return "PostgreSQL is not installed"
    has_driver = subprocess.run(["/usr/bin/python3", "-c", "import psycopg2"], capture_output=True, timeout=20).returncode == 0
    return "" if has_driver and has_maps() else "no program is built" if has_driver else "/usr/bin/python3 lacks psycopg2"


def need_all(tool: str) -> None:
    """Skips the tests of a tool, and says so, where something is missing."""
    what = lacks()
    if what:
        print(f"{tool}: the tests with a database are skipped: {what}", file=sys.stderr)
        raise unittest.SkipTest(what)


def new_database() -> Database:
    """A cluster that is quick, and loses all if the machine goes down."""
    database = Database(int(free_address().rpartition(":")[2]))
    database.make("fsync = off\n")
    database.start()
    return database


def await_that(is_so: Any, what: str) -> None:
    """Waits until something is so."""
    end = time.monotonic() + PATIENCE
    while not is_so():
        if time.monotonic() > end:
            raise AssertionError(what)
        time.sleep(0.05)


class WithDatabase(unittest.TestCase):
    """All tests of a class use one cluster; each has a database with a log. `tool` is who says that they are skipped."""

    tool: ClassVar[str] = "lost-feed"
    database: ClassVar[Database]

    @classmethod
    def setUpClass(cls) -> None:
        need_all(cls.tool)
        cls.database = new_database()
        cls.addClassCleanup(cls.database.remove)

    def setUp(self) -> None:
        folder = tempfile.TemporaryDirectory()
        self.addCleanup(folder.cleanup)
        self.folder, self.name = folder.name, f"log_{os.urandom(4).hex()}"
        self.database.sql("postgres", f"CREATE DATABASE {self.name}")
        self.log = self.database.url(self.name)
        self.assertEqual(self.feed("init")[0], 0)

    def feed(self, command: str, *words: str, given: str = "") -> Tuple[int, str, str]:
        """Runs a command over the log."""
        return run_tool("lost-feed", [command, "--log", self.log, *words], given)

    def publish(self, *lines: str, words: Tuple[str, ...] = ()) -> Tuple[int, str, str]:
        """Publishes lines."""
        return self.feed("publish", "--lostd", str(lostd()), *words, "-", given="".join(f"{one}\n" for one in lines))
