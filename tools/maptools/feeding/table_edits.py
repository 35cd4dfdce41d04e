"""The edits from a map to the rows of a table: once, or again at each NOTIFY."""
from __future__ import annotations

import argparse
import contextlib
import io
import select
import sys
import time
from typing import Any, Optional

from maptools.against import map_of
from maptools.connection import Broken
from maptools.converting import convert
from maptools.desk_map import DeskMap
from maptools.feeding.database import first_line, psycopg2
from maptools.feeding.held import HeldMap
from maptools.feeding.log import Log
from maptools.feeding.publishing import Publisher, Second, Stopped, groups_of, publish_all, with_judge
from maptools.feeding.tables import Table
from maptools.templates import template_of
from maptools.times import now_stamp

PROGRAM = "postgis-to-desk"
# Seconds: between two rounds at least, between them at most, and between tries.
PAUSE, MOST_WAIT, AGAIN = 1.0, 60.0, 1.0
# How often it is tried again at once where somebody else publishes meanwhile.
TRIES = 5


class Rounds:
    """What is kept from one round to the next: what the map says, and what was sent."""

    def __init__(self, options: argparse.Namespace) -> None:
        self.options, self.held = options, HeldMap()
        self.file: Optional[DeskMap] = None

    def before(self, log: Optional[Log]) -> DeskMap:
        """The map that the edits begin from. (Edits that are made are done to it, so that the next round begins from there.)"""
        if log is not None:
            return self.held.catch_up(log)
        self.file = self.file or map_of(self.options.against)
        return self.file

    def edits(self, table: Table, log: Optional[Log]) -> int:
        """Prints the edits; the status."""
        options = self.options
        if options.is_stamped_now:
            options.updated = template_of(now_stamp())
        before = self.before(log)
        if log is not None:
            options.against = "the log"
        status = convert(PROGRAM, "row", options, table.features(), before)
        sys.stdout.flush()
        self.file = None if status else self.file
        return status

    def publish(self, table: Table) -> int:
        """Publishes the edits, again where somebody else came first; the status."""
        for left in reversed(range(TRIES)):
            publisher, output = Publisher(self.options.log), io.StringIO()
            with contextlib.closing(publisher.log), contextlib.redirect_stdout(output):
                status = self.edits(table, publisher.log)
            if not self.options.commit or status and not self.options.without_faulty:
                return status
            try:
                self.send(output.getvalue(), Publisher(self.options.log))
                return status
            except Second:
                if not left:
                    raise
        return status

    def send(self, lines: str, publisher: Publisher) -> None:
        """Publishes lines."""
        name = f"the edits of {self.options.table}"
        with contextlib.closing(publisher.log):
            groups = groups_of(io.BytesIO(lines.encode()), name)
            with_judge(self.options, publisher, name, lambda judging: publish_all(judging, publisher, groups))

    def round(self, table: Table) -> int:
        """Makes the edits, and does with them what the options say; the status."""
        if self.options.publish:
            return self.publish(table)
        if self.options.log is None:
            return self.edits(table, None)
        log = Log(self.options.log)
        with contextlib.closing(log):
            return self.edits(table, log)


def opened(options: argparse.Namespace) -> Table:
    """The table."""
    return Table(options.database, options.table, options.geometry)


def once(options: argparse.Namespace) -> int:
    """Makes the edits once; the status."""
    with contextlib.closing(opened(options)) as table:
        return Rounds(options).round(table)


def wait(connection: Any, seconds: float) -> None:
    """Waits until something is told of, but not longer than so many seconds."""
    if not connection.notifies:
        select.select([connection], [], [], seconds)
    connection.poll()
    connection.notifies.clear()


def follow_table(options: argparse.Namespace, rounds: Rounds, table: Table) -> None:
    """Makes the edits again and again, as long as the databases can be reached."""
    table.run(f"LISTEN {table.run('SELECT quote_ident(%s)', options.follow)[0][0]}")
    while True:
        begun = time.monotonic()
        try:
            rounds.round(table)
        except Stopped as stopped:
            for line in str(stopped).splitlines():
                say(line)
        wait(table.connection, MOST_WAIT)
        time.sleep(max(0.0, begun + PAUSE - time.monotonic()))


def say(text: str) -> None:
    """A line on standard error."""
    print(f"{PROGRAM}: {text}", file=sys.stderr, flush=True)


def follow(options: argparse.Namespace) -> int:
    """Makes the edits without end; the status once it is told to end. What fails at the beginning ends it."""
    rounds, table, said = Rounds(options), opened(options), ""
    while True:
        try:
            with contextlib.closing(table or opened(options)) as table:
                said = ""
                follow_table(options, rounds, table)
        except (Broken, psycopg2.Error) as error:
            text = f"{first_line(error)}; it goes on by itself"
            if text != said:
                say(text)
            said, table = text, None
            time.sleep(AGAIN)
