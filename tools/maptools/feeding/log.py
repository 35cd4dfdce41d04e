"""The log: a table in PostgreSQL with a row for each commit."""
from __future__ import annotations

import contextlib
import select
from typing import Any, Dict, Iterator, List, NamedTuple, Optional

from maptools.connection import Broken
from maptools.feeding import database
from maptools.feeding.database import connected, first_line, is_gone
from maptools.feeding.schema import ALL, CHANNEL
from maptools.feeding.standing import EMPTY, Standing

# So many rows, and about so many bytes, are fetched at once; a row that is longer comes alone.
MOST_ROWS, MOST_BYTES = 500, 16_000_000

COLUMNS = """begins, edition, lines, map, publisher, to_char(published AT TIME ZONE 'UTC', 'YYYY-MM-DD"T"HH24:MI:SS"Z"'),
    extract(epoch FROM clock_timestamp() - published)::float8"""
AFTER = f"""SELECT {COLUMNS} FROM (
    SELECT *, sum(octet_length(lines)) OVER (ORDER BY begins) - octet_length(lines) AS bytes_before
    FROM feed.commits WHERE begins >= %s ORDER BY begins LIMIT {MOST_ROWS}
) AS next WHERE bytes_before < {MOST_BYTES} ORDER BY begins"""
LAST = "SELECT edition, map FROM feed.commits ORDER BY edition DESC LIMIT 1"
REPORT = """INSERT INTO feed.followers (name, server, edition, map, fault, seen) VALUES (%s, %s, %s, %s, %s, clock_timestamp())
    ON CONFLICT (name) DO UPDATE SET server = excluded.server, edition = excluded.edition, map = excluded.map,
    fault = excluded.fault, seen = excluded.seen"""
FOLLOWERS = """SELECT name, server, edition, map, fault, extract(epoch FROM clock_timestamp() - seen)::float8,
    (SELECT count(*) FROM feed.commits WHERE begins >= coalesce(followers.edition, 0)),
    (SELECT extract(epoch FROM clock_timestamp() - published)::float8 FROM feed.commits
        WHERE begins >= coalesce(followers.edition, 0) ORDER BY begins LIMIT 1)
    FROM feed.followers ORDER BY name"""
NO_LOG = "is this the database of the log, and may this user do that? (`lost-feed init` makes a log)"


class Commit(NamedTuple):
    """A row: the edition that it begins from and the one that it makes, its desk lines, and the digest of the map after it; who
    published it, when, and how many seconds ago that was as it was read."""

    begins: int
    edition: int
    lines: str
    map: str
    publisher: str = ""
    published: str = ""
    age: float = 0.0

    def desk_lines(self) -> List[bytes]:
        """The desk lines but for the commit line."""
        return self.lines.encode().split(b"\n")

    def standing(self) -> Standing:
        """What a server shows that holds it."""
        return Standing(self.edition, self.map)


class Told(NamedTuple):
    """What a follower said of its server: how long ago, and how many commits and seconds that is behind the log."""

    name: str
    server: str
    edition: Optional[int]
    map: Optional[str]
    fault: str
    seen: float
    commits: int
    seconds: Optional[float]


class Taken(Exception):
    """Another publisher's commit begins at the same edition."""


class Log:
    """A connection to the log. `Broken` says what is wrong with the log itself; if the connection fails, so does the call."""

    def __init__(self, url: str) -> None:
        self.connection = connected(url)

    def close(self) -> None:
        """Ends the connection."""
        with contextlib.suppress(Exception):
            self.connection.close()

    def rows(self, statement: str, *values: Any) -> List[Any]:
        """The rows that a statement gives."""
        try:
            with self.connection.cursor() as cursor:
                cursor.execute(statement, values)
                return cursor.fetchall() if cursor.description else []
        except database.psycopg2.ProgrammingError as error:
            raise Broken(f"{first_line(error)}: {NO_LOG}") from None

    def make(self) -> bool:
        """Makes the tables, unless they are there; says whether it did."""
        if self.rows("SELECT to_regclass('feed.commits') IS NOT NULL")[0][0]:
            return False
        try:
            with self.connection.cursor() as cursor:
                cursor.execute(f"BEGIN; {ALL} COMMIT;")
        except database.psycopg2.Error as error:
            raise Broken(f"the log cannot be made: {first_line(error)}") from None
        return True

    def last(self) -> Standing:
        """The edition and the digest after all commits."""
        found = self.rows(LAST)
        return Standing(*found[0]) if found else EMPTY

    def map_at(self, edition: int) -> str:
        """The digest of the map at an edition; empty where no commit makes it."""
        found = [(EMPTY.map,)] if edition == 0 else self.rows("SELECT map FROM feed.commits WHERE edition = %s", edition)
        return found[0][0] if found else ""

    def maps(self) -> Dict[int, str]:
        """The digest of the map at each edition that a commit makes, and at 0."""
        return {EMPTY.edition: EMPTY.map, **dict(self.rows("SELECT edition, map FROM feed.commits"))}

    def after(self, edition: int) -> List[Commit]:
        """The next commits after an edition; none where there are none yet."""
        return [Commit(*row) for row in self.rows(AFTER, edition)]

    def all_after(self, edition: int) -> Iterator[Commit]:
        """All commits after an edition, a few at a time."""
        commits = self.after(edition)
        while commits:
            yield from commits
            commits = self.after(commits[-1].edition)

    def count_after(self, edition: int) -> int:
        """How many commits come after an edition."""
        return self.rows("SELECT count(*) FROM feed.commits WHERE begins >= %s", edition)[0][0]

    def add(self, commits: List[Commit]) -> None:
        """Adds commits, all or none; Taken where another publisher came first."""
        statement = "INSERT INTO feed.commits (begins, edition, lines, map) VALUES (%s, %s, %s, %s)"
        try:
            with self.connection.cursor() as cursor:
                cursor.execute("BEGIN")
                for commit in commits:
                    cursor.execute(statement, commit[:4])
                cursor.execute("COMMIT")
        except database.psycopg2.IntegrityError:
            self.rows("ROLLBACK")
            raise Taken from None
        except database.psycopg2.Error as error:
            if is_gone(error):
                raise
            raise Broken(f"the log takes nothing from here: {first_line(error)}") from None

    def is_standby(self) -> bool:
        """Whether this is a standby, which only reads."""
        return self.rows("SELECT pg_is_in_recovery()")[0][0]

    def listen(self) -> None:
        """From now on tells of new commits. What is reported waits for no disk and no standby."""
        self.rows("SET synchronous_commit = off")
        self.rows(f"LISTEN {CHANNEL}")

    def wait(self, seconds: float) -> bool:
        """Waits for a new commit, but not longer than so many seconds; says whether one is told of."""
        if not self.connection.notifies and select.select([self.connection], [], [], seconds)[0]:
            self.connection.poll()
        is_told = bool(self.connection.notifies)
        self.connection.notifies.clear()
        return is_told

    def report(self, name: str, server: str, standing: Optional[Standing], fault: str) -> None:
        """Writes down what a follower says of its server."""
        self.rows(REPORT, name, server, *(standing or (None, None)), fault)

    def followers(self) -> List[Told]:
        """What the followers said last."""
        return [Told(*row) for row in self.rows(FOLLOWERS)]
