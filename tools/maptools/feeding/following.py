"""Feeds one server from the log, commit by commit, and stops where it is found to hold anything else."""
from __future__ import annotations

import argparse
import contextlib
import signal
import socket
import sys
import time
from typing import List, Optional

from maptools.connection import Broken, connect
from maptools.feeding.database import first_line, need_driver, psycopg2
from maptools.feeding.health import listen
from maptools.feeding.differing import first_difference
from maptools.feeding.level import Level
from maptools.feeding.log import MOST_ROWS, Commit, Log
from maptools.feeding.publishing import COMMIT_LINE, Stopped
from maptools.feeding.standing import Standing, standing_of
from maptools.replies import ACCEPTED, refused_text
from maptools.rounds import Reply, Talk

# Seconds between looks at the server; between looks at a standby, which tells of nothing, and at another log that tells of nothing.
LOOK, LOOK_AT_STANDBY, POLL = 0.5, 0.1, 2.0
# Seconds between reports, of what changed and of what did not; for a reply; between tries.
SOON, REPORT, REPLY, AGAIN = 1.0, 5.0, 30.0, 0.5
# More commits at once are sent in one go, to a server that is out of rotation meanwhile.
FEW = 16
# What a server refuses for want of memory or of room on its disk, and takes once it has that.
LACKS = (20, 23)
REMEDY = "start this server again, empty or with the journal of `lost-feed snapshot`, and then its follower"


class Surprise(Exception):
    """A reply that a server does not give which holds what the log says."""

    def __init__(self, text: str, code: int = 0) -> None:
        super().__init__(text)
        self.code = code


def need_staged(commit: Commit, replies: List[Reply]) -> None:
    """Surprise where an edit of a commit is refused."""
    for number, (name, reply) in enumerate(replies, 1):
        if name not in ACCEPTED:
            what = f"line {number} of the commit that makes edition {commit.edition}"
            raise Surprise(f"{what} is {refused_text(name, reply)}", reply.get("code", 0))


def need_committed(commit: Commit, reply: Reply) -> None:
    """Surprise where a commit makes another edition than in the log."""
    name, value = reply
    if name != "committed":
        raise Surprise(f"the commit that makes edition {commit.edition} is {refused_text(name, value)}", value.get("code", 0))
    if value.get("edition") != commit.edition:
        raise Surprise(f"the commit that makes edition {commit.edition} made edition {value.get('edition')}")


def send_one_by_one(talk: Talk, commits: List[Commit]) -> None:
    """Sends commits, each only once all its edits are staged."""
    for commit in commits:
        need_staged(commit, talk.ask(commit.desk_lines()))
        need_committed(commit, talk.ask([COMMIT_LINE])[0])


def send_at_once(talk: Talk, commits: List[Commit]) -> None:
    """Sends many commits in one go."""
    lines = [commit.desk_lines() for commit in commits]
    replies = iter(talk.ask(line for edits in lines for line in (*edits, COMMIT_LINE)))
    for commit, edits in zip(commits, lines):
        need_staged(commit, [next(replies) for _ in edits])
        need_committed(commit, next(replies))


class Follower:
    """A server's follower."""

    def __init__(self, options: argparse.Namespace) -> None:
        self.options, self.desk = options, options.desk
        self.name = options.name or f"{socket.gethostname()} {options.desk}"
        self.level = Level(options.status, options.most_behind, options.most_apart)
        # The edition that the server last said it has, or made: what it holds beyond that is not the log's.
        self.acknowledged = 0
        # Whether this log, and not one before, has what the server holds.
        self.is_verified = False
        self.reported, self.reported_at, self.is_at_standby = None, 0.0, False  # type: Optional[Standing], float, bool
        self.said = ""

    def say(self, text: str) -> None:
        """A line on standard error, unless it was the last one."""
        if text and text != self.said:
            print(f"lost-feed: {self.desk}: {text}", file=sys.stderr, flush=True)
        self.said = text

    # ---- the server

    def look(self, log: Log) -> None:
        """Asks the server where it stands. Stopped where the log has no such commit, Broken where it does not say."""
        standing = standing_of(self.options.status, REPLY)
        is_known = self.is_verified and self.level.known.get(standing.edition) == standing.map
        if not is_known and log.map_at(standing.edition) != standing.map:
            raise Stopped(self.difference(standing, log))
        if not self.is_verified:
            self.level.forget(standing)
            self.is_verified = True
        self.level.stand(standing)
        self.acknowledged = standing.edition

    def difference(self, standing: Standing, log: Log) -> str:
        """Where the server and the log part, and what to do."""
        held, position = log.map_at(standing.edition), self.level.position
        # (what it acknowledged may be where it differs, if its edition is the log's and its digest is not)
        agreed = [edition for edition in (self.acknowledged, position.edition if position else -1) if edition < standing.edition]
        first = self.first_in_journal(log) or (max(agreed) + 1 if position is not None and agreed else 0)
        last = min(standing.edition, log.last().edition + 1)
        where = f"from edition {first} on" if first else f"at edition {last}, if not before"
        other = f"edition {standing.edition} with map {held}" if held else f"no commit that makes edition {standing.edition}"
        return f"differs from the log {where}: it holds {standing.text()}, and the log has {other}: {REMEDY}"

    def first_in_journal(self, log: Log) -> int:
        """The first edition of the server's journal that the log does not have; 0 where there is no journal that says so."""
        path = self.options.journal
        try:
            if path:
                with open(path, "rb") as file:
                    return first_difference(file, log)
        except OSError as error:
            self.say(f"--journal {path}: {error.strerror}")
        except ValueError as error:
            self.say(f"--journal {path}: {error}")
        return 0

    def send(self, log: Log, commits: List[Commit]) -> None:
        """Sends commits, and looks where the server stands then."""
        is_many = len(commits) > FEW
        self.level.has_reached_end = self.level.has_reached_end and not is_many
        try:
            with connect(self.desk, REPLY) as connection:
                # (what stood there before is gone, and this connection with it, if the server was started again)
                if standing_of(self.options.status, REPLY) == self.level.position:
                    for commit in commits:
                        self.level.know(commit.standing())
                    talk = Talk(connection, argparse.Namespace(json=False, timeout=REPLY))
                    (send_at_once if is_many else send_one_by_one)(talk, commits)
                    self.acknowledged = commits[-1].edition
                    self.count(commits)
        except Surprise as surprise:
            before = self.level.position
            self.look(log)
            if self.level.position != before:
                return
            if surprise.code in LACKS:
                raise Broken(str(surprise)) from None
            raise Stopped(f"differs from the log: {surprise}: {REMEDY}") from None
        self.look(log)

    def count(self, commits: List[Commit]) -> None:
        """Counts what was sent."""
        self.level.bursts += 1
        self.level.commits += len(commits)
        self.level.edits += commits[-1].edition - commits[0].begins

    # ---- the log

    def catch_up(self, log: Log) -> None:
        """Sends what the server lacks."""
        while True:
            before = self.level.position.edition
            commits = log.after(before)
            self.level.note_contact()
            if not commits:
                return self.level.reach_end()
            self.level.wait_for(commits, len(commits) if len(commits) < MOST_ROWS else log.count_after(before))
            self.send(log, commits)
            self.report(log)

    def report(self, log: Log, is_due: bool = False) -> None:
        """Writes down where the server is, where that changed or is due, unless the log is at a standby, which only reads."""
        now = time.monotonic()
        pause = REPORT if self.level.position == self.reported else SOON
        if is_due or now - self.reported_at > pause:
            self.is_at_standby = log.is_standby()
            if not self.is_at_standby:
                log.report(self.name, str(self.desk), self.level.position, self.level.fault)
            self.reported, self.reported_at = self.level.position, now

    def follow(self, log: Log) -> None:
        """Feeds the server as long as the log can be reached, and a standby is one."""
        is_standby = self.is_at_standby = log.is_standby()
        if not is_standby:
            log.listen()
        looked, polled, is_told, self.is_verified = 0.0, 0.0, True, False
        while self.is_at_standby or not is_standby:
            now = time.monotonic()
            try:
                if now - looked > LOOK / 2:
                    self.look(log)
                    looked = now
                if is_told or is_standby or now - polled > POLL:
                    self.catch_up(log)
                    polled = now
                self.say("")
            except Broken as error:
                looked = polled = 0.0
                self.say(f"{error}; it goes on by itself")
                self.level.log_edition = log.last().edition
                self.level.note_contact()
            self.report(log)
            is_told = log.wait(LOOK_AT_STANDBY if is_standby else LOOK)

    def run(self) -> None:
        """Feeds the server without end; Stopped where it differs."""
        while True:
            try:
                log = Log(self.options.log)
                with contextlib.closing(log):
                    try:
                        self.follow(log)
                    except Stopped as stopped:
                        self.level.fault = str(stopped)
                        self.report(log, is_due=True)
                        raise
            except (Broken, psycopg2.Error) as error:
                self.say(f"the log cannot be reached ({first_line(error)}); it goes on by itself")
                time.sleep(AGAIN)


def follow(options: argparse.Namespace) -> int:
    """Runs a follower until it is told to end; the status."""
    need_driver()
    signal.signal(signal.SIGTERM, lambda *_: sys.exit(0))
    follower = Follower(options)
    print(f"ready {listen(options.listen, follower.level)}", flush=True)
    try:
        follower.run()
    except Stopped as stopped:
        raise Stopped(f"{follower.desk} {stopped}") from None
    except KeyboardInterrupt:
        pass
    return 0
