"""Publishes desk lines: each commit becomes a row of the log, once a server has taken all of them."""
from __future__ import annotations

import argparse
import contextlib
import sys
import time
from typing import Any, BinaryIO, Callable, Iterator, List, NamedTuple, Tuple

from maptools.alike import say_lines
from maptools.connection import Broken
from maptools.desk_map import COMMIT, NAME_OF_LINE
from maptools.desk_reading import geojson_hint
from maptools.feeding.database import first_line, psycopg2
from maptools.feeding.judge import Judge
from maptools.feeding.log import Commit, Log, Taken
from maptools.feeding.snapshots import snapshot_in
from maptools.feeding.standing import Standing
from maptools.lines import read_line
from maptools.plan import counted
from maptools.replies import ACCEPTED, refused_text

COMMIT_LINE = b'{"commit":{}}'
NOTHING = "nothing was published"
# For how long, in seconds, a publish is tried again whose answer was lost, and how often.
PATIENCE, AGAIN = 20.0, 0.5


class Stopped(Exception):
    """What ends a command with status 3."""


class Second(Stopped):
    """Another publisher came first."""


class Group(NamedTuple):
    """Edits up to a commit line: their lines, and the number of the first."""

    first: int
    lines: List[bytes]


def is_commit(line: bytes) -> bool:
    """Whether a line is a commit line."""
    head = NAME_OF_LINE.match(line)
    if head is None or (COMMIT.encode() not in head[0] and b"\\" not in head[0]):
        return False
    member = read_line(line)
    return member is not None and member[0] == COMMIT and isinstance(member[1], dict)


def groups_of(file: BinaryIO, name: str) -> Iterator[Group]:
    """The edits of each commit; Stopped where the last line is no commit."""
    first, lines = 1, []  # type: int, List[bytes]
    for number, line in enumerate(file, 1):
        line = line.rstrip(b"\n")
        if not is_commit(line):
            lines.append(line)
            continue
        yield Group(first, lines)
        first, lines = number + 1, []
    if lines:
        hint = geojson_hint(b"".join(lines))
        raise Stopped(f"{name}: its last line is not a commit; add one, to show that the file is whole{hint}")


class Judging:
    """What a judge makes of the commits of a file; `complaints` are about lines that it refuses."""

    def __init__(self, judge: Judge, name: str) -> None:
        self.judge, self.name, self.complaints = judge, name, []  # type: Judge, str, List[str]
        self.standing = judge.standing()

    def take(self, group: Group) -> List[Commit]:
        """The commit that some edits make; none where there are none, or where one is refused."""
        replies = self.judge.ask(group.lines) if group.lines else []
        refused = [(number, reply) for number, reply in enumerate(replies, group.first) if reply[0] not in ACCEPTED]
        self.complaints += [f"{self.name}, line {number}: {refused_text(*reply)}" for number, reply in refused]
        if self.complaints or not group.lines:
            return []
        before = self.standing
        name, reply = self.judge.ask([COMMIT_LINE])[0]
        if name != "committed":
            raise Stopped(f"the commit after line {group.first + len(group.lines) - 1} was {refused_text(name, reply)}; {NOTHING}")
        self.standing = self.judge.standing_after(reply.get("edition", before.edition))
        return [Commit(before.edition, self.standing.edition, b"\n".join(group.lines).decode(), self.standing.map)]

    def need_clean(self) -> None:
        """Stopped where lines were refused."""
        if self.complaints:
            said: List[str] = []
            say_lines(self.complaints, said.append)
            raise Stopped("\n".join([*said, NOTHING]))


class Publisher:
    """Adds commits to the log, and finds out what became of them where the answer was lost."""

    def __init__(self, url: str) -> None:
        self.url, self.log = url, Log(url)

    def add(self, commits: List[Commit]) -> None:
        """Adds commits; Stopped where another publisher came first, Broken where the log cannot be reached."""
        try:
            self.log.add(commits)
        except Taken:
            self.say_taken(commits)
        except psycopg2.Error as error:
            self.log.close()
            self.look_after(commits, first_line(error))

    def say_taken(self, commits: List[Commit]) -> None:
        """Says who came first."""
        winner = self.log.after(commits[0].begins)[0]
        who = f"{winner.publisher} published edition {winner.edition} first, at {winner.published}"
        raise Second(f"{who}, from the same edition {commits[0].begins}: {NOTHING}; look at it, and publish again")

    def has(self, commits: List[Commit]) -> bool:
        """Whether the log has commits, of which it has all or none."""
        return all(one[:4] in [row[:4] for row in self.log.after(one.begins)[:1]] for one in (commits[0], commits[-1]))

    def add_again(self, commits: List[Commit]) -> None:
        """Adds commits that may have been added before. (Where that is still under way, this waits for what comes of it.)"""
        if self.has(commits):
            return
        try:
            self.log.add(commits)
        except Taken:
            if not self.has(commits):
                self.say_taken(commits)

    def look_after(self, commits: List[Commit], cause: str) -> None:
        """Returns once the log has the commits after all; Broken where it cannot be reached for too long."""
        end = time.monotonic() + PATIENCE
        while time.monotonic() < end:
            with contextlib.suppress(Broken, psycopg2.Error):
                self.log = Log(self.url)
                return self.add_again(commits)
            time.sleep(AGAIN)
        what = "whether the commits are in the log is not known; ask `lost-feed status` before you publish them again"
        raise Broken(f"the connection to the log failed ({cause}): {what}")


def told(commits: List[Commit], standing: Standing) -> str:
    """What was published."""
    if not commits:
        return f"nothing to publish: {standing.text()}"
    edits = commits[-1].edition - commits[0].begins
    return f"{counted(edits, 'edit')} in {counted(len(commits), 'commit')}: {standing.text()}"


def publish_each(judging: Judging, publisher: Publisher, groups: Iterator[Group]) -> None:
    """Publishes each commit as it comes, and says so."""
    for group in groups:
        commits = judging.take(group)
        judging.need_clean()
        if commits:
            publisher.add(commits)
        print(told(commits, judging.standing), flush=True)


def publish_all(judging: Judging, publisher: Publisher, groups: Iterator[Group]) -> None:
    """Publishes all commits of a file at once, or none."""
    commits = [commit for group in groups for commit in judging.take(group)]
    judging.need_clean()
    if commits:
        publisher.add(commits)
    print(told(commits, judging.standing))


def with_judge(options: argparse.Namespace, publisher: Publisher, name: str, act: Callable[[Judging], Any]) -> Any:
    """Does something with a server that stands where the log does; Broken where it does not."""
    with snapshot_in(publisher.log, options.state) as path:
        judge = Judge(options.lostd, path)
    with judge:
        judging = Judging(judge, name)
        if publisher.log.map_at(judging.standing.edition) != judging.standing.map:
            raise Broken(f"a lostd that reads the log has {judging.standing.text()}, and the log has no such commit")
        return act(judging)


def opened(path: str) -> Tuple[BinaryIO, str]:
    """A file, or standard input, and its name."""
    return (sys.stdin.buffer, "standard input") if path == "-" else (open(path, "rb"), path)


def publish(options: argparse.Namespace) -> int:
    """Publishes a file; the status."""
    file, name = opened(options.file)
    how = publish_each if options.each else publish_all
    with file:
        publisher = Publisher(options.log)
        with_judge(options, publisher, name, lambda judging: how(judging, publisher, groups_of(file, name)))
    return 0
