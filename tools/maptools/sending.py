"""Desk lines from files to the server, and what came of them."""
from __future__ import annotations

import argparse
import sys
from typing import Any, Dict, List, NamedTuple

from maptools.connection import Broken, connect
from maptools.feed import USUAL, Feed, Patience, place_of, replies
from maptools.replies import ACCEPTED, refused_text, reply_of


class Count(NamedTuple):
    """What came of desk lines."""

    staged: int = 0
    committed: int = 0
    refused: int = 0
    pending: int = 0
    edition: int = 0


def say(text: str) -> None:
    """A line on standard error."""
    print(f"lost-client: {text}", file=sys.stderr, flush=True)


def counted(count: Count, name: str, reply: Dict[str, Any]) -> Count:
    """The count after one more reply."""
    if name == "staged":
        return count._replace(staged=count.staged + 1, pending=reply.get("pending", 0))
    if name == "committed":
        return count._replace(committed=count.committed + 1, pending=0, edition=reply.get("edition", 0))
    return count._replace(refused=count.refused + 1)


def total(count: Count) -> int:
    """How many replies there were."""
    return count.staged + count.committed + count.refused


def end_text(count: Count) -> str:
    """What came of all lines."""
    head = f"{total(count)} lines: {count.staged} edits staged, {count.committed} commits, {count.refused} refused"
    edition = f"; edition {count.edition}" if count.committed else ""
    return f"{head}{edition}" + (f"; {count.pending} staged edits are not committed" if count.pending else "")


def after_reply(options: argparse.Namespace, feed: Feed, names: List[str], count: Count, line: bytes) -> Count:
    """Says what a reply refuses; the count after it."""
    name, reply = reply_of(line)
    count = counted(count, name, reply)
    if options.json:
        print(line.decode(errors="replace"), flush=True)
    if name not in ACCEPTED:
        file, number = place_of(total(count), feed.sent, names)
        say(f"{file}, line {number}: {refused_text(name, reply)}")
    return count


def take_replies(options: argparse.Namespace, connection: Any, feed: Feed, names: List[str]) -> Count:
    """Reads the replies to desk lines to the last one, and says once that the first of two files is loaded."""
    count, is_said = Count(), len(names) == 1
    try:
        for line in replies(connection, feed, Patience(options.timeout, say)):
            if line is not None:
                count = after_reply(options, feed, names, count, line)
            elif not is_said and feed.files_sent and total(count) == sum(feed.sent):
                is_said = True
                print(f"{end_text(count)}; the connection stays open", file=sys.stderr, flush=True)
    except KeyboardInterrupt:
        if total(count) < sum(feed.sent) or not options.keep_open:
            raise Broken(f"interrupted after {total(count)} replies") from None
    return count


def feed_desk(options: argparse.Namespace) -> int:
    """Sends desk lines, and says what came of them; the status."""
    paths = [options.file] + (["-"] if options.keep_open and options.file != "-" else [])
    files = [open(0 if path == "-" else path, "rb", buffering=0, closefd=path != "-") for path in paths]
    names = ["standard input" if path == "-" else path for path in paths]
    with connect(options.server, options.timeout or USUAL) as connection:
        connection.settimeout(None)
        count = take_replies(options, connection, Feed(connection, files), names)
    print(end_text(count), file=sys.stderr if options.json else sys.stdout)
    return 3 if count.refused else 0
