"""Makes servers hold what a map file says, by the difference to what they really hold."""
from __future__ import annotations

import argparse
import datetime
import sys
from collections import Counter
from typing import Iterable, List, NamedTuple, TextIO

from maptools.addresses import Server
from maptools.alike import say_lines
from maptools.connection import Broken, connect
from maptools.desk_map import NOW, DeskMap, Reader
from maptools.desk_rules import Book, identity_of
from maptools.difference import Difference, Edit, difference_of, line_of_edit, place_of, too_many_withdrawn
from maptools.feed import USUAL
from maptools.plan import Change, changes_of, plan_of
from maptools.plan_picture import draw_plan
from maptools.refusals import cause_text
from maptools.replies import refused_text
from maptools.restamping import Stamping, stamp_again, to_be_held
from maptools.rounds import Outcome, Refused, Reply, Talk, settle
from maptools.sending import say
from maptools.server_map import digest_of, digest_told, held_by

COMMIT_LINE = b'{"commit":{}}'
# The codes of refusals that a server gives which holds, or remembers, other mappings than it told.
OF_WHAT_IS_HELD = (13, 14, 15, 16, 17, 21)
AGAIN = "sync again"


class Task(NamedTuple):
    """What is to be done with a server: what it holds, what it is to hold, and the edits between."""

    options: argparse.Namespace
    server: Server
    held: DeskMap
    wanted: DeskMap
    stamping: Stamping
    difference: Difference

    def changes(self) -> List[Change]:
        """What the edits change."""
        return list(changes_of(self.difference.edits, self.held, self.wanted))

    def stamp_again(self, edit: Edit) -> bool:
        """Stamps a mapping anew which was withdrawn with a later stamp; says whether that may be done."""
        is_due = self.stamping.where_due or self.stamping.of_all
        if is_due:
            stamp_again(self.wanted, identity_of(edit.value), self.stamping.now)
        return is_due


def now() -> str:
    """The time of this machine as a stamp, to the second."""
    return datetime.datetime.now(datetime.timezone.utc).strftime("%Y-%m-%dT%H:%M:%SZ")


def task_of(options: argparse.Namespace, server: Server, reader: Reader, file: DeskMap) -> Task:
    """What is to be done with a server by a file; Broken where the server does not tell its map."""
    held = held_by(server, options.timeout, reader)
    stamping = Stamping(now(), (options.stamp or file.stamp) == NOW, options.back)
    wanted = to_be_held(held, file, stamping)
    before = Book(dict(held.book.held), dict(held.book.keys), {})
    difference = difference_of(before, wanted, stamping.now)
    too_many = too_many_withdrawn(options, difference, len(held.book.held))
    difference.faults += [too_many] if too_many else []
    return Task(options, server, held, wanted, stamping, difference)


def channel(is_for_lines: bool) -> TextIO:
    """Where a summary goes: not among lines on standard output."""
    return sys.stderr if is_for_lines else sys.stdout


def counts_text(edits: Iterable[Edit], published: str, replaced: str, withdrawn: str) -> str:
    """How many edits there are of each kind."""
    count = Counter(edit.kind for edit in edits)
    return f"{count['publish']} {published}, {count['replace']} {replaced}, {count['withdraw']} {withdrawn}"


def show(task: Task) -> int:
    """Prints what would be sent, or what that changes; the status."""
    edits, options = task.difference.edits, task.options
    if options.svg:
        with open(options.svg, "w", encoding="utf-8") as file:
            file.write(draw_plan(f"{options.file}: what would change in {task.server}", task.changes()))
    for line in [] if options.show else plan_of(task.changes()):
        print(line)
    if options.show and edits:
        for edit in edits:
            print(line_of_edit(edit, task.wanted).decode())
        print(COMMIT_LINE.decode())
    print(f"{task.server}: {counts_text(edits, 'to publish', 'to replace', 'to withdraw')}; nothing was sent", file=channel(options.show))
    return 0


def refusal_of(one: Refused) -> str:
    """A refusal in words; what is usually to be done is no help where the server holds other mappings than it told."""
    name, reply = one.reply
    if one.code() in OF_WHAT_IS_HELD:
        return cause_text(one.code(), str(reply.get("name")))
    return refused_text(name, reply)


def say_refused(task: Task, outcome: Outcome) -> int:
    """Says what the server refused, and what to do; the status."""
    for one in outcome.refused:
        say(f"{place_of(one.edit, task.wanted)}: {refusal_of(one)}")
    text = f"{task.server}: {len(outcome.refused)} of {len(task.difference.edits)} edits were refused, so nothing was published"
    if any(one.code() in OF_WHAT_IS_HELD for one in outcome.refused):
        text += f": the server remembers a later withdrawal, or another desk changed its map meanwhile; {AGAIN}, perhaps with --stamp now"
    say(text)
    return 3


def send(task: Task, talk: Talk) -> Outcome:
    """Sends the edits; Broken, with nothing published, where the connection fails."""
    try:
        return settle(talk, task.difference.edits, task.wanted, task.stamp_again)
    except (Broken, KeyboardInterrupt) as error:
        raise Broken(f"{task.server}: {str(error) or 'interrupted'}; nothing was published") from None


def commit(task: Task, talk: Talk) -> Reply:
    """The reply to a commit; Broken where none came."""
    try:
        return talk.ask([COMMIT_LINE])[0]
    except (Broken, KeyboardInterrupt) as error:
        raise Broken(f"{task.server}: {str(error) or 'interrupted'}; the edits may have been published or not: {AGAIN}") from None


def compare(task: Task, edits: List[Edit], edition: object) -> int:
    """Compares what a server holds now with what it was to hold; the status."""
    wanted, told = digest_of(task.wanted), digest_told(task.server, task.options.timeout)
    if told != wanted:
        say(f"{task.server} holds a map with the digest {told or 'none'}, and was to hold {wanted}: another desk may have changed it; {AGAIN}")
        return 3
    text = counts_text(edits, "published", "replaced", "withdrawn")
    print(f"{task.server}: {text}; edition {edition}; map {told}", file=channel(task.options.json))
    return 0


def publish(task: Task) -> int:
    """Sends the edits and commits them; the status."""
    with connect(task.server, task.options.timeout or USUAL) as connection:
        talk = Talk(connection, task.options)
        outcome = send(task, talk)
        if outcome.refused:
            return say_refused(task, outcome)
        name, reply = commit(task, talk)
        if name != "committed":
            say(f"{task.server}: the commit was {refused_text(name, reply)}; nothing was published")
            return 3
    return compare(task, outcome.accepted, reply.get("edition"))


def sync(task: Task) -> int:
    """Does what is to be done with a server; the status."""
    options, difference = task.options, task.difference
    for fault in difference.faults:
        say(fault)
    if difference.faults:
        say(f"{task.server}: nothing was sent")
        return 3
    if options.dry_run:
        return show(task)
    if difference.edits:
        return publish(task)
    held = f"edition {task.held.edition}; map {digest_of(task.held)}"
    print(f"{task.server}: nothing to send: it holds what {options.file} says; {held}", file=channel(options.json))
    return 0


def sync_desk(options: argparse.Namespace) -> int:
    """Makes each server hold what the file says; the status: 1 if one could not be reached, 3 if one does not hold it for another cause."""
    reader, statuses = Reader(), []
    file = reader.read(options.file)
    say_lines(file.complaints, say)
    if file.complaints:
        say("nothing was sent")
        return 3
    for server in options.servers:
        try:
            statuses.append(sync(task_of(options, server, reader, file)))
        except Broken as error:
            say(str(error))
            statuses.append(1)
    return 1 if 1 in statuses else max(statuses)
