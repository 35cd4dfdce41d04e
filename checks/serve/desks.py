"""Desks one after another at a server without end; each check gives what was wrong, an empty list where nothing was."""
import random
import tempfile
import time

from clients import CHAPTER_SECONDS, LIVES, Run
from connections import ended_by_server
from drawing import history
from live import FORK, REQUESTS, committed, counted_by, start_clients, tell
from members import only_member
from plain_lines import LIST, differs, publish, services_reply
from server import BAD_LINE, COMMIT, Ended, Standing
from verdicts import Books, read_or_none

WORKERS = 4
CLIENTS = 4
DESKS, PAUSE = 100, 0.25
GROUPS = 30
MOST_GROUPS = 4
SEED = 21


class Desk:
    """A desk that lives for some groups of lines, stages more, and dies in the middle of a line."""

    def __init__(self, server, run, books):
        self.peer, self.run, self.books = server.desk(), run, books

    def ask(self, lines):
        """Sends lines, and has their replies judged, as many as came."""
        for line, reply in zip(lines, self.peer.ask_all(lines)):
            self.books.add(line, reply)
            self.run.told.value = committed(reply, self.run.told.value)

    def die(self, way, lines, half):
        """Stages some lines and half of another one, and dies in one of the ways; what is wrong with how it went."""
        wrong = way(self, lines, half)
        self.books.oracle.drop_pending()
        return wrong


def by_reset(desk, lines, half):
    """Its replies are read, and then the connection is reset."""
    desk.ask(lines)
    desk.peer.put(half)
    time.sleep(0.01)
    desk.peer.reset()
    return []


def unread(desk, lines, half):
    """It goes away without reading a reply."""
    desk.peer.put(b"".join(line + b"\n" for line in lines) + half)
    desk.peer.socket.close()
    return []


def by_end(desk, lines, half):
    """It ends its side, and half a line is answered as a bad one."""
    desk.ask(lines)
    desk.peer.put(half)
    return differs("half a line that ends", desk.peer.end(), BAD_LINE + b"\n")


WAYS = [by_reset, unread, by_end]


def is_commit(line):
    """Whether a line commits, however it is spelled."""
    only = only_member(read_or_none(line))
    return only is not None and only[0] == "commit"


def cut_line(number, dice):
    """A part of a desk line, which is no line."""
    line = publish(number)
    return line[: dice.randrange(1, len(line))]


def live_desks(server, run, books):
    """Desks one after another, each of which dies; what was wrong."""
    dice, wrong = random.Random(SEED), []
    for number in range(DESKS):
        time.sleep(max(0.0, number * PAUSE - run.passed()))
        groups = run.chapters[run.chapter()].groups
        desk = Desk(server, run, books)
        for _ in range(dice.randrange(MOST_GROUPS)):
            desk.ask(dice.choice(groups))
        staged = [line for line in dice.choice(groups) if not is_commit(line)] + [publish(number)]
        wrong += desk.die(dice.choice(WAYS), staged, cut_line(number, dice))
    return wrong


def counted_as(server, books, counted):
    """What is wrong with what the server counted once all clients have ended, and with what its last desk left."""
    desk = server.desk()
    books.add(COMMIT, desk.ask(COMMIT))
    desk.end()
    status = server.quiet_status()
    replies, made = sum(one.replies for one in counted), sum(one.connections for one in counted)
    wrong = differs("replies counted", sum(status["replies"].values()), replies)
    wrong += differs("connections counted", status["connections"], {"open": 0, "waiting": 0, "refused": 0, "accepted": made})
    wrong += differs("faults counted", status["faults"], 0) + differs("pending", status["pending"], 0)
    return wrong + differs("edition", status["edition"], books.last())


def killed_in_mid_line(program, is_long):
    """100 desks one after another, each of which dies in the middle of a line, while clients ask: every reply is compared"""
    seconds = DESKS * PAUSE + CHAPTER_SECONDS
    chapters, books = history(SEED, int(seconds / CHAPTER_SECONDS) + 1, REQUESTS, GROUPS), Books()
    with tempfile.TemporaryDirectory() as folder, Standing(program, WORKERS) as server:
        told = FORK.RawValue("Q", 0)
        run = Run(server.queries, chapters, time.monotonic(), seconds, int(seconds * 10), SEED, folder, told, LIVES)
        started = start_clients(run, CLIENTS)
        wrong = live_desks(server, run, books)
        counted = counted_by(started)
        wrong += counted_as(server, books, counted)
        wrong += [line for line in server.said() if "desk connection" not in line]
        return wrong + ([] if tell(books, [], counted, run.passed(), chapters, folder) else ["replies differ"])


def ten_thousand(program, is_long):
    """10,000 connections one after another without --connections, with a desk for each 20 of them, each answered"""
    wrong, count = [], 10_000
    with Standing(program, WORKERS) as server:
        for number in range(count):
            if number % 20 == 0:
                desk = server.desk()
                replies = desk.ask_all([publish(number), COMMIT, publish(number + 1)])
                wrong += differs("pending", replies[0::2], [b'{"staged":{"pending":1}}'] * 2)
                desk.end()
            peer = server.connect()
            wrong += differs("reply", peer.ask(LIST), services_reply(number // 20 + 1, "sos"))
            wrong += differs("more than the reply", peer.end(), b"")
        status = server.status()
        wrong += differs("accepted", status["connections"]["accepted"], count)
        return wrong[:3] + differs("mappings", status["mappings"], count // 20) + differs("said", server.said(), [])


def second_waits(program, is_long):
    """a second desk is told nothing until the first has ended, and then finds none of its edits pending"""
    with Standing(program, 1) as server:
        first = server.desk()
        wrong = differs("the first", first.ask_all([publish(1), COMMIT, publish(2)])[1], b'{"committed":{"edition":1}}')
        second = server.desk()
        second.put(publish(3) + b"\n")
        try:
            wrong.append(f"the second was told {second.take(1, 1)} while the first was served")
        except Ended:
            pass
        first.end()
        wrong += differs("the second", second.take(1), [b'{"staged":{"pending":1}}'])
        wrong += differs("its commit", second.ask(COMMIT), b'{"committed":{"edition":2}}')
        second.end()
        return wrong


def silent_desk(program, is_long):
    """with --desk-idle 1 a desk that goes silent is ended, its edits are dropped, and the next one is served"""
    with Standing(program, 1, "--desk-idle", "1") as server:
        silent = server.desk()
        wrong = differs("the silent one", silent.ask(publish(1)), b'{"staged":{"pending":1}}')
        waiting = server.desk()
        waiting.put(COMMIT + b"\n")
        passed, ended = ended_by_server(silent, 5)
        wrong += ended + ([] if 0.8 < passed < 3 else [f"it was ended after {passed:.1f} s"])
        wrong += differs("the next one", waiting.take(1), [b'{"committed":{"edition":0}}'])
        waiting.end()
        said = [line for line in server.said() if line.endswith(": it sent nothing for too long")]
        return wrong + differs("lines said of it", len(said), 1)


CHECKS = [second_waits, silent_desk, killed_in_mid_line, ten_thousand]
