"""A crowd of clients asks while the desk commits; the oracle judges each reply over the edition that it names."""
import asyncio
import json
import os
import random
import resource
import signal
import threading
import time
from typing import NamedTuple

from drawing import Endless
from processes import Gateway
from server import BAD_REQUEST, COMMIT, NAME, Ended, Server
from verdicts import Books, Question, read_or_none, shown
from xml_side import Inexpressible, answer_members, as_answered, as_sent, as_told, request_xml

HEAD = "POST /lost HTTP/1.1\r\nHost: lost.example\r\nContent-Type: application/lost+xml\r\nContent-Length: {}\r\n\r\n"
REQUESTS, GROUPS, FIRST_EDITS = 600, 400, 60
MOST_SHOWN, PAUSE = 5, 0.005


class Asked(NamedTuple):
    """A request as a line and as the bytes that ask it."""

    line: bytes
    posted: bytes


class Told(NamedTuple):
    """An answer, and the edition that the desk had been told of before it was asked for."""

    asked: Asked
    status: int
    edition: object
    xml: bytes
    known: int


def posted(xml):
    """The bytes that ask a document."""
    body = xml.encode()
    return HEAD.format(len(body)).encode() + body


def drawn(session, count):
    """So many drawn requests that a document can say."""
    requests = []
    while len(requests) < count:
        line = session.request_line()
        try:
            requests.append(Asked(line, posted(request_xml(read_or_none(line)))))
        except Inexpressible:
            continue
    return requests


async def read_response(reader):
    """The status, the edition and the body of a response."""
    head = (await reader.readuntil(b"\r\n\r\n")).decode()
    fields = {name.lower(): value.strip() for name, _, value in (line.partition(":") for line in head.split("\r\n")[1:])}
    body = await reader.readexactly(int(fields["content-length"]))
    return int(head.split()[1]), fields.get("edition"), body


class Crowd:
    """Clients that ask drawn requests over connections of their own; `told` grows with each answer."""

    def __init__(self, port, requests, connections, each, seed):
        self.port, self.requests, self.connections, self.each = port, requests, connections, each
        self.dice = random.Random(seed)
        self.told, self.known, self.failed = [], 0, []

    async def client(self):
        """One client."""
        try:
            reader, writer = await asyncio.open_connection("127.0.0.1", self.port)
            for _ in range(self.each):
                asked, known = self.dice.choice(self.requests), self.known
                writer.write(asked.posted)
                status, edition, xml = await asyncio.wait_for(read_response(reader), 60)
                self.told.append(Told(asked, status, edition, xml, known))
            writer.close()
        except (OSError, EOFError, asyncio.TimeoutError) as error:
            self.failed.append(f"a client: {error!r}")

    async def run(self):
        """All clients at once."""
        await asyncio.gather(*(self.client() for _ in range(self.connections)))


def ask_desks(desks, group):
    """The replies of a server that lives to a group of desk lines, which all get; one that dies meanwhile is left out."""
    replies = []
    for server, desk in desks:
        try:
            if server.process.poll() is None:
                replies = desk.ask_all(group)
        except Ended:
            continue
    return replies


def play(desks, groups, crowd, lines, is_over):
    """Sends the desk's lines to all servers, group by group, until the clients are done."""
    for group in groups:
        if is_over.is_set():
            return
        replies = ask_desks(desks, group)
        lines += zip(group, replies)
        if replies[-1].startswith(b'{"committed"'):
            crowd.known = json.loads(replies[-1])["committed"]["edition"]
        time.sleep(PAUSE)


def wanted_answer(line, oracle, book):
    """The members of the right answer to a request."""
    sent = as_sent(read_or_none(line), NAME)
    if sent is None:
        return json.loads(BAD_REQUEST)
    return as_answered(json.loads(Question(json.dumps(sent.line).encode(), oracle).wanted(book)), sent)


def wrong_answers(crowd, lines):
    """What is wrong with the answers, by the oracle."""
    books, wrong, judged = Books(), list(crowd.failed), {}
    for line, reply in lines:
        books.add(line, reply)
    wrong += books.differences.first
    for told in crowd.told:
        number = int(told.edition or 0)
        if told.status != 200 or number not in books.by_edition or told.edition is not None and number < told.known:
            wrong.append(f"status {told.status}, edition {told.edition} after {told.known}: {shown(told.xml)}")
            continue
        key = (told.asked.line, told.edition)
        if key not in judged:
            judged[key] = as_told(wanted_answer(told.asked.line, books.oracle, books.by_edition[number]))
        if answer_members(told.xml, told.edition) != judged[key]:
            wrong.append(f"{shown(told.asked.line)}\n    gateway: {shown(told.xml)}\n    oracle:  {judged[key]}")
    return wrong


def ask_while_committing(servers, crowd, groups, first, meanwhile):
    """Lets the crowd ask while the desk commits; the desk's lines with their replies."""
    desks = [(server, server.desk()) for server in servers]
    lines, is_over = [], threading.Event()
    play(desks, [first], crowd, lines, is_over)
    desk = threading.Thread(target=play, args=(desks, groups, crowd, lines, is_over))
    other = threading.Thread(target=meanwhile, args=(crowd,))
    for thread in (desk, other):
        thread.start()
    asyncio.run(crowd.run())
    is_over.set()
    for thread in (desk, other):
        thread.join()
    return lines


def drawn_history(seed):
    """Requests, the desk's first group, and its further groups."""
    session = Endless(seed)
    first = [session.desk_line() for _ in range(FIRST_EDITS)]
    groups = [session.group() for _ in range(GROUPS)]
    return drawn(session, REQUESTS), [line for line in first if line != COMMIT] + [COMMIT], groups


def summary(crowd, lines):
    """What was asked, in words."""
    editions = {told.edition for told in crowd.told}
    errors = sum(b"<errors" in told.xml[:10] for told in crowd.told)
    commits = sum(line == COMMIT for line, _ in lines)
    print(f"    {len(crowd.told)} answers of {len(editions)} editions, {errors} of them errors, beside {commits} commits")


def many_while_committing(program, seed=1):
    """5,000 queries over 500 connections while the desk commits: each answer is the oracle's for its edition"""
    requests, first, groups = drawn_history(seed)
    with Server(program, 4, 1000) as server, Gateway([server.queries]) as gateway:
        crowd = Crowd(gateway.port, requests, 500, 10, seed)
        lines = ask_while_committing([server], crowd, groups, first, lambda crowd: None)
    summary(crowd, lines)
    return (wrong_answers(crowd, lines) + missing(crowd, 5000))[:MOST_SHOWN]


def missing(crowd, count):
    """What is wrong with the number of answers."""
    return [] if len(crowd.told) == count else [f"{len(crowd.told)} answers and not {count}"]


def killed_in_between(program, seed=2):
    """the same with two servers, of which the preferred one is killed in between: no query is lost"""
    requests, first, groups = drawn_history(seed)
    with Server(program, 4, 1000) as one, Server(program, 4, 1000) as two:

        def kill(crowd):
            """Kills the preferred server once 2,000 queries are answered."""
            while len(crowd.told) < 2000 and not crowd.failed:
                time.sleep(0.01)
            one.process.kill()
            one.process.wait()

        with Gateway([one.queries, two.queries]) as gateway:
            crowd = Crowd(gateway.port, requests, 500, 10, seed)
            lines = ask_while_committing([one, two], crowd, groups, first, kill)
            said = gateway.texts()
    summary(crowd, lines)
    wrong = wrong_answers(crowd, lines) + missing(crowd, 5000)
    return (wrong + ([] if "does not answer" in said else [f"the gateway said {said!r}"]))[:MOST_SHOWN]


def stopped_and_gone(program, seed=3):
    """one server alone that stops, goes on, and is killed: serverTimeout and serverError with status 200, and answers again"""
    requests, first, _ = drawn_history(seed)
    with Server(program, 4, 1000) as server, Gateway([server.queries], "--timeout", "0.5") as gateway:
        desk = server.desk()
        desk.ask_all(first)
        wrong = []
        for name, number, wanted in (
            ("before", None, False), ("stopped", signal.SIGSTOP, True), ("goes on", signal.SIGCONT, False),
            ("killed", signal.SIGKILL, True),
        ):  # fmt: skip
            if number:
                os.kill(server.process.pid, number)
                time.sleep(2.5 if number == signal.SIGCONT else 0)
            crowd = Crowd(gateway.port, requests, 20, 1, seed)
            asyncio.run(crowd.run())
            failed = [told for told in crowd.told if b"<serverTimeout" in told.xml or b"<serverError" in told.xml]
            statuses = {told.status for told in crowd.told}
            if (len(crowd.told), statuses, len(failed)) != (20, {200}, 20 if wanted else 0):
                wrong.append(f"{name}: {len(crowd.told)} answers of status {statuses}, {len(failed)} of no server")
    return wrong


def ten_thousand(program, seed=4):
    """10,000 connections are open at once, and each asks twice within half a minute: all are answered, none after 10 seconds"""
    soft, hard = resource.getrlimit(resource.RLIMIT_NOFILE)
    if hard < 10_500:
        return [f"{hard} open files are allowed to a process, which are too few"]
    resource.setrlimit(resource.RLIMIT_NOFILE, (hard, hard))
    requests, first, _ = drawn_history(seed)
    with Server(program, 4, 1000) as server, Gateway([server.queries], "--processes", "2") as gateway:
        desk = server.desk()
        lines = list(zip(first, desk.ask_all(first)))
        crowd = Patient(gateway.port, requests, 10_000, 2, seed)
        asyncio.run(crowd.run())
    resource.setrlimit(resource.RLIMIT_NOFILE, (soft, hard))
    print(f"    the slowest of {len(crowd.told)} answers took {crowd.slowest:.1f} seconds")
    late = [] if crowd.slowest < 10 else [f"an answer took {crowd.slowest:.1f} seconds"]
    return (wrong_answers(crowd, lines) + missing(crowd, 20_000) + late)[:MOST_SHOWN]


class Patient(Crowd):
    """A crowd all of whose connections are open before the first asks, and stay open until the last has."""

    slowest = 0.0

    async def open_all(self):
        """All connections, a few hundred at a time."""
        opened = []
        for first in range(0, self.connections, 200):
            count = min(200, self.connections - first)
            opened += await asyncio.gather(*(asyncio.open_connection("127.0.0.1", self.port) for _ in range(count)))
        return opened

    async def ask_on(self, reader, writer):
        """Asks over one connection."""
        for _ in range(self.each):
            await asyncio.sleep(self.dice.random() * 15)
            asked, begun = self.dice.choice(self.requests), time.monotonic()
            writer.write(asked.posted)
            try:
                status, edition, xml = await asyncio.wait_for(read_response(reader), 60)
            except (OSError, EOFError, asyncio.TimeoutError) as error:
                self.failed.append(f"a client: {error!r}")
                return
            self.slowest = max(self.slowest, time.monotonic() - begun)
            self.told.append(Told(asked, status, edition, xml, 0))

    async def run(self):
        """All clients, once all connections are open."""
        opened = await self.open_all()
        await asyncio.gather(*(self.ask_on(reader, writer) for reader, writer in opened))
        for _, writer in opened:
            writer.close()
