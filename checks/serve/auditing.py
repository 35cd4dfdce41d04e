"""A live history whose answers are all logged, while the server is killed in the middle, and audits of its log."""
import contextlib
import os
import tempfile
import threading
import time
from typing import NamedTuple

from clients import BATCHES, CHAPTER_SECONDS, IN_FLIGHT, SHORT_LIVES, Client, Run
from crowds import raise_files
from drawing import history
from live import FORK, GROUPS, REQUESTS, WORKERS, counted_by, play_desk, start_clients, tell
from logs import Kept, Logged, audit, audit_file, count_lines, lines_up_to, not_right
from plain_lines import differs
from server import Ended
from spoilt_logs import Changed, Spoiling
from verdicts import Books

SECONDS, CLIENTS = 300.0, 100
CONNECTIONS_A_SECOND = 10
DOWN_SECONDS, PATIENCE = 1.0, 60.0
# How many lines a client asks in a second at most: at full speed all clients ask more than a thread can log of whole replies.
PACE = 400
FIRST, DOWN, SECOND = range(3)
DROPPED = "lostd: --journal: dropped what stood behind the last commit: "
# The bytes of requests and replies that may wait for the thread that writes: 64 batches, and what each worker keeps.
MOST_WAITING = 64 * 65_536 + WORKERS * 1_048_576


class Killed(Run):
    """What all clients of a run share whose server is killed once: whether it was, and what each client had until then."""

    def share(self, clients):
        """Makes what is shared by so many clients."""
        self.life = FORK.RawValue("i", FIRST)
        self.before, self.in_flight = FORK.RawArray("Q", clients), FORK.RawArray("Q", clients)
        return self


class Surviving(Client):
    """A client that goes on at the next server."""

    def ask_all(self):
        """Asks until the time is over, but while the server is down."""
        while self.run.passed() < self.run.seconds:
            life = self.run.life.value
            if life == DOWN:
                time.sleep(0.02)
                continue
            try:
                self.ask_on_one(self.dice.choice(self.run.lives))
            except (Ended, OSError):
                if life != FIRST or self.run.life.value == FIRST:
                    raise
            if life == FIRST:
                self.run.before[self.number] = self.replies

    def put(self, peer, left):
        """Sends some requests in a row, and rests as long as the pace wants."""
        sent = super().put(peer, left)
        time.sleep(len(sent[1]) / PACE)
        return sent

    def ask_waiting(self, peer, waiting, left):
        """Asks so many lines; keeps how many it has sent that had no reply."""
        try:
            super().ask_waiting(peer, waiting, left)
        except Ended:
            unsent = max(BATCHES) if len(waiting) < IN_FLIGHT else 0
            self.run.in_flight[self.number] = sum(len(places) for _, places, _ in waiting) + unsent
            raise


class Cut(NamedTuple):
    """After how many lines a desk's server was killed, the lines that had no replies then, and the edition that the next one begins with."""

    place: int
    lines: list
    edition: int


class SurvivingDesk:
    """A desk that goes on at the next server."""

    def __init__(self, killing):
        self.killing, self.peer, self.count, self.cut = killing, killing.server().desk(), 0, None

    def ask_all(self, lines):
        """The replies to lines, as many as came."""
        replies = []
        try:
            self.peer.put(b"".join(line + b"\n" for line in lines))
            while len(replies) < len(lines):
                replies += self.peer.take(1)
        except Ended:
            if self.cut or self.killing.life.value == FIRST:
                raise
            server = self.killing.next_server()
            self.cut = Cut(self.count + len(replies), lines[len(replies) :], server.status()["edition"])
            self.peer = server.desk()
        self.count += len(replies)
        return replies


class Killing(threading.Thread):
    """Kills the server after some seconds, and begins another one at the same ports, over the same journal and log."""

    def __init__(self, stack, program, first, run):
        super().__init__(daemon=True)
        self.stack, self.program, self.run_of, self.life = stack, program, run, run.life
        self.servers, self.size, self.trouble = [first], 0, None

    def server(self):
        """The server that was begun last."""
        return self.servers[-1]

    def run(self):
        """Kills and begins."""
        time.sleep(self.run_of.seconds / 2)
        while not self.run_of.told.value and self.run_of.passed() < self.run_of.seconds:
            time.sleep(0.1)
        first = self.servers[0]
        self.life.value = DOWN
        first.stop()
        self.size = os.path.getsize(first.kept.log)
        time.sleep(DOWN_SECONDS)
        try:
            self.servers.append(self.stack.enter_context(Logged(self.program, WORKERS, first.kept, "digest", ports=first.ports())))
            self.life.value = SECOND
        except Ended as ended:
            self.trouble = f"the second server: {ended}"

    def next_server(self):
        """The second server, once it has begun."""
        self.join(PATIENCE)
        if self.life.value != SECOND:
            raise Ended(self.trouble or "the second server did not begin")
        return self.server()


def books_of(desk_lines, cut):
    """The books by the desk's lines; those that had no replies were done as far as the second server's edition needs."""
    books = Books()
    for line, reply in desk_lines[: cut.place]:
        books.add(line, reply)
    for line in cut.lines:
        if books.last() == cut.edition:
            break
        books.wanted(line)
        books.by_edition[books.last()] = books.oracle.published
    if books.last() != cut.edition:
        books.differences.add(f"the second server began with edition {cut.edition} in place of {books.last()}")
    books.oracle.drop_pending()
    for line, reply in desk_lines[cut.place :]:
        books.add(line, reply)
    return books


class Counts(NamedTuple):
    """The replies that clients got of both servers, the lines of their logs, and what was in flight when the first was killed."""

    replies: list
    lines: list
    in_flight: int
    missed: int
    bytes_of_first: int

    def wrong(self):
        """What is wrong with them."""
        lacking = self.replies[0] - self.lines[0].both()
        most = 2 * MOST_WAITING * self.lines[0].answers // max(self.bytes_of_first, 1)
        print(f"first server, killed: clients got {self.replies[0]} replies, its log has {self.lines[0].answers} lines and left out"
              f" {self.lines[0].left_out}: {max(lacking, 0)} lack (at most {most} may wait for its file),"
              f" {max(-lacking, 0)} more were answered that did not arrive (at most {self.in_flight} were in flight)")
        print(f"second server: clients got {self.replies[1]} replies, its log has {self.lines[1].answers} lines and left out {self.missed}")
        wrong = [] if -self.in_flight <= lacking <= most else [f"first server: {lacking} lines lack in its log"]
        wrong += differs("second server: lines logged or left out", self.lines[1].answers + self.missed, self.replies[1])
        return wrong + differs("lines left out", self.lines[0].left_out + self.missed, 0)


def counts_of(killing, counted):
    """What clients and logs counted, once the second server has written all."""
    run, kept = killing.run_of, killing.server().kept
    before, all_replies = sum(run.before), sum(one.replies for one in counted)
    missed = killing.server().settle(all_replies - before)
    with open(kept.log, "rb") as file:
        lines = [count_lines(lines_up_to(file, end)) for end in (killing.size, os.path.getsize(kept.log))]
    return Counts([before, all_replies - before], lines, sum(run.in_flight), missed, killing.size)


def said_of(servers):
    """What is wrong with what the servers said; the second one may have dropped what was not committed."""
    return [f"it said: {line}" for server in servers for line in server.said() if not line.startswith(DROPPED)]


def audited(program, kept, lines, seed):
    """What is wrong with audits of the log, of a spoilt copy of it, and beside a journal that was changed."""
    begun = time.monotonic()
    found = audit_file(program, kept)
    passed = time.monotonic() - begun
    print(f"audit of the log: {found.told[-1:]}, {found.lines / passed:.0f} lines a second", flush=True)
    wrong = not_right("audit of the log", found) + differs("lines of the audit", found.lines, lines)
    return wrong + spoilt(program, kept, lines, seed) + changed(program, kept, seed)


def spoilt(program, kept, lines, seed):
    """What is wrong with an audit of a spoilt copy of the log."""
    spoiling = Spoiling(lines, seed)
    with open(kept.log, "rb") as file:
        found = audit(program, kept.journal, spoiling.lines(file))
    print(f"audit of a copy with {spoiling.wholes} replies and {spoiling.digests} digests spoilt: {found.told[-1:]}, {len(found.named)} lines named",
          flush=True)
    wrong = differs("spoilt lines: status, differences, unjudged", found.findings(), (3, len(spoiling.numbers), 0))
    missed, more = set(spoiling.numbers) - set(found.named), set(found.named) - set(spoiling.numbers)
    wrong += [f"spoilt lines that are not named: {sorted(missed)[:5]} of {len(missed)}"] if missed else []
    wrong += [f"lines named that are not spoilt: {sorted(more)[:5]} of {len(more)}"] if more else []
    return wrong + ([] if spoiling.wholes and spoiling.digests else ["too few lines were spoilt: give more seconds"])


def changed(program, kept, seed):
    """What is wrong with an audit beside a journal with one changed edit."""
    path = f"{kept.journal}.changed"
    change = Changed(kept.journal, path, seed)
    with open(kept.log, "rb") as file:
        found = audit(program, path, file)
    told = f"status {found.status}, {found.said.strip()}"
    print(f"audit beside a journal whose line {change.number + 1} was changed, whose commit is line {change.commit}: {told}", flush=True)
    is_noticed = found.status == 3 and f": line {change.commit}, " in found.said
    return [] if is_noticed else [f"a changed edit was not noticed at its commit: {told}"]


def play(program, run, killing, clients):
    """Plays the history; the desk's lines with their replies, its cut, and what the clients counted."""
    started = start_clients(run, clients, Surviving)
    killing.start()
    desk = SurvivingDesk(killing)
    desk_lines = play_desk(killing.server(), run, desk)
    desk.peer.end()
    return desk_lines, desk.cut or Cut(len(desk_lines), [], 0), counted_by(started)


def run_audit(program, seconds, clients, seed):
    """Runs a live history with a log, judges its replies, and audits its log; whether all was as wanted."""
    raise_files(2 * clients)
    chapters = history(seed, int(seconds / CHAPTER_SECONDS) + 1, REQUESTS, GROUPS)
    with tempfile.TemporaryDirectory() as folder, contextlib.ExitStack() as stack:
        kept = Kept(f"{folder}/journal.jsonl", f"{folder}/answers.log")
        first = stack.enter_context(Logged(program, WORKERS, kept, "whole"))
        told = FORK.RawValue("Q", 0)
        run = Killed(first.queries, chapters, time.monotonic(), seconds, int(seconds * CONNECTIONS_A_SECOND), seed, folder, told, SHORT_LIVES)
        killing = Killing(stack, program, first, run.share(clients))
        desk_lines, cut, counted = play(program, run, killing, clients)
        passed, books = run.passed(), books_of(desk_lines, cut)
        counts = counts_of(killing, counted)
        killing.server().stop()
        wrong = said_of(killing.servers) + counts.wrong()
        wrong += audited(program, kept, sum(lines.answers + lines.notes for lines in counts.lines), seed)
        for text in wrong:
            books.differences.add(f"log: {text}")
        is_right = tell(books, [], counted, passed, chapters, folder)
    if not is_right:
        print(f"to make it again: checks/serve/run --audit {seconds:g} --clients {clients} --seed {seed}")
    return is_right
