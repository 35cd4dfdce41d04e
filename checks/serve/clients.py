"""Clients of a live history: each asks over one connection after another, and keeps what it was told."""
import glob
import os
import pickle
import random
import threading
import time
import traceback
from collections import deque
from typing import NamedTuple

from server import Ended, Peer
from verdicts import INTERNAL, Differences, edition_in, shown

CHAPTER_SECONDS = 2.0
MOST_LINES = 990_000
# How many lines connections ask.
LIVES = [1, 20, 1_000, 1_000, 30_000, 100_000, 400_000, MOST_LINES]
SHORT_LIVES = [1, 20, 200, 1_000, 5_000]
BATCHES = [1, 5, 60, 200, 400]
IN_FLIGHT = 2
NO_EDITION = -1


class Run(NamedTuple):
    """What all clients of a run share; `told` has the last edition of a commit that was answered.

    Where memory may be lacking, a reply may be internalError, and the server may end a connection.
    """

    port: int
    chapters: list
    started: float
    seconds: float
    connections: int
    seed: int
    folder: str
    told: object
    lives: list
    may_lack_memory: bool = False

    def passed(self):
        """The seconds since the start."""
        return time.monotonic() - self.started

    def chapter(self):
        """The number of the chapter that is now."""
        return min(int(self.passed() / CHAPTER_SECONDS), len(self.chapters) - 1)


class Counted(NamedTuple):
    """What a client counted."""

    replies: int
    connections: int
    differences: Differences
    replies_of_ended_well: int
    wants_of_memory: int
    ended_early: int


class Pool:
    """The requests of a chapter, twice in a row, so that each run of them is one piece of bytes. `users` is how many pieces
    wait for their replies."""

    def __init__(self, number, requests):
        self.number, self.size, self.users = number, len(requests), 0
        lines = [request + b"\n" for request in requests] * 2
        self.lines, self.text, self.places = lines, b"".join(lines), [0]
        for line in lines:
            self.places.append(self.places[-1] + len(line))
        self.editions = [{} for _ in requests] * 2

    def piece(self, first, end):
        """The bytes of some requests in a row."""
        return self.text[self.places[first] : self.places[end]]


class Notebook:
    """What the clients of a process were told: each different reply to each request, chapter by chapter, in a file.

    A chapter is written once a later one has begun and nobody waits for its replies.
    """

    def __init__(self, number, run):
        self.run, self.lock, self.pools = run, threading.Lock(), {}
        self.file = open(f"{run.folder}/replies-{number}", "wb")

    def take_pool(self):
        """The pool of the chapter that is now, for one piece: it is to be given back."""
        with self.lock:
            number = self.run.chapter()
            if number not in self.pools:
                self.pools[number] = Pool(number, self.run.chapters[number].requests)
            self.pools[number].users += 1
            return self.pools[number]

    def give_back(self, pool):
        """Ends the use of a pool for one piece."""
        with self.lock:
            pool.users -= 1
            while len(self.pools) > 1 and not self.first().users:
                self.write_first()

    def first(self):
        """The pool of the first chapter that is not written."""
        return next(iter(self.pools.values()))

    def write_first(self):
        """Writes the first chapter that is not written."""
        pool = self.first()
        pickle.dump((pool.number, pool.editions[: pool.size]), self.file)
        del self.pools[pool.number]

    def end(self):
        """Writes the chapters that are left."""
        while self.pools:
            self.write_first()
        self.file.close()


class Client:
    """Asks the requests of the chapters, and keeps each different reply to each."""

    def __init__(self, number, run, notebook):
        self.number, self.run, self.notebook = number, run, notebook
        self.dice = random.Random(run.seed * 1000 + number)
        self.differences = Differences()
        self.replies = self.connections = self.replies_of_ended_well = self.wants_of_memory = self.ended_early = 0

    def ask_all(self):
        """Asks until the time is over."""
        while self.run.passed() < self.run.seconds and self.connections < self.run.connections:
            is_last = self.connections + 1 == self.run.connections
            before = self.replies
            try:
                self.ask_on_one(MOST_LINES if is_last else self.dice.choice(self.run.lives))
                self.replies_of_ended_well += self.replies - before
            except Ended:
                self.ended_early += 1
                if not self.run.may_lack_memory:
                    raise

    def ask_on_one(self, most):
        """Asks at most so many lines on one connection."""
        waiting = deque()
        try:
            self.ask_waiting(Peer(self.run.port), waiting, most)
        finally:
            for pool, _, _ in waiting:
                self.notebook.give_back(pool)

    def ask_waiting(self, peer, waiting, left):
        """Asks so many lines; `waiting` has what was sent and has no replies yet."""
        last = 0
        self.connections += 1
        while True:
            while left and len(waiting) < IN_FLIGHT and self.run.passed() < self.run.seconds:
                waiting.append(self.put(peer, left))
                left -= len(waiting[-1][1])
            if not waiting:
                break
            pool, places, told = waiting[0]
            last = self.look_at(pool, places, peer.take(len(places)), max(last, told))
            waiting.popleft()
            self.notebook.give_back(pool)
        if rest := peer.end():
            self.differences.add(f"connection: it got more than its replies: {shown(rest)}")

    def put(self, peer, left):
        """Sends some requests in a row; which they are, and the edition that had been told before."""
        pool = self.notebook.take_pool()
        count = min(left, self.dice.choice(BATCHES), pool.size)
        first = self.dice.randrange(pool.size)
        told = self.run.told.value
        try:
            peer.put(pool.piece(first, first + count))
        except BaseException:
            self.notebook.give_back(pool)
            raise
        return pool, range(first, first + count), told

    def look_at(self, pool, places, replies, last):
        """Keeps replies, and looks whether an edition fell; the greatest edition so far."""
        self.replies += len(replies)
        for place, reply in zip(places, replies):
            edition = pool.editions[place].get(reply)
            if edition is None:
                edition = self.learn(pool, place, reply)
            if edition > last:
                last = edition
            elif edition < last and edition != NO_EDITION:
                self.say_fall(pool.lines[place], edition, last)
        return last

    def say_fall(self, line, edition, last):
        """An edition is below one that was on the connection, or that the desk had been told when the line was sent."""
        self.differences.add(f"query: {shown(line.strip())}\n    edition {edition} came after {last} was told")

    def learn(self, pool, place, reply):
        """Keeps a reply that is new, and gives its edition; one that lacked memory is counted each time."""
        if reply == INTERNAL and self.run.may_lack_memory:
            self.wants_of_memory += 1
            return NO_EDITION
        edition = edition_in(reply)
        edition = NO_EDITION if edition is None else edition
        pool.editions[place][reply] = edition
        return edition

    def counted(self):
        """What was counted."""
        return Counted(
            self.replies, self.connections, self.differences, self.replies_of_ended_well, self.wants_of_memory,
            self.ended_early,
        )


def be_client(client):
    """What a client does; what went wrong is one of its differences."""
    try:
        client.ask_all()
    except Ended as ended:
        client.differences.add(f"connection {client.connections} of client {client.number}: {ended}")
    except Exception:
        client.differences.add(f"client {client.number}: {traceback.format_exc()}")


def be_clients(numbers, run, line, kind=Client):
    """What the process of some clients of a kind does, with a thread for each; `line` is told what they counted."""
    notebook = Notebook(numbers[0], run)
    clients = [kind(number, run, notebook) for number in numbers]
    threads = [threading.Thread(target=be_client, args=(client,)) for client in clients]
    for thread in threads:
        thread.start()
    for thread in threads:
        thread.join()
    notebook.end()
    line.send([client.counted() for client in clients])
    line.close()
    os._exit(0)


def replies_kept(folder, share=0, shares=1):
    """What clients kept, one chapter of so many: for each the replies to each request, of all clients together."""
    files = [open(path, "rb") for path in sorted(glob.glob(f"{folder}/replies-*"))]
    heads = [next_kept(file) for file in files]
    while any(heads):
        chapter = min(head[0] for head in heads if head)
        is_of_share = chapter % shares == share
        together = None
        for number, head in enumerate(heads):
            if head and head[0] == chapter:
                if is_of_share:
                    kept = [set(editions) for editions in head[1]]
                    together = kept if together is None else [one | other for one, other in zip(together, kept)]
                heads[number] = next_kept(files[number])
        if is_of_share:
            yield chapter, together


def next_kept(file):
    """The next chapter that a client kept; None at the end."""
    try:
        return pickle.load(file)
    except EOFError:
        file.close()
        return None
