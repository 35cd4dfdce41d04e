"""A live history: a desk edits while clients ask, and afterwards the oracle judges every reply."""
import multiprocessing
import os
import tempfile
import time

import search
from clients import CHAPTER_SECONDS, LIVES, Client, Run, be_clients, replies_kept
from drawing import history
from mappings import holds
from server import Server
from verdicts import Books, Differences, Question

WORKERS = 4
REQUESTS = 150
GROUPS = 40
PROCESSES = 16
CONNECTIONS_A_SECOND = 2
FORK = multiprocessing.get_context("fork")


class Remembering:
    """What holds says of each mapping, of one place: an oracle that looks at many books asks it again and again."""

    def __init__(self):
        self.said = {}

    def __call__(self, mapping, place):
        name = id(mapping)
        if name not in self.said:
            self.said[name] = holds(mapping, place)
        return self.said[name]


def play_desk(server, run, desk):
    """Sends the desk's lines in their time; each line with its reply."""
    told = []
    for number, chapter in enumerate(run.chapters):
        for place, group in enumerate(chapter.groups):
            due = (number + group_time(place, len(chapter.groups))) * CHAPTER_SECONDS
            if run.passed() >= run.seconds:
                return told
            time.sleep(max(0.0, due - run.passed()))
            told += zip(group, desk.ask_all(group))
            run.told.value = committed(told[-1][1], run.told.value)
    return told


def group_time(place, count):
    """When a group of a chapter is due, as a share of it: half of them evenly, the others at once in the middle."""
    return place / count if place * 4 < count or place * 4 >= 3 * count else 0.25


def committed(reply, before):
    """The edition that the answer to a commit names."""
    front = b'{"committed":{"edition":'
    return int(reply[len(front) : -2]) if reply.startswith(front) else before


def start_clients(run, clients, kind=Client):
    """Starts the clients, dealt to some processes; each process, with the line on which it tells what they counted."""
    started = []
    for first in range(min(clients, PROCESSES)):
        line, other = FORK.Pipe(duplex=False)
        process = FORK.Process(target=be_clients, args=(range(first, clients, PROCESSES), run, other, kind), daemon=True)
        process.start()
        other.close()
        started.append((process, line))
    return started


def counted_by(started):
    """What each client counted, once all have ended."""
    counted = [one for _, line in started for one in line.recv()]
    for process, _ in started:
        process.join()
    return counted


def judge(books, chapters, folder):
    """Judges what the clients kept, on all processors; how many different replies there were."""
    shares, judges, count = os.cpu_count() or 1, [], 0
    for share in range(shares):
        line, other = FORK.Pipe(duplex=False)
        process = FORK.Process(target=be_judge, args=(books, chapters, folder, share, shares, other), daemon=True)
        process.start()
        other.close()
        judges.append((process, line))
    for process, line in judges:
        judged, differences = line.recv()
        count += judged
        books.differences.include(differences)
        process.join()
    return count


def be_judge(books, chapters, folder, share, shares, line):
    """What the process of a judge does: it judges one chapter of so many, and tells what it counted."""
    books.differences = Differences()
    count = 0
    for number, replies in replies_kept(folder, share, shares):
        for request, told in zip(chapters[number].requests, replies):
            question = Question(request, books.oracle)
            search.holds = Remembering()
            for reply in told:
                count += 1
                books.differences.compare_reply(question, reply, books)
    line.send((count, books.differences))
    line.close()
    os._exit(0)


def run_live(program, seconds, clients, seed):
    """Runs a live history and judges it; whether all was as wanted."""
    chapters = history(seed, int(seconds / CHAPTER_SECONDS) + 1, REQUESTS, GROUPS)
    each = int(seconds * CONNECTIONS_A_SECOND) + 10
    with tempfile.TemporaryDirectory() as folder, Server(program, WORKERS, clients * each) as server:
        desk = server.desk()
        told = FORK.RawValue("Q", 0)
        run = Run(server.queries, chapters, time.monotonic(), seconds, each, seed, folder, told, LIVES)
        started = start_clients(run, clients)
        desk_lines = play_desk(server, run, desk)
        counted = counted_by(started)
        passed = run.passed()
        server.made = sum(one.connections for one in counted)
        books = Books()
        desk.end()
        server.use_up()
        for wrong in [*server.done(sum(one.replies for one in counted), 0), *server.said()]:
            books.differences.add(f"end: {wrong}")
        return tell(books, desk_lines, counted, passed, chapters, folder)


def tell(books, desk_lines, counted, passed, chapters, folder, may_lack_memory=False):
    """Judges all replies, and prints the counts; whether there was no difference."""
    begun = time.monotonic()
    for line, reply in desk_lines:
        books.add(line, reply, may_lack_memory)
    different = judge(books, chapters, folder)
    for one in counted:
        books.differences.include(one.differences)
    replies, connections = sum(one.replies for one in counted), sum(one.connections for one in counted)
    print(
        f"{replies} replies in {passed:.0f} seconds, {replies / passed:.0f} a second, on {connections} connections of "
        f"{len(counted)} clients to {WORKERS} workers"
    )
    print(f"{books.lines} desk lines, {books.accepted} edits accepted, {len(books.by_edition) - 1} editions committed")
    print(f"{different} different replies were compared, in {time.monotonic() - begun:.0f} seconds")
    for difference in books.differences.first:
        print(f"WRONG: {difference}")
    print(f"{books.differences.count} differences")
    return books.differences.count == 0
