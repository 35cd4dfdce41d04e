"""Logs of answers whose file fails, is not read, or is taken away; each check gives what was wrong, an empty list where nothing was."""
import contextlib
import json
import os
import shutil
import subprocess
import tempfile
import threading
import time

from logs import LEFT_OUT, MISSED, Kept, Logged, audit, count_lines, not_right
from plain_lines import LIST, differs, judged, publish, question
from server import COMMIT, Ended

WORKERS, MAPPINGS, BATCH = 2, 20, 20
PAUSE = 0.01
ROTATIONS, BETWEEN = 8, 0.4
DISK, LONG_LINE = "256k", 200_000
# So many batches wait for the thread that writes, and so many bytes are kept by a worker.
MOST_BATCHES, MOST_KEPT = 64, 1_048_576
MOST_LINES = 4_000
KILLS = 12
MEMBERS = ["time", "edition", "connection", "request", "reply"]
PATIENCE = 60


def asked(number):
    """A request that is like no other one."""
    return question(number % MAPPINGS).replace(b'"id": "p"', b'"id": "p%d"' % number)


def long_asked(number):
    """The same, of many bytes."""
    return asked(number)[:-1] + b', "x": "' + b"x" * LONG_LINE + b'"}'


class Load(threading.Thread):
    """Asks over a connection, and keeps each line with its reply."""

    def __init__(self, server, first=0, draw=asked, batch=BATCH):
        super().__init__(daemon=True)
        self.peer, self.first, self.draw, self.batch = server.connect(), first, draw, batch
        self.lines, self.replies, self.trouble, self.is_over = [], [], [], threading.Event()

    def ask(self, count=None):
        """Asks so many lines, or a batch."""
        lines = [self.draw(self.first + len(self.lines) + number) for number in range(count or self.batch)]
        self.replies += self.peer.ask_all(lines)
        self.lines += lines

    def run(self):
        """Asks until it is ended, or its server is."""
        try:
            while not self.is_over.wait(PAUSE):
                self.ask()
        except Ended as ended:
            self.trouble.append(f"answers did not go on: {ended}")

    def end(self):
        """Ends; what was wrong."""
        self.is_over.set()
        if self.is_alive():
            self.join(PATIENCE)
        self.peer.end()
        return self.trouble


@contextlib.contextmanager
def logged(program, folder, log):
    """A server with a journal of some mappings and a log; and the desk's lines with their replies."""
    with Logged(program, WORKERS, Kept(f"{folder}/journal.jsonl", log), "whole") as server:
        desk = server.desk()
        lines = [*map(publish, range(MAPPINGS)), COMMIT]
        told = list(zip(lines, desk.ask_all(lines)))
        desk.end()
        yield server, told


def mixed(lines):
    """What is wrong with the lines of a log by themselves: each must be whole."""
    for number, line in enumerate(lines, 1):
        try:
            members = list(json.loads(line))
        except ValueError:
            members = None
        if members not in (MEMBERS, ["leftOut"]) or not line.endswith(b"\n"):
            return [f"line {number} of the log is torn or mixed: {line[:200]} .. {line[-100:]}"]
    return []


def twice(lines):
    """What is wrong where the log has a request more than once."""
    requests = [json.loads(line)["request"] for line in lines if not line.startswith(LEFT_OUT)]
    return differs("requests in the log, each once", len(set(requests)), len(requests))


def wrong_with(program, server, told, load, lines):
    """What is wrong with the replies, with the lines of a log, and by an audit of them."""
    wrong = judged(told, [(load.lines, load.replies)]) + differs("replies", len(load.replies), len(load.lines)) + mixed(lines)
    if wrong:
        return wrong
    return twice(lines) + not_right("audit", audit(program, server.kept.journal, lines))


def left_out_as_counted(load, lines, missed):
    """What is wrong with how many lines were left out, by the log and by the server's count."""
    counts = count_lines(lines)
    print(f"    {len(load.lines)} answered, {counts.answers} lines, {missed} left out", flush=True)
    wrong = differs("lines left out by the log", counts.left_out, missed) + differs("lines and lines left out", counts.both(), len(load.lines))
    return wrong + ([] if missed else ["none was left out"])


def read(*paths):
    """The lines of files."""
    lines = []
    for path in paths:
        with open(path, "rb") as file:
            lines += file.readlines()
    return lines


def small_disk(stack, folder):
    """A folder with little room; None where none can be mounted."""
    disk = f"{folder}/disk"
    os.mkdir(disk)
    words = ["mount", "-t", "tmpfs", "-o", f"size={DISK}", "tmpfs", disk]
    if os.geteuid() != 0 or subprocess.run(words, capture_output=True).returncode:
        print("    left out: no small disk can be mounted; it takes root", flush=True)
        return None
    stack.callback(subprocess.run, ["umount", "--lazy", disk], check=True)
    return disk


def full_disk(program, is_long):
    """a log on a full disk: answers go on, what is left out is counted and said once there is room, and no line is torn"""
    with tempfile.TemporaryDirectory() as folder, contextlib.ExitStack() as stack:
        disk = small_disk(stack, folder)
        if disk is None:
            return []
        log, first = f"{disk}/answers.log", f"{folder}/answers.log.1"
        with logged(program, folder, log) as (server, told):
            load = Load(server)
            while server.figure(MISSED) < 5 * BATCH and len(load.lines) < MOST_LINES:
                load.ask()
            server.settle(len(load.lines))
            shutil.copy(log, first)
            os.truncate(log, 0)
            load.ask()
            missed = server.settle(len(load.lines))
            wrong, lines = load.end(), read(first, log)
            return wrong + left_out_as_counted(load, lines, missed) + wrong_with(program, server, told, load, lines)


class Reader(threading.Thread):
    """Reads a pipe into a list of lines until nobody has it open."""

    def __init__(self, path):
        super().__init__(daemon=True)
        self.file, self.lines = open(path, "rb"), []
        self.start()

    def run(self):
        with self.file:
            self.lines += self.file


def fill(load):
    """Asks so that all the room between the answers and a pipe that nobody reads is full."""
    for draw, count in ((long_asked, 1), (asked, MOST_BATCHES + WORKERS), (long_asked, MOST_KEPT // LONG_LINE + 1), (asked, 1)):
        load.draw = draw
        for _ in range(count):
            load.ask(1)


def unread_pipe(program, is_long):
    """a log on a pipe that nobody reads: answers go on, what is left out is counted, and said once somebody reads"""
    with tempfile.TemporaryDirectory() as folder:
        log = f"{folder}/answers.log"
        os.mkfifo(log)
        with logged(program, folder, log) as (server, told):
            load = Load(server)
            fill(load)
            while server.figure(MISSED) < 5 and len(load.lines) < MOST_LINES:
                load.ask(1)
            reader = Reader(log)
            load.ask()
            missed = server.settle(len(load.lines))
            wrong = load.end()
            server.stop()
            reader.join(PATIENCE)
            return wrong + left_out_as_counted(load, reader.lines, missed) + wrong_with(program, server, told, load, reader.lines)


def by_copy(log, number):
    """Copies a log, and cuts it, as logrotate's copytruncate does."""
    shutil.copy(log, f"{log}.{number}")
    os.truncate(log, 0)


def by_rename(log, number):
    """Renames a log, where there is one: the server makes it anew within a second."""
    if os.path.exists(log):
        os.rename(log, f"{log}.{number}")


def rotated(program, rotate):
    """What is wrong with a log that is rotated while a client asks; what is wrong, the lines, and how many were answered."""
    with tempfile.TemporaryDirectory() as folder:
        log = f"{folder}/answers.log"
        with logged(program, folder, log) as (server, told):
            load = Load(server)
            load.ask()
            load.start()
            for number in range(ROTATIONS):
                time.sleep(BETWEEN)
                rotate(log, number)
            time.sleep(BETWEEN)
            wrong = load.end()
            missed = server.settle(len(load.lines))
            lines = read(*(path for path in [*(f"{log}.{number}" for number in range(ROTATIONS)), log] if os.path.exists(path)))
            print(f"    {len(load.lines)} answered, {len(lines)} lines in {ROTATIONS + 1} files", flush=True)
            wrong += differs("lines left out", missed, 0) + wrong_with(program, server, told, load, lines)
            return wrong, lines, len(load.lines)


def copied_and_cut(program, is_long):
    """a log that is rotated by copytruncate while a client asks: no line is torn or there twice"""
    wrong, lines, answered = rotated(program, by_copy)
    return wrong + ([] if BATCH < len(lines) <= answered else [f"{len(lines)} lines of {answered}"])


def renamed(program, is_long):
    """a log that is rotated by renaming it while a client asks: each answer is there once"""
    wrong, lines, answered = rotated(program, by_rename)
    return wrong + differs("lines", len(lines), answered)


def killed_while_it_writes(program, is_long):
    """a server that is killed again and again while it writes long lines: each line of its log is whole"""
    with tempfile.TemporaryDirectory() as folder:
        log, loads = f"{folder}/answers.log", []
        for number in range(KILLS):
            with logged(program, folder, log) as (server, _):
                load = Load(server, first=number * MOST_LINES, draw=long_asked, batch=1)
                loads.append(load)
                load.start()
                size = os.path.getsize(log)
                end = time.monotonic() + PATIENCE
                while os.path.getsize(log) == size and time.monotonic() < end:
                    time.sleep(0.0001)
                server.stop()
                load.join(PATIENCE)
        # (what the last one has not ended is cut off by the next one)
        with logged(program, folder, log):
            pass
        lines = read(log)
        print(f"    {len(lines)} lines of {sum(len(load.lines) for load in loads)} answered, {KILLS} kills", flush=True)
        return mixed(lines) or not_right("audit", audit(program, server.kept.journal, lines))


def long_lines(program, is_long):
    """requests as long as a line may be: they are logged, and audited"""
    with tempfile.TemporaryDirectory() as folder, logged(program, folder, f"{folder}/answers.log") as (server, told):
        front, end = asked(0)[:-1] + b', "x": "', b'"}'
        longest = front + b"x" * ((1 << 20) - len(front) - len(end)) + end
        quoted = front + b'\\"' * ((1 << 18) - len(front)) + end
        load = Load(server, draw=lambda number: [LIST, quoted, longest][number])
        load.ask(3)
        server.settle(3)
        wrong, lines = load.end(), read(server.kept.log)
        return wrong + differs("lines", len(lines), 3) + wrong_with(program, server, told, load, lines)


CHECKS = [full_disk, unread_pipe, copied_and_cut, renamed, killed_while_it_writes, long_lines]
