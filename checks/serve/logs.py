"""A server that logs its answers, what its log has, and audits of it."""
import json
import re
import subprocess
import tempfile
import threading
import time
import urllib.request
from typing import NamedTuple

from server import NAME, PATIENCE, Ended, Standing

DONE = re.compile(r"done lines=(\d+) differ=(\d+) unjudged=(\d+) internalError=(\d+) leftOut=(\d+) edition=(\d+)")
NAMED = re.compile(r"line (\d+): ")
LEFT_OUT = b'{"leftOut":'
WRITTEN, MISSED = "lostd_log_lines_total", "lostd_log_left_out_total"
SETTLED = 60


class Kept(NamedTuple):
    """The files of a server's journal and of its log."""

    journal: str
    log: str


class Logged(Standing):
    """A server without end that keeps a journal and logs its answers."""

    def __init__(self, program, workers, kept, replies, *more, ports=None):
        self.kept = kept
        words = ["--per-address", "0", "--journal", kept.journal, "--log", kept.log, "--log-replies", replies, *more]
        super().__init__(program, workers, *words, ports=ports)

    def ports(self):
        """Where it listens."""
        return self.queries, self.desk_port, self.status_port

    def figure(self, name):
        """A figure of its metrics."""
        with urllib.request.urlopen(f"http://127.0.0.1:{self.status_port}/metrics", timeout=PATIENCE) as page:
            return int(re.search(rf"^{name} (\d+)$", page.read().decode(), re.MULTILINE)[1])

    def settle(self, count, missed=MISSED):
        """Waits until so many answers were written or left out, or for long; how many were left out."""
        end = time.monotonic() + SETTLED
        while self.figure(WRITTEN) + self.figure(missed) < count and time.monotonic() < end:
            time.sleep(0.05)
        return self.figure(missed)


class Lines(NamedTuple):
    """What some lines of a log are: answers, how many more the log says that it left out, and how many lines say so."""

    answers: int
    left_out: int
    notes: int

    def both(self):
        """The answers, with those that were left out."""
        return self.answers + self.left_out


def count_lines(lines):
    """Counts the lines of a log."""
    answers = left_out = notes = 0
    for line in lines:
        if line.startswith(LEFT_OUT):
            left_out += json.loads(line)["leftOut"]["lines"]
            notes += 1
        else:
            answers += 1
    return Lines(answers, left_out, notes)


def lines_up_to(file, end):
    """The lines of a file from where it is up to an offset."""
    place = file.tell()
    while place < end:
        line = file.readline()
        place += len(line)
        yield line


class Audited(NamedTuple):
    """What an audit found: its status, its counts, the numbers of the lines that it names, and what it says."""

    status: int
    lines: int
    differ: int
    unjudged: int
    internal_errors: int
    left_out: int
    named: list
    told: list
    said: str

    def findings(self):
        """Its status, and how many replies differ and lines are unjudged."""
        return self.status, self.differ, self.unjudged


def feed(pipe, lines):
    """Writes lines to an audit; one that has ended is seen by its status."""
    try:
        with pipe:
            for line in lines:
                pipe.write(line)
    except BrokenPipeError:
        pass


def audit(program, journal, lines):
    """Audits the lines of a log."""
    words = ["lostd", "audit", "--journal", journal, "--name", NAME]
    with tempfile.TemporaryFile() as errors:
        pipes = {"stdin": subprocess.PIPE, "stdout": subprocess.PIPE, "stderr": errors}
        with subprocess.Popen(words, executable=program, bufsize=1 << 20, **pipes) as process:
            writer = threading.Thread(target=feed, args=(process.stdin, lines))
            writer.start()
            told = process.stdout.read().decode(errors="surrogateescape").splitlines()
            writer.join()
        errors.seek(0)
        return audited(process.returncode, told, errors.read().decode())


def audited(status, told, said):
    """What an audit found, by what it printed."""
    done = DONE.fullmatch(told[-1]) if told else None
    counts = [int(number) for number in done.groups()] if done else [0] * 6
    named = [int(found[1]) for found in map(NAMED.match, told) if found]
    return Audited(status, *counts[:5], named, told, said)


def audit_file(program, kept):
    """Audits the log of a server."""
    with open(kept.log, "rb") as lines:
        return audit(program, kept.journal, lines)


def not_right(what, found):
    """What is wrong with an audit that should find nothing."""
    if found.findings() == (0, 0, 0):
        return []
    return [f"{what}: status {found.status}, {found.said.strip() or found.told[:3]}, {found.told[-1:]}"]
