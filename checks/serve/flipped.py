"""Each byte of a journal is changed in turn: it is refused, or its last commit is dropped, or nothing changes."""
import contextlib
import http.client
import multiprocessing
import re
import signal
import socket
import subprocess
import tempfile
import time
from collections import Counter
from typing import NamedTuple

from kept import DeskTalk, begin
from ledger import Ledger
from plain_lines import publish
from server import COMMIT, NAME, PATIENCE
from spelling import Dice
from verdicts import Differences

COMMITS = 30
REFUSED, DROPPED, SAME = "were refused", "dropped the last commit", "changed nothing"
DONE = re.compile(r"done lines=[0-9]+ edition=([0-9]+) mappings=[0-9]+ map=([0-9a-f]{32}) dropped=[0-9]+\n")
HEALTH = re.compile(r"ready\nedition ([0-9]+)\nmap ([0-9a-f]{32})\n")
DAMAGE = re.compile(r"lostd: [^\n]*: line [0-9]+, offset [0-9]+: [^\n]+\n")
DAMAGED = 3


class Journal(NamedTuple):
    """A journal's bytes, where its last commit begins with the gate before it, and its last two editions with their digests."""

    text: bytes
    last: int
    before: tuple
    whole: tuple


class Flip(NamedTuple):
    """A byte that takes the place of another one."""

    place: int
    byte: int


class Read(NamedTuple):
    """How a program read a journal: its status, what it said, and the edition with its digest, where it gave one."""

    status: int
    said: str
    found: tuple


def written(program):
    """A journal of some commits, as a server writes it."""
    ledger, found = Ledger(), []
    with tempfile.TemporaryDirectory() as folder, begin(program, f"{folder}/lost.journal") as server:
        talk = DeskTalk(0)
        talk.connect(server)
        for number in range(COMMITS):
            for line in (publish(number), COMMIT):
                ledger.take(line, talk.ask([line])[0])
            found.append((ledger.books.last(), ledger.digest()))
        talk.end()
        with open(f"{folder}/lost.journal", "rb") as file:
            text = file.read()
    return Journal(text, text.rindex(b"\t\n"), *found[-2:])


def flips(journal, seed, every):
    """A bit that is flipped and a byte that is another one, of each byte, or of each so many; and all bytes as each gate."""
    dice, text = Dice(seed), journal.text
    for place in range(0, len(text), every):
        yield Flip(place, text[place] ^ 1 << dice.randrange(8))
        yield Flip(place, (text[place] + dice.randrange(1, 256)) % 256)
    for gate in [found.start() for found in re.finditer(rb"[\t ]\n", text)][::every]:
        yield from (Flip(gate, byte) for byte in range(256) if byte != text[gate])


def by_check(program, path):
    """Reads a journal by `lostd check --journal`."""
    ran = subprocess.run([program, "check", "--journal", path], capture_output=True, text=True, timeout=PATIENCE)
    done = DONE.fullmatch(ran.stdout)
    return Read(ran.returncode, ran.stderr, (int(done[1]), done[2]) if done else ())


def by_serve(program, path):
    """Reads a journal by a server's start."""
    with tempfile.TemporaryDirectory() as folder:
        words = [f"--{name}=unix:{folder}/{name}" for name in ("queries", "status")]
        command = [program, "serve", "--name", NAME, "--workers", "1", "--journal", path, *words]
        with subprocess.Popen(command, stdout=subprocess.PIPE, stderr=subprocess.PIPE, text=True) as process:
            health = None
            try:
                if process.stdout.readline() == "ready\n":
                    health = HEALTH.fullmatch(page(f"{folder}/status"))
                    process.send_signal(signal.SIGKILL)
                said = process.communicate(timeout=PATIENCE)[1]
            finally:
                process.kill()
    return Read(0 if health else process.returncode, said, (int(health[1]), health[2]) if health else ())


def page(path):
    """What a server says of its health at a Unix socket."""
    connection = http.client.HTTPConnection("localhost", timeout=PATIENCE)
    connection.sock = socket.socket(socket.AF_UNIX)
    connection.sock.connect(path)
    with contextlib.closing(connection):
        connection.request("GET", "/health")
        return connection.getresponse().read().decode()


def reader_of(program):
    """`lostd check --journal` where the program has it; else a server's start, which cuts off what it drops."""
    helped = subprocess.run([program, "check", "--help"], capture_output=True, text=True, timeout=PATIENCE)
    return by_check if "--journal" in helped.stdout else by_serve


def judged(journal, flip, read, file, flipped):
    """What came of a flip, and what is wrong with that."""
    is_kept = file == flipped or read.found and read.said and flipped.startswith(file)
    is_damage = read.status == DAMAGED and not read.found and DAMAGE.fullmatch(read.said)
    outcome = {journal.whole: SAME, journal.before: DROPPED}.get(read.found) or (REFUSED if is_damage else "")
    is_right = is_kept and outcome and (outcome != DROPPED or flip.place >= journal.last)
    where = f"byte {flip.place} of {len(journal.text)}, {flip.byte} for {journal.text[flip.place]}"
    return outcome, "" if is_right else f"{where}: {read}, and the file {'stays' if is_kept else 'is another'}"


def be_flipper(program, journal, tasks, told):
    """What a process does: it makes the flips that come, until none does, and tells what came of each."""
    read = reader_of(program)
    with tempfile.TemporaryDirectory() as folder:
        path = f"{folder}/lost.journal"
        for flip in iter(tasks.get, None):
            flipped = journal.text[: flip.place] + bytes([flip.byte]) + journal.text[flip.place + 1 :]
            with open(path, "wb") as file:
                file.write(flipped)
            found = read(program, path)
            with open(path, "rb") as file:
                told.put(judged(journal, flip, found, file.read(), flipped))


def run_flips(program, seed, every, processes):
    """Changes a journal's bytes, and prints what came of it; whether all was as wanted."""
    begun, journal, counts, differences = time.monotonic(), written(program), Counter(), Differences()
    wanted = list(flips(journal, seed, every))
    tasks, told = multiprocessing.SimpleQueue(), multiprocessing.SimpleQueue()
    started = [multiprocessing.Process(target=be_flipper, args=(program, journal, tasks, told), daemon=True) for _ in range(processes)]
    for process in started:
        process.start()
    ahead = iter(wanted)
    for _ in range(2 * processes):
        tasks.put(next(ahead, None))
    for _ in wanted:
        outcome, wrong = told.get()
        counts[outcome] += 1
        if wrong:
            differences.add(wrong)
        tasks.put(next(ahead, None))
    for process in started:
        process.join()
    print(f"{len(wanted)} changed bytes in a journal of {len(journal.text)} bytes and {COMMITS} commits, read by {reader_of(program).__name__[3:]}")
    for outcome in (REFUSED, DROPPED, SAME):
        print(f"{counts[outcome]} {outcome}")
    for difference in differences.first:
        print(f"WRONG: {difference}")
    print(f"{differences.count} differences, in {time.monotonic() - begun:.0f} seconds")
    return differences.count == 0
