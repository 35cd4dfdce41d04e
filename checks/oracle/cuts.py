"""Sessions that the program reads in two pieces, cut at every byte: the replies are the same wherever the input is cut."""
import fcntl
import multiprocessing
import os
import struct
import subprocess
import termios
import time

from comparing import PROGRAM, TOP, oracle_replies
from sessions import Session

NAME, NOW = "lost.example", "2026-01-01T00:00:00Z"
SEEDS, MOST_BYTES = 20, 12_000
PATIENCE = 20.0


def is_read(pipe):
    """Whether nothing is left in a pipe that its reader has not taken."""
    return struct.unpack("i", fcntl.ioctl(pipe, termios.FIONREAD, struct.pack("i", 0)))[0] == 0


def in_two_pieces(given, cut, name, now):
    """The output of the program, which gets the second piece only once it has read the first."""
    words = [PROGRAM, "replay", "--name", name, "--now", now]
    ran = subprocess.Popen(words, stdin=subprocess.PIPE, stdout=subprocess.PIPE, stderr=subprocess.PIPE, bufsize=0)
    ran.stdin.write(given[:cut])
    deadline = time.monotonic() + PATIENCE
    while not is_read(ran.stdin) and time.monotonic() < deadline:
        time.sleep(0)
    output, errors = ran.communicate(given[cut:])
    return output + errors


def wrong_cuts(session):
    """Of a session: its title, how many cuts were tried, and at which the replies are others."""
    title, given, name, now, wanted = session
    cuts = range(1, len(given))
    return title, len(cuts), [cut for cut in cuts if in_two_pieces(given, cut, name, now) != wanted]


def of_examples():
    """The sessions of examples/, with the replies that stand beside them."""
    for file in sorted(os.listdir(f"{TOP}/examples")):
        title, ending = os.path.splitext(file)
        if ending == ".jsonl":
            with open(f"{TOP}/examples/{file}", "rb") as lines, open(f"{TOP}/examples/{title}.expected", "rb") as replies:
                yield title, lines.read(), NAME, NOW, replies.read()


def of_seeds(seeds):
    """The sessions of seeds, with the oracle's replies; those that name a member twice are left out."""
    for seed in seeds:
        session = Session(seed)
        replies = oracle_replies(session.given, session.name, session.now)
        if replies is not None:
            yield f"seed {seed}", session.given, session.name, session.now, b"".join(replies)


def compare_cuts(first):
    """Compares sessions of examples/ and of seeds, the short ones, at every cut; how many are the same, and how many not."""
    sessions = [*of_examples(), *of_seeds(range(first, first + SEEDS))]
    short = [session for session in sessions if len(session[1]) <= MOST_BYTES]
    passed = tried = 0
    with multiprocessing.Pool(os.cpu_count()) as pool:
        for title, cuts, wrong in pool.imap(wrong_cuts, short):
            tried += cuts
            passed += not wrong
            if wrong:
                print(f"{title}: WRONG where it is cut behind byte {wrong[0]}, and at {len(wrong) - 1} other places")
    print(f"{len(short)} sessions of at most {MOST_BYTES} bytes were cut in two at {tried} places")
    return passed, len(short) - passed
