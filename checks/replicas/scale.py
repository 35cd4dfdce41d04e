"""Figures: how fast commits reach followers, how soon a new server has the log, and how many questions four servers answer beside one."""
import os
import socket
import statistics
import subprocess
import tempfile
import time
from concurrent.futures import ThreadPoolExecutor
from typing import NamedTuple

from database import Unable
from fleet import DATABASE, FEED, FOLLOWER, PUBLISHER, Balancer, Log, http_get, members_of
from history import History, questions
from measuring import compiled
from processes import TOP
from publisher import COMMIT
from sides import write_pairs

FOLLOWERS, COMMITS, SINGLES = (3, 20), 1_000, 20
# How many commits a new server lacks, and how often a flush is tried.
LACKS, FLUSHES = 10_000, 200
# Connections, lines at a time on each, threads and seconds of the load; servers beside one; and how often each is asked.
LOAD, SERVERS, ROUNDS = ["64", "16", "2", "4"], 4, 3
EDITS = 40
PATIENCE = 240.0


class Figures(NamedTuple):
    """Seconds until one commit is everywhere; commits a second published, and everywhere; bytes of its lines, and to a standby."""

    wait: float
    published: float
    arrived: float
    size: int
    sent: float


def await_edition(member, edition):
    """Waits until a server has an edition."""
    end = time.monotonic() + PATIENCE
    while (member.standing() or (0,))[0] < edition:
        if time.monotonic() > end:
            raise Unable(f"edition {edition} did not come to {member.name} in {PATIENCE:g} seconds")


def await_all(members, edition):
    """Waits until each server has an edition; all are asked at once, since each takes a while to say."""
    with ThreadPoolExecutor(len(members)) as pool:
        list(pool.map(lambda one: await_edition(one, edition), members))


def start_publisher(log, program, folder):
    """A publisher of each commit as it comes."""
    words = [FEED, "publish", "--log", log.url(PUBLISHER), "--lostd", program, "--state", f"{folder}/state", "--each", "-"]
    return subprocess.Popen(words, stdin=subprocess.PIPE, stdout=subprocess.PIPE)


def publish_one(publisher, lines):
    """Publishes a commit; the edition that it makes."""
    publisher.stdin.write(lines)
    publisher.stdin.flush()
    return int(publisher.stdout.readline().split()[6].rstrip(b","))


def commit_lines(history):
    """The lines of a commit of one edit."""
    return history.edit().encode() + b"\n" + COMMIT + b"\n"


def measure_commits(program, folder, count):
    """Publishes commits one by one, and many as fast as it goes: seconds to the last follower of each, and commits a second."""
    log, members, history, waits = Log(), members_of(program, folder, count), History(1), []
    try:
        log.make()
        for one in members:
            one.start_server()
            one.start_follower(log.url(FOLLOWER))
        publisher = start_publisher(log, program, folder)
        for _ in range(SINGLES):
            begun = time.monotonic()
            await_all(members, publish_one(publisher, commit_lines(history)))
            waits.append(time.monotonic() - begun)
            time.sleep(0.2)
        before, begun, place = SINGLES, time.monotonic(), log.primary.sql("postgres", "SELECT pg_current_wal_lsn()")
        publisher.stdin.write(b"".join(commit_lines(history) for _ in range(COMMITS)))
        publisher.stdin.close()
        last = [line for line in publisher.stdout][-1]
        published = time.monotonic() - begun
        await_all(members, before + COMMITS)
        passed = time.monotonic() - begun
        publisher.wait()
        if b"edition %d," % (before + COMMITS) not in last:
            raise Unable(f"the publisher says {last!r}")
        sent = int(log.primary.sql("postgres", f"SELECT pg_wal_lsn_diff(pg_current_wal_lsn(), '{place}')"))
        size = int(log.primary.sql(DATABASE, "SELECT avg(octet_length(lines))::int FROM feed.commits"))
        return Figures(statistics.median(waits), COMMITS / published, COMMITS / passed, size, sent / COMMITS)
    finally:
        for one in members:
            one.kill()
        log.remove()


def flush_time():
    """Seconds that a flush of a short line takes, as half of many do: a commit takes a journal two of them."""
    times = []
    with tempfile.NamedTemporaryFile(prefix="check-replicas-") as file:
        for _ in range(FLUSHES):
            os.write(file.fileno(), COMMIT)
            begun = time.monotonic()
            os.fdatasync(file.fileno())
            times.append(time.monotonic() - begun)
    return statistics.median(times)


def publish_many(log, program, folder):
    """Publishes the commits that a new server lacks, in one go."""
    history, path = History(1), f"{folder}/commits.jsonl"
    with open(path, "wb") as file:
        file.write(b"".join(commit_lines(history) for _ in range(LACKS)))
    subprocess.run([FEED, "publish", "--log", log.url(PUBLISHER), "--lostd", program, path], check=True, stdout=subprocess.DEVNULL)


def started(member, log, begun):
    """Starts a server and its follower, and waits until it is in rotation; the seconds since it was begun."""
    member.start_server()
    member.start_follower(log.url(FOLLOWER))
    end = begun + PATIENCE
    while http_get(member.host, member.health, "/health")[0] != 200:
        if time.monotonic() > end:
            raise Unable(f"{member.name} did not begin in {PATIENCE:g} seconds")
        time.sleep(0.02)
    return time.monotonic() - begun


def measure_starts(program, folder):
    """Seconds until a new server has the log, which begins with a snapshot, and which begins empty."""
    log, members = Log(), members_of(program, folder, 2)
    try:
        log.make()
        publish_many(log, program, folder)
        begun = time.monotonic()
        with open(members[0].journal, "wb") as file:
            words = [FEED, "snapshot", "--log", log.url(FOLLOWER)]
            subprocess.run(words, check=True, stdout=file, stderr=subprocess.DEVNULL, timeout=PATIENCE)
        return started(members[0], log, begun), started(members[1], log, time.monotonic())
    finally:
        for one in members:
            one.kill()
        log.remove()


def map_file(folder):
    """The path of a file with a map."""
    history, path = History(1), f"{folder}/map.jsonl"
    with open(path, "wb") as file:
        file.write(b"".join(history.edit().encode() + b"\n" for _ in range(EDITS)) + COMMIT + b"\n")
    return path


def rate(loader, pairs, port):
    """Replies a second at a port."""
    ran = subprocess.run([loader, pairs, str(port), *LOAD], capture_output=True, text=True, timeout=PATIENCE)
    if ran.returncode:
        raise Unable(f"the load: {ran.stderr.strip()}")
    return int(ran.stdout) / float(LOAD[-1])


def replies_of(member, lines):
    """What a server replies to lines."""
    with socket.create_connection((member.host, member.queries), timeout=PATIENCE) as peer, peer.makefile("rwb") as file:
        file.write(b"".join(line + b"\n" for line in lines))
        file.flush()
        return [file.readline() for _ in lines]


def measure_questions(program, folder):
    """Questions a second of one server behind HAProxy, and of four."""
    path, members, loader = map_file(folder), members_of(program, folder, SERVERS), compiled(f"{TOP}/checks/redis/load.c", folder)
    balancers, pairs = [], f"{folder}/pairs"
    try:
        for one in members:
            one.start_server("--map", path)
            one.health = one.status
        write_pairs(list(zip((line + b"\n" for line in questions()), replies_of(members[0], questions()))), pairs)
        for count in (1, SERVERS):
            balancers.append(Balancer(folder, members[:count]))
            balancers[-1].await_rotation({one.name for one in members[:count]})
        rounds = [[rate(loader, pairs, balancer.front) for balancer in balancers] for _ in range(ROUNDS)]
        return [statistics.median(one) for one in zip(*rounds)]
    finally:
        for balancer in balancers:
            balancer.end()
        for one in members:
            one.kill()


def measure(program):
    """Prints the figures; nothing is wrong with any."""
    print(f"a flush takes {1000 * flush_time():.2f} ms", flush=True)
    for count in FOLLOWERS:
        with tempfile.TemporaryDirectory(prefix="check-replicas-") as folder:
            found = measure_commits(program, folder, count)
        print(f"{count} followers: half of {SINGLES} commits are everywhere within {1000 * found.wait:.0f} ms; {COMMITS:,} commits one after "
              f"another: {found.published:.0f} a second are published, {found.arrived:.0f} a second are everywhere; a commit of "
              f"{found.size} bytes sends {found.sent:.0f} bytes to a standby", flush=True)
    with tempfile.TemporaryDirectory(prefix="check-replicas-") as folder:
        whole, empty = measure_starts(program, folder)
    print(f"a new server has {LACKS:,} commits after {whole:.1f} s from a snapshot, and after {empty:.1f} s line by line", flush=True)
    with tempfile.TemporaryDirectory(prefix="check-replicas-") as folder:
        one, four = measure_questions(program, folder)
    connections, depth = LOAD[:2]
    print(f"behind HAProxy, {connections} connections, {depth} lines at a time: one server {one:,.0f} replies a second, "
          f"{SERVERS} servers {four:,.0f}, {four / one:.2f} times as many", flush=True)
    return []
