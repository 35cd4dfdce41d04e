"""Clients that do a server no good, at one without --connections; each check gives what was wrong, an empty list where
nothing was. Throughout each a normal client is answered within a second."""
import contextlib
import os
import socket
import threading
import time

from crowds import Normal, Slow, close_all, connected, crowd, end_time, ended_among, raise_files, reset
from plain_lines import LIST, differs, publish, services_reply
from server import BAD_LINE, COMMIT, Ended, Standing

WORKERS = 4
MANY = 5_000
RESETS = 500
GREEDY = 50
EMPTY = services_reply(0)
# What a normal client may have open itself, at the moment at which the server is asked.
FEW = 4


@contextlib.contextmanager
def crowded(program, *more, errors=None):
    """A server that a normal client asks; what was wrong with that client stands in the list at the end."""
    raise_files(3 * MANY)
    wrong = []
    with Standing(program, WORKERS, *more, errors=errors) as server:
        normal = Normal(server.queries, EMPTY)
        normal.start()
        try:
            yield server, wrong
        finally:
            wrong += normal.end()


def between(what, passed, least, most):
    """What is wrong where something did not come to pass in its time."""
    if passed is None:
        return [f"{what}: not within {most} s"]
    return [] if least <= passed <= most else [f"{what}: after {passed:.1f} s, and not {least} to {most}"]


def all_closed(server):
    """What is wrong where the status still tells of connections after two seconds."""
    end = time.monotonic() + 2
    while (count := server.status()["connections"]["open"]) > FEW and time.monotonic() < end:
        time.sleep(0.1)
    return [] if count <= FEW else [f"{count} connections are still open"]


def said_of(server, cause):
    """How many lines say of a query connection that it was ended for a cause."""
    return sum(1 for line in server.said() if line.split(" (")[0].endswith(f": {cause}"))


def all_at_once(program, is_long):
    """as many clients as workers and 5,000 more that send a space every two seconds, 5,000 silent ones, 500 resets, and 50 that never read"""
    with crowded(program) as (server, wrong):
        silent, slow = crowd(server.queries, MANY), crowd(server.queries, WORKERS + MANY)
        begun = time.monotonic()
        sender = Slow(slow)
        sender.start()
        wrong += reset_many(server)
        greedy = [connected(server.queries) for _ in range(GREEDY)]
        for one in greedy:
            flood(one)
        time.sleep(max(0, begun + 6 - time.monotonic()))
        wrong += differs("slow ones ended before their time", ended_among(slow), 0)
        time.sleep(10)
        sender.stop()
        wrong += differs("slow ones ended", ended_among(slow), len(slow))
        wrong += differs("silent ones ended", ended_among(silent), 0)
        wrong += [] if 10 <= said_of(server, "it did not finish a line in time") <= 200 else ["it is not said of slow ones"]
        time.sleep(max(0, begun + 40 - time.monotonic()))
        wrong += differs("greedy ones ended", sum(has_ended(one) for one in greedy), GREEDY)
        close_all(silent + slow + greedy)
        wrong += all_closed(server)
    return wrong


def reset_many(server):
    """Connections that are reset, with nothing, a line, half a line or many lines on their way."""
    for number in range(RESETS):
        one = connected(server.queries)
        one.sendall([b"", LIST + b"\n", LIST[:7], (LIST + b"\n") * 500][number % 4])
        reset(one)
    return []


def flood(one):
    """Sends lines over a connection for as long as they are taken at once."""
    one.setblocking(False)
    with contextlib.suppress(BlockingIOError):
        for _ in range(20_000):
            one.send((LIST + b"\n") * 100)


def has_ended(one):
    """Whether the server has ended a connection of which nothing was read."""
    try:
        one.setblocking(False)
        one.send(LIST + b"\n")
        time.sleep(0.02)
        one.send(LIST + b"\n")
    except BlockingIOError:
        return False
    except OSError:
        return True
    return False


def idle(program, is_long):
    """5,000 silent clients with --idle 20: they stay, and then all are ended"""
    with crowded(program, "--idle", "20") as (server, wrong):
        begun = time.monotonic()
        silent = crowd(server.queries, MANY)
        opened = time.monotonic()
        time.sleep(max(0, begun + 15 - opened))
        wrong += differs("ended before their time", ended_among(silent), 0)
        wrong += [] if server.status()["connections"]["open"] >= MANY else ["some are not open"]
        time.sleep(max(0, opened + 24 - time.monotonic()))
        wrong += differs("ended", ended_among(silent), MANY)
        close_all(silent)
        wrong += all_closed(server)
    return wrong


def nobody_reads_errors(program, is_long):
    """500 resets, and standard error is a full pipe that nobody reads"""
    read, write = os.pipe()
    os.set_blocking(write, False)
    with contextlib.suppress(BlockingIOError):
        while True:
            os.write(write, b"." * 4096)
    os.set_blocking(write, True)
    try:
        with crowded(program, errors=write) as (server, wrong):
            wrong += reset_many(server)
            time.sleep(2)
            wrong += reset_many(server) + all_closed(server)
            wrong += [] if server.status()["faults"] >= RESETS // 4 else ["too few faults are counted"]
    finally:
        os.close(read)
        os.close(write)
    return wrong


def line_time(program, is_long):
    """--line-time 2: half a line is ended in time, whole lines are not, and neither is a client that is slow between lines"""
    with crowded(program, "--line-time", "2") as (server, wrong):
        with connected(server.queries) as half, connected(server.queries) as whole, connected(server.queries) as parts:
            half.sendall(LIST[:7])
            for _ in range(5):
                whole.sendall(LIST + b"\n")
                parts.sendall(LIST[:7])
                time.sleep(1)
                parts.sendall(LIST[7:] + b"\n")
            wrong += between("half a line", end_time(half, 1), 0, 1)
            for one, name in [(whole, "whole lines"), (parts, "lines in two parts")]:
                one.shutdown(socket.SHUT_WR)
                wrong += differs(name, read_all(one), (EMPTY + b"\n") * 5)
        wrong += differs("lines said", said_of(server, "it did not finish a line in time"), 1)
    return wrong


def read_all(one):
    """What comes over a connection until it is ended."""
    one.settimeout(10)
    text = b""
    while piece := one.recv(1 << 16):
        text += piece
    return text


def reply_time(program, is_long):
    """--reply-time 3: who takes no reply is ended in time, and who takes them slowly gets them all"""
    with crowded(program, "--reply-time", "3") as (server, wrong):
        greedy, slow = connected(server.queries), connected(server.queries)
        flood(greedy)
        begun, ended = time.monotonic(), None
        slow.setsockopt(socket.SOL_SOCKET, socket.SO_RCVBUF, 65_536)
        count, sender = 50_000, threading.Thread(target=slow.sendall, args=((LIST + b"\n") * 50_000,))
        sender.start()
        got = 0
        slow.settimeout(10)
        while got < count * (len(EMPTY) + 1):
            piece = slow.recv(1 << 18)
            if not piece:
                wrong.append("who takes replies slowly was ended")
                break
            got += len(piece)
            if time.monotonic() - begun < 8:
                time.sleep(1)
            if ended is None and has_ended(greedy):
                ended = time.monotonic() - begun
        wrong += between("who takes none", ended, 2.5, 8)
        sender.join()
        wrong += differs("lines said", said_of(server, "it took no reply for too long"), 1)
        close_all([greedy, slow])
    return wrong


def most_connections(program, is_long):
    """--most-connections 20: the next is closed at once and counted, and once one has ended there is room for another"""
    with Standing(program, WORKERS, "--most-connections", "20") as server:
        kept = crowd(server.queries, 20)
        wrong = differs("ended of the first 20", ended_among(kept), 0)
        late = [connected(server.queries) for _ in range(5)]
        for one in late:
            wrong += between("one too many", end_time(one, 2), 0, 1)
        kept.pop().close()
        time.sleep(0.5)
        with connected(server.queries) as again:
            again.sendall(LIST + b"\n")
            wrong += differs("the reply to one that has room", again.recv(1 << 16), EMPTY + b"\n")
        counted = server.status()["connections"]
        wrong += differs("refused", counted["refused"], 5) + differs("accepted", counted["accepted"], 21)
        wrong += differs("lines said", said_of(server, "refused: too many connections are open"), 5)
        close_all(kept + late)
    return wrong


def per_address(program, is_long):
    """--per-address 10: the next of that address is closed at once, and others are served"""
    with Standing(program, WORKERS, "--per-address", "10") as server:
        kept = [connected(server.queries, "127.0.0.7") for _ in range(10)]
        wrong = between("one too many", end_time(connected(server.queries, "127.0.0.7"), 2), 0, 1)
        others = [connected(server.queries, "127.0.0.8") for _ in range(10)]
        for one in kept + others:
            one.sendall(LIST + b"\n")
            wrong += differs("a reply", one.recv(1 << 16), EMPTY + b"\n")
        kept.pop().close()
        time.sleep(0.5)
        with connected(server.queries, "127.0.0.7") as again:
            again.sendall(LIST + b"\n")
            wrong += differs("the reply to one that has room", again.recv(1 << 16), EMPTY + b"\n")
        wrong += differs("refused", server.status()["connections"]["refused"], 1)
        wrong += differs("lines said", said_of(server, "refused: too many connections from its address are open"), 1)
        close_all(kept + others)
    return wrong


def strangers_at_the_desk(program, is_long):
    """Other requests of HTTP than for the map, and TLS, at the desk's port are ended at once and said, and then a desk is served"""
    with crowded(program) as (server, wrong):
        fronts = [b"GET / HTTP/1.1\r\n\r\n", b"POST /x HTTP/1.1\r\n", b"OPTIONS *", b"\x16\x03\x01\x02\x00\x01\x00", b"CONN", b"\x16"]
        rests = [b"", b"\r\n", b" HTTP/1.1\r\n\r\n", b"", b"ECT lost.example:443 HTTP/1.1\r\n\r\n", b"\x03\x01"]
        for front, rest in zip(fronts, rests):
            stranger = connected(server.desk_port)
            stranger.sendall(front)
            time.sleep(0.2)
            with contextlib.suppress(OSError):
                stranger.sendall(rest)
            wrong += between(repr(front), end_time(stranger, 5), 0, 1.5)
        desk = server.desk()
        wrong += differs("what is no desk line", desk.ask(b"GET"), BAD_LINE)
        wrong += differs("a desk", desk.ask_all([publish(1), COMMIT])[1][:12], b'{"committed"')
        desk.end()
        said = server.said()
        wrong += differs("lines of HTTP", sum(line.endswith("it asked over HTTP for something else than GET /map") for line in said), 4)
        wrong += differs("lines of TLS", sum(line.endswith("it speaks TLS, not desk lines") for line in said), 2)
        # The normal client was answered from a list that is not empty once the desk had committed.
    return [text for text in wrong if "a normal client was told" not in text]


def turns_of_desks(program, is_long):
    """a desk that is silent from its start gives its turn to the next after 10 seconds, and so does one that falls silent once another waits"""
    with Standing(program, WORKERS) as server:
        begun = time.monotonic()
        silent, waiting = connected(server.desk_port), server.desk()
        waiting.put(publish(1) + b"\n")
        wrong = differs("the next desk", waiting.take(1, 20), [b'{"staged":{"pending":1}}'])
        wrong += between("its turn", time.monotonic() - begun, 9, 13)
        silent.close()
        try:
            wrong.append(f"a desk alone that falls silent was told {waiting.take(1, 12)}")
        except Ended as ended:
            wrong += [] if "nothing came" in str(ended) else [f"a desk alone that falls silent: {ended}"]
        begun = time.monotonic()
        third = server.desk()
        third.put(COMMIT + b"\n")
        wrong += differs("the third desk", third.take(1, 20), [b'{"committed":{"edition":0}}'])
        wrong += between("its turn", time.monotonic() - begun, 0, 3)
        third.end()
    return wrong


CHECKS = [
    most_connections, per_address, line_time, reply_time, strangers_at_the_desk, turns_of_desks, nobody_reads_errors, idle,
    all_at_once,
]
