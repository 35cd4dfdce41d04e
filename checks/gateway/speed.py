"""How fast the gateway is, as ratios in one run: against the same HTTP server with a fixed body, and by processes.

Clients of several processes ask over connections that they keep; what is compared is asked in turns, and of each the
middle of several rounds counts.
"""
import multiprocessing
import os
import random
import select
import socket
import statistics
import time

import calls
from processes import Gateway
from server import Server

HERE = os.path.dirname(os.path.realpath(__file__))
FIXED = f"{HERE}/fixed-server"
SECONDS, ROUNDS, CLIENTS, CONNECTIONS, MANY = 0.5, 20, 2, 32, 200
LEAST_RATIO, MOST_LATE = 0.7, 1.5
REQUEST = """<?xml version="1.0" encoding="UTF-8"?>
<findService xmlns="urn:ietf:params:xml:ns:lost1" serviceBoundary="reference" recursive="true">
<location id="0x{:014X}" profile="geodetic-2d">
<gml:Point xmlns:gml="http://www.opengis.net/gml" srsName="urn:ogc:def:crs:EPSG::4326"><gml:pos>{:.6f} {:.6f}</gml:pos></gml:Point>
</location><service>urn:service:sos.police</service></findService>"""
HEAD = "POST /lost HTTP/1.1\r\nHost: lost.example\r\nContent-Type: application/lost+xml\r\nContent-Length: {}\r\n\r\n"


def posted(dice):
    """A request as Kamailio writes it, with a name and a place of its own."""
    body = REQUEST.format(dice.getrandbits(56), 1 + 8 * dice.random(), 1 + 8 * dice.random())
    return (HEAD.format(len(body)) + body).encode()


DICE = random.Random(7)
POSTED = [posted(DICE) for _ in range(5000)]
END = b"</findServiceResponse>"
FORK = multiprocessing.get_context("fork")


def take_turn(connection, begun, told):
    """Takes what came on a connection; where the response is whole, asks again."""
    name = connection.fileno()
    told[name] += connection.recv(65_536)
    if not told[name].endswith(END):
        return None
    seconds = time.perf_counter() - begun[name]
    told[name], begun[name] = b"", time.perf_counter()
    connection.sendall(random.choice(POSTED))
    return seconds


def be_client(port, connections, seconds, line):
    """Asks over connections that it keeps, one question at a time on each; tells how long each answer took."""
    opened = {}
    for _ in range(connections):
        one = socket.create_connection(("127.0.0.1", port))
        opened[one.fileno()] = one
    poll = select.epoll()
    begun, told, took = {}, {name: b"" for name in opened}, []
    for name, one in opened.items():
        poll.register(name, select.EPOLLIN)
        begun[name] = time.perf_counter()
        one.sendall(random.choice(POSTED))
    end = time.perf_counter() + seconds
    while time.perf_counter() < end:
        for name, _ in poll.poll(1):
            passed = take_turn(opened[name], begun, told)
            if passed is not None:
                took.append(passed)
    for one in opened.values():
        one.close()
    line.send(took)


def measured(port, clients=CLIENTS, connections=CONNECTIONS):
    """Answers a second, and the seconds of each."""
    lines, started = [], []
    for _ in range(clients):
        line, other = FORK.Pipe(duplex=False)
        process = FORK.Process(target=be_client, args=(port, connections // clients, SECONDS, other), daemon=True)
        process.start()
        lines.append(line)
        started.append(process)
    took = [seconds for line in lines for seconds in line.recv()]
    for process in started:
        process.join()
    return len(took) / SECONDS, took


def hundredth(took):
    """The 99th percentile, in milliseconds."""
    return 1000 * sorted(took)[len(took) * 99 // 100]


def compare(ports, rounds=ROUNDS, connections=CONNECTIONS):
    """By name: the answers a second, and the 99th percentile, of each round; those of one round are taken in turn."""
    told = {name: [] for name in ports}
    for _ in range(rounds):
        for name, port in ports.items():
            rate, took = measured(port, connections=connections)
            told[name].append((rate, hundredth(took)))
    return told


def middle(rounds, other=None, part=0):
    """The middle of the rates of rounds (or of the percentiles), or of their ratios to those of other rounds."""
    if other is None:
        return statistics.median(one[part] for one in rounds)
    return statistics.median(one[part] / fixed[part] for one, fixed in zip(rounds, other))


def speed(program):
    """one process gives 0.7 of the answers a second of a fixed body, and 99 of a hundred answers take at most 1.5 times as long"""
    with Server(program, 16, 1000) as server:
        server.desk().ask_all(calls.MAP)
        one, four = Gateway([server.queries]), Gateway([server.queries], "--processes", "4")
        fixed, fixed_four = Gateway([server.queries], program=FIXED), Gateway([server.queries], "--processes", "4", program=FIXED)
        with one, four, fixed, fixed_four:
            told = compare({"fixed": fixed.port, "one": one.port, "fixed four": fixed_four.port, "four": four.port})
            many = compare({"fixed": fixed.port, "one": one.port}, connections=MANY)
    ratio, late = middle(told["one"], told["fixed"]), middle(many["one"], many["fixed"], 1)
    print(f"one process: {ratio:.2f} of the answers a second of a fixed body ({middle(told['one']):.0f} and {middle(told['fixed']):.0f})")
    print(f"four processes: {middle(told['four'], told['fixed four']):.2f} of those of four with a fixed body")
    print(f"four processes: {middle(told['four'], told['one']):.1f} times one")
    for name in ("fixed", "one", "four"):
        print(f"99 of a hundred answers within {middle(told[name], part=1):.1f} ms: {name}, {CONNECTIONS} connections")
    for name in ("fixed", "one"):
        print(f"99 of a hundred answers within {middle(many[name], part=1):.1f} ms: {name}, {MANY} connections")
    print(f"{MANY} connections: {late:.2f} times as long as with a fixed body, {middle(many['one'], many['fixed']):.2f} of its answers a second")
    wrong = [] if ratio >= LEAST_RATIO else [f"one process answers {ratio:.2f} of a fixed body, and not {LEAST_RATIO}"]
    return wrong + ([] if late <= MOST_LATE else [f"99 of a hundred answers take {late:.2f} times as long, and not {MOST_LATE}"])
