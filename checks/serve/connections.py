"""Connections of all kinds to a running server; each check gives what was wrong, an empty list where nothing was."""
import datetime
import signal
import time

from drawing import long_requests
from plain_lines import LIST, differs, publish, question, services_reply, withdraw
from server import BAD_LINE, BAD_REQUEST, COMMIT, Ended, Server, edition_of

A_WHILE = 0.2
SHORT_IDLE = 2


def ended_by_server(peer, patience):
    """How long it takes until the server ends a connection, and what is wrong where it does not."""
    begun = time.monotonic()
    try:
        peer.rest(patience)
    except Ended as ended:
        if "reset" not in str(ended).lower():
            return time.monotonic() - begun, [f"it was not ended: {ended}"]
    return time.monotonic() - begun, []


def one_line(said, peer, cause):
    """What is wrong with the one line that is said of a query connection."""
    fitting = [line for line in said if f" from 127.0.0.1:{peer.port}: " in line]
    if len(fitting) == 1 and fitting[0].startswith("lostd: query connection ") and fitting[0].endswith(f": {cause}"):
        return []
    return [f"of port {peer.port} it said {fitting} and not: {cause}"]


def half_lines(program, is_long):
    """half a line and then silence on all workers but one, while that one answers, and ever (--idle 0)"""
    wrong = []
    with Server(program, 4, 4, "--idle", "0") as server:
        desk = server.desk()
        silent = [server.connect() for _ in range(3)]
        for peer in silent:
            peer.put(LIST[:7])
        time.sleep(A_WHILE)
        asking = server.connect()
        wrong += differs("staged", desk.ask(publish(1)), b'{"staged":{"pending":1}}')
        wrong += differs("committed", desk.ask(COMMIT), b'{"committed":{"edition":1}}')
        replies = asking.ask_all([LIST] * 1_000)
        wrong += differs("replies", set(replies), {services_reply(1, "sos")})
        time.sleep(3)
        for peer in silent[:2]:
            wrong += differs("the rest of the line", peer.ask(LIST[7:]), services_reply(1, "sos"))
        wrong += differs("half a line that ends", silent[2].end(), BAD_REQUEST + b"\n")
        for peer in [*silent[:2], asking, desk]:
            wrong += differs("more than the replies", peer.end(), b"")
        wrong += server.done(1_003, 0) + differs("said", server.said(), [])
    return wrong


def half_lines_and_idle(program, is_long):
    """half a line and then silence on all workers but one, with --idle 2: they are ended, and others served"""
    wrong = []
    with Server(program, 4, 7, "--idle", str(SHORT_IDLE)) as server:
        desk = server.desk()
        silent = [server.connect() for _ in range(3)]
        for peer in silent:
            peer.put(LIST[:7])
        time.sleep(A_WHILE)
        asking = [server.connect() for _ in range(4)]
        begun = time.monotonic()
        while time.monotonic() - begun < 1.5 * SHORT_IDLE:
            for peer in asking:
                wrong += differs("reply", peer.ask(LIST), services_reply(0))
            time.sleep(0.1)
        for peer in silent:
            wrong += ended_by_server(peer, 1)[1]
        for peer in asking:
            peer.end()
        desk.end()
        status, output = server.finish()
        wrong += differs("status", status, 0)
        wrong += [] if output.endswith(b" faults=3\n") else [f"it printed {output}"]
        for peer in silent:
            wrong += one_line(server.said(), peer, "it sent nothing for too long")
    return wrong


def idle_peers(program, is_long):
    """with --idle 2, a silent peer and one that takes no replies are ended, said and counted"""
    with Server(program, 2, 2, "--idle", str(SHORT_IDLE)) as server:
        desk = server.desk()
        silent, greedy = server.connect(), server.connect()
        greedy.put((LIST + b"\n") * 600_000)
        passed, wrong = ended_by_server(silent, SHORT_IDLE + 3)
        wrong += [] if SHORT_IDLE - 0.2 < passed < SHORT_IDLE + 2 else [f"the silent one was ended after {passed:.1f} s"]
        begun = time.monotonic()
        while len(server.said()) < 2 and time.monotonic() - begun < 10:
            time.sleep(0.1)
        wrong += one_line(server.said(), silent, "it sent nothing for too long")
        wrong += one_line(server.said(), greedy, "it took no reply for too long")
        wrong += differs("the desk after a silence", desk.ask(COMMIT), b'{"committed":{"edition":0}}')
        desk.end()
        greedy.socket.close()
        return wrong + server.done(0, 2)


def never_reads(program, is_long):
    """a client that never reads, while others are answered, and ever (--idle 0)"""
    wrong = []
    with Server(program, 2, 3, "--idle", "0") as server:
        desk = server.desk()
        greedy = server.connect()
        greedy.put((LIST + b"\n") * 600_000)
        wrong += [] if greedy.to_send else ["all its lines were taken, though it never reads"]
        for _ in range(2):
            peer = server.connect()
            wrong += differs("replies", set(peer.ask_all([LIST] * 5_000)), {services_reply(0)})
            peer.end()
        time.sleep(3)
        wrong += differs("said", server.said(), [])
        desk.end()
        replies = greedy.take(600_000)
        wrong += differs("replies, once they are read", set(replies), {services_reply(0)})
        wrong += differs("more than the replies", greedy.end(), b"")
        return wrong + server.done(610_000, 0)


def resets(program, is_long):
    """resets in the middle of a line, in the middle of replies, and before any line, while another is answered"""
    wrong, count = [], 30
    with Server(program, 4, count + 1, "--idle", "20") as server:
        desk = server.desk()
        asking, thrown = server.connect(), []
        for number in range(count):
            peer = server.connect()
            if number % 3 == 0:
                peer.put(LIST[:7])
            elif number % 3 == 1:
                peer.put((LIST + b"\n") * 20_000)
            time.sleep(0.01)
            peer.reset()
            thrown.append(peer)
            wrong += differs("reply", asking.ask(LIST), services_reply(0))
        asking.end()
        desk.end()
        status, output = server.finish()
        wrong += differs("status", status, 0)
        wrong += [] if output == b"done lines=%d faults=%d\n" % (count, count) else [f"it printed {output}"]
        causes = {line.rsplit(": ", 1)[1].split(" (")[0] for line in server.said()}
        wrong += [] if causes <= {"it could not be read", "it could not be written"} else [f"it said {causes}"]
        wrong += at_most_ten_a_second(server.said(), count)
    return wrong


def at_most_ten_a_second(said, count):
    """What is wrong with the number of lines that are said of so many connections within some two seconds."""
    return [] if 1 <= len(said) <= min(count, 30) else [f"it said {len(said)} lines"]


def desk_dies(program, is_long):
    """a desk that dies between an edit and its commit: the edit never shows, and what was published stays"""
    wrong = []
    for way in ("end", "reset"):
        with Server(program, 2, 2) as server:
            desk, before = server.desk(), server.connect()
            for line, wanted in [(publish(1), b'{"staged":{"pending":1}}'), (COMMIT, b'{"committed":{"edition":1}}')]:
                wrong += differs("reply to the desk", desk.ask(line), wanted)
            desk.ask_all([publish(2, service="ambulance"), withdraw(1)])
            getattr(desk, way)()
            time.sleep(A_WHILE)
            after = server.connect()
            for peer in (before, after):
                wrong += differs("services", peer.ask(LIST), services_reply(1, "sos"))
                wrong += differs("edition", edition_of(peer.ask(question(1))), 1)
                wrong += [] if b"m1@" in peer.ask(question(1)) else ["what was published is gone"]
                peer.end()
            wrong += server.done(6, 0)
            wanted = [] if way == "end" else [f"lostd: desk connection from 127.0.0.1:{desk.port}: it could not be read"]
            wrong += differs("said", server.said(), wanted)
    return wrong


def quiet(program, is_long):
    """--quiet: nothing is said of connections that end in a fault, and they are counted all the same"""
    with Server(program, 2, 2, "--quiet", "--idle", "1") as server:
        desk, silent, thrown = server.desk(), server.connect(), server.connect()
        thrown.put(LIST[:7])
        time.sleep(0.1)
        thrown.reset()
        wrong = ended_by_server(silent, 4)[1]
        desk.put(b"{")
        desk.reset()
        return wrong + server.done(0, 2) + differs("said", server.said(), [])


def first_and_last_line(program, is_long):
    """`ready` first and `done lines=L faults=F` last, and nothing else, on standard output"""
    with Server(program, 1, 2) as server:
        desk, peer = server.desk(), server.connect()
        wrong = differs("replies", peer.ask_all([LIST, b"", b"\r"]), [services_reply(0), BAD_REQUEST, BAD_REQUEST])
        peer.put(LIST)
        wrong += differs("a last line without a newline", peer.end(), services_reply(0) + b"\n")
        desk.end()
        server.use_up()
        return wrong + differs("first line", server.first_line, b"ready\n") + server.done(4, 0)


def signals(program, is_long):
    """SIGTERM and SIGINT end the process at once, with the signal's status"""
    wrong = []
    for number in (signal.SIGTERM, signal.SIGINT):
        with Server(program, 4, 1_000) as server:
            peers = [server.desk(), *(server.connect() for _ in range(6))]
            peers[1].ask(LIST)
            begun = time.monotonic()
            wrong += differs("status", server.signal(number), -number)
            passed = time.monotonic() - begun
            wrong += [] if passed < 0.5 else [f"it took {passed:.1f} seconds"]
            wrong += differs("output", server.process.stdout.read(), b"") + differs("said", server.said(), [])
            for peer in peers:
                peer.socket.close()
    return wrong


def other_address(program, is_long):
    """a desk's line at a query connection is badRequest, and whatever is no desk line has code 1 at the desk's"""
    fitting, too_long = long_requests()
    with Server(program, 1, 1) as server:
        desk, peer = server.desk(), server.connect()
        desk_lines = [publish(1), withdraw(1), COMMIT, b'{"replace":{}}', b'{"commit":[]}']
        wrong = differs("replies to a desk's lines", set(peer.ask_all(desk_lines)), {BAD_REQUEST})
        wrong += differs("long lines", peer.ask_all([fitting, too_long]), [services_reply(0), BAD_REQUEST])
        no_desk_lines = [LIST, question(1), b"", b"x", b"[]", fitting, too_long, b'{"commit":[]}', b'{"commit":{},"x":1}']
        wrong += differs("replies of the desk", set(desk.ask_all(no_desk_lines)), {BAD_LINE})
        wrong += differs("commit", desk.ask(COMMIT), b'{"committed":{"edition":0}}')
        peer.end()
        desk.end()
        return wrong + server.done(7, 0)


def clock(program, is_long):
    """a mapping that expires two seconds ahead is found before, and not after"""
    with Server(program, 1, 1) as server:
        desk, peer = server.desk(), server.connect()
        end = datetime.datetime.now(datetime.timezone.utc) + datetime.timedelta(seconds=2)
        desk.ask_all([publish(1, end.strftime("%Y-%m-%dT%H:%M:%S.%fZ")), COMMIT])
        wrong, found, times = [], set(), 0
        while (before := datetime.datetime.now(datetime.timezone.utc)) < end + datetime.timedelta(seconds=0.5):
            reply = peer.ask(question(1))
            after, times = datetime.datetime.now(datetime.timezone.utc), times + 1
            is_found = reply.startswith(b'{"findServiceResponse"')
            found.add(is_found)
            if is_found and before >= end or not is_found and after < end:
                wrong.append(f"asked at {before}, of a mapping until {end}: {reply.decode()}")
            time.sleep(0.002)
        wrong += differs("answers of both kinds", found, {True, False})
        peer.end()
        desk.end()
        return wrong[:3] + server.done(times, 0)
