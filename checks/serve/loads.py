"""Many lines or many connections at once; each check gives what was wrong, an empty list where nothing was."""
import threading
import time

from connections import ended_by_server, one_line
from drawing import Endless
from plain_lines import LIST, differs, in_threads, judged, publish, question, services_reply, withdraw
from server import BAD_REQUEST, COMMIT, Server, edition_of


def eight_over_four(program, is_long):
    """eight connections over four workers, 1,000 lines each, in a row and one by one, beside a desk that commits"""
    session = Endless(11)
    groups = [session.group() for _ in range(200)]
    lines = [[session.request_line() for _ in range(1_000)] for _ in range(8)]
    told, desk_lines = {}, []
    with Server(program, 4, 8) as server:
        desk = server.desk()

        def ask(number):
            peer = server.connect()
            if number % 2:
                told[number] = peer.ask_all(lines[number])
            else:
                told[number] = [peer.ask(line) for line in lines[number]]
            return differs("more than the replies", peer.end(), b"")

        def edit():
            for group in groups:
                desk_lines.extend(zip(group, desk.ask_all(group)))
                time.sleep(0.005)
            return differs("more than the desk's replies", desk.end(), b"")

        wrong = in_threads([edit, *(lambda number=number: ask(number) for number in range(8))])
        wrong += server.done(8_000, 0) + differs("said", server.said(), [])
    return wrong + judged(desk_lines, zip(lines, map(told.get, range(8))))


def seen_at_once(program, is_long):
    """the first reply on any connection after a commit was answered names that edition"""
    wrong, rounds = [], 3_000 if is_long else 300
    with Server(program, 8, rounds // 10 + 7) as server:
        desk, peers = server.desk(), [server.connect() for _ in range(7)]
        for number in range(rounds):
            desk.ask(publish(number) if number % 2 == 0 else withdraw(number - 1))
            edition = edition_of(desk.ask(COMMIT))
            wrong += differs("edition", edition, number + 1)
            for peer in peers:
                peer.put(LIST + b"\n")
            wrong += [text for peer in peers for text in differs("asked", edition_of(peer.take(1)[0]), edition)]
            if number % 10 == 0:
                new = server.connect()
                wrong += differs("a new connection", edition_of(new.ask(LIST)), edition)
                new.end()
        for peer in [*peers, desk]:
            peer.end()
        return wrong[:3] + server.done(7 * rounds + rounds // 10, 0)


def one_after_another(program, is_long):
    """2,000 connections one after another (10,000 with --long), each answered"""
    wrong, count = [], 10_000 if is_long else 2_000
    with Server(program, 4, count) as server:
        desk = server.desk()
        for number in range(count):
            if number % 20 == 0:
                wrong += differs("staged", desk.ask(publish(number)), b'{"staged":{"pending":1}}')
                desk.ask(COMMIT)
            peer = server.connect()
            wrong += differs("reply", peer.ask(LIST), services_reply(number // 20 + 1, "sos"))
            wrong += differs("more than the reply", peer.end(), b"")
        desk.end()
        return wrong[:3] + server.done(count, 0) + differs("said", server.said(), [])


def many_workers(program, is_long):
    """64 workers, each with a connection, all at once"""
    with Server(program, 64, 64) as server:
        desk, peers = server.desk(), [server.connect() for _ in range(64)]
        for peer in peers:
            peer.put(LIST + b"\n")
        wrong = [text for peer in peers for text in differs("reply", peer.take(1, 10), [services_reply(0)])]
        desk.ask_all([publish(1), COMMIT])
        for peer in peers:
            wrong += differs("reply after a commit", peer.ask(LIST), services_reply(1, "sos"))
            peer.end()
        desk.end()
        return wrong[:3] + server.done(128, 0) + differs("said", server.said(), [])


def end_of_lines(program, is_long):
    """a connection that sends more than 1,000,000 lines is ended after them, with all its replies"""
    with Server(program, 1, 2) as server:
        desk, peer = server.desk(), server.connect()
        peer.put(b"\n" * 1_000_010)
        wrong = differs("replies", set(peer.take(1_000_000)), {BAD_REQUEST})
        wrong += ended_by_server(peer, 5)[1]
        again = server.connect()
        wrong += differs("the next connection", again.ask(LIST), services_reply(0))
        again.end()
        desk.end()
        wrong += one_line(server.said(), peer, "it sent too many lines for one connection")
        return wrong + server.done(1, 1)


def full_speed(program, is_long):
    """a desk that sends 100,000 edits at full speed, while 64 connections ask"""
    count, at_once = 100_000, 500
    turns = [(number % 5_000, number // 5_000) for number in range(count)]
    edits = [withdraw(number, turn) if turn % 2 else publish(number, turn=turn) for number, turn in turns]
    asked = [0] * 64
    with Server(program, 64, 64) as server:
        desk, is_over = server.desk(), threading.Event()

        def edit():
            wrong = []
            for first in range(0, count, at_once):
                replies = desk.ask_all([*edits[first : first + at_once], COMMIT])
                wanted = b'{"committed":{"edition":%d}}' % (first + at_once)
                wrong += differs("desk", (len(set(replies)), replies[-1]), (at_once + 1, wanted))
            is_over.set()
            return wrong[:3]

        def ask(number):
            peer, wrong, last = server.connect(), [], 0
            while not is_over.is_set():
                editions = [edition_of(reply) for reply in peer.ask_all([LIST, question(number)] * 10)]
                asked[number] += len(editions)
                is_rising = editions == sorted(editions) and editions[0] >= last
                wrong += [] if is_rising and not any(one % at_once for one in editions) else [f"editions {editions}"]
                last = editions[-1]
            peer.end()
            return wrong[:1]

        wrong = in_threads([edit, *(lambda number=number: ask(number) for number in range(64))])
        desk.end()
        return wrong[:3] + server.done(sum(asked), 0)
