"""A few plain lines, the replies that they should get, and how checks say what is wrong."""
import datetime
import json
import threading

from server import Ended, edition_of
from verdicts import Books, Question

LIST = b'{"listServices":{}}'


def corner(number):
    """The southern latitude and the western longitude of a square."""
    return number % 170 * 10_000_000 - 850_000_000, number // 170 % 350 * 10_000_000 - 1_750_000_000


def stamp(turn):
    """A stamp, later than those of the turns before; a mapping that was withdrawn comes back by a later one alone."""
    return (datetime.datetime(2025, 12, 1) + datetime.timedelta(hours=turn)).isoformat() + "Z"


def publish(number, expires="NO-EXPIRATION", service="sos.police", turn=0):
    """A desk line that publishes a square of one degree, alone in its place."""
    south, west = corner(number)
    north, east = south + 10_000_000, west + 10_000_000
    ring = [[south, west], [south, east], [north, east], [north, west], [south, west]]
    described = {
        "source": "map.example", "sourceId": f"m{number}", "key": f"k{number}", "expires": expires,
        "lastUpdated": stamp(turn), "service": f"urn:service:{service}", "uri": [f"sip:m{number}@map.example"],
        "serviceBoundary": [{"polygon": ring, "profile": "geodetic-2d"}],
    }
    return json.dumps({"publish": described}).encode()


def withdraw(number, turn=1):
    """A desk line that withdraws it."""
    identity = {"source": "map.example", "sourceId": f"m{number}", "lastUpdated": stamp(turn)}
    return json.dumps({"withdraw": identity}).encode()


def question(number, service="sos.police"):
    """A request at the middle of the square."""
    south, west = corner(number)
    place = {"id": "p", "pos": [south + 5_000_000, west + 5_000_000], "profile": "geodetic-2d"}
    return json.dumps({"findService": {"service": f"urn:service:{service}", "location": [place]}}).encode()


def services_reply(edition, *services):
    """The reply to a request for all services."""
    members = {"edition": edition, "path": ["lost.example"], "serviceList": [f"urn:service:{one}" for one in services]}
    return json.dumps({"listServicesResponse": members}, separators=(",", ":")).encode()


def differs(what, got, wanted):
    """What is wrong where something is not as wanted."""
    return [] if got == wanted else [f"{what}: {got} and not {wanted}"]


def in_threads(works):
    """Does works at once; what was wrong with each."""
    wrong = []

    def do(work):
        try:
            wrong.extend(work() or [])
        except (Ended, OSError) as error:
            wrong.append(str(error))

    threads = [threading.Thread(target=do, args=(work,)) for work in works]
    for thread in threads:
        thread.start()
    for thread in threads:
        thread.join()
    return wrong


def judged(desk_lines, connections):
    """What the oracle finds wrong with the desk's replies, and with those of some connections."""
    books = Books()
    for line, reply in desk_lines:
        books.add(line, reply)
    for lines, replies in connections:
        last = 0
        for line, reply in zip(lines, replies or []):
            books.differences.compare_reply(Question(line, books.oracle), reply, books)
            edition = edition_of(reply) or last
            if edition < last:
                books.differences.add(f"edition {edition} came after {last}")
            last = max(edition, last)
    return books.differences.first
