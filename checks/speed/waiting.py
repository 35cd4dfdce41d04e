"""How long one line waits for its reply over TCP, alone and beside commits, and how long a commit does."""
import statistics

from asked import Asked, Desk, Waits
from kinds import Districts, write_file
from sides import Lostd

QUESTIONS = 10_000


def measure_connections(program, options, folder):
    """Measures a connection at maps of all sizes, and prints the times."""
    waits = Waits(folder)
    for size in options.sizes:
        land = Districts(size)
        file = write_file(land, f"{folder}/map")
        with Lostd(program.path, file.path) as server:
            asked = Asked(server.port, land.requests(land.kinds[0], QUESTIONS), f"{folder}/asked")
            desk = Desk(waits, server, land, folder)
            rounds = [spans_of(waits, server, asked, desk, options.seconds) for _ in range(options.rounds + 1)]
        (alone, late_alone), (beside, late_beside), (commit, late_commit) = (
            [round(statistics.median(spans)) for spans in zip(*of)] for of in zip(*rounds[1:])
        )
        print(f"{size} mappings, nanoseconds within which half and 99 of a hundred come: a reply {alone} and {late_alone},"
              f" beside commits {beside} and {late_beside}, a commit {commit} and {late_commit}", flush=True)


def spans_of(waits, server, asked, desk, seconds):
    """The nanoseconds within which half and 99 of a hundred come: of replies, of replies beside commits, of commits."""
    pairs = asked.write(desk.digits(seconds))
    _, *alone = waits.ask(server.port, pairs, seconds)
    with desk.committing(seconds) as commits:
        _, *beside = waits.ask(server.port, pairs, seconds)
    return alone, beside, commits
