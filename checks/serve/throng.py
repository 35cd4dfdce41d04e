"""A live history with many clients: at a server without --connections, whose workers watch them all."""
import tempfile
import time

from clients import LIVES, Run
from crowds import raise_files
from desks import counted_as
from drawing import history
from live import CHAPTER_SECONDS, FORK, GROUPS, REQUESTS, WORKERS, counted_by, play_desk, start_clients, tell
from server import Standing
from verdicts import Books

CONNECTIONS_A_SECOND = 10


def run_throng(program, seconds, clients, seed):
    """Runs a live history and judges it; whether all was as wanted."""
    # Each client has a connection, and a file of what it was told.
    raise_files(2 * clients)
    chapters, books = history(seed, int(seconds / CHAPTER_SECONDS) + 1, REQUESTS, GROUPS), Books()
    with tempfile.TemporaryDirectory() as folder, Standing(program, WORKERS, "--per-address", "0") as server:
        desk, told = server.desk(), FORK.RawValue("Q", 0)
        run = Run(server.queries, chapters, time.monotonic(), seconds, int(seconds * CONNECTIONS_A_SECOND), seed, folder, told, LIVES)
        started = start_clients(run, clients)
        desk_lines = play_desk(server, run, desk)
        desk.end()
        counted, passed = counted_by(started), run.passed()
        for line, reply in desk_lines:
            books.add(line, reply)
        for wrong in [*counted_as(server, books, counted), *server.said()]:
            books.differences.add(f"end: {wrong}")
        return tell(books, [], counted, passed, chapters, folder)
