"""Commits of one edit beside a bare program that makes the same writes and flushes, and queries beside commits."""
import contextlib
import os
import time

from asked import COMMITS_A_SECOND, Asked, Desk, Waits, begun
from kinds import Districts, write_file
from measuring import compiled, middle
from replays import Turns, in_turns
from servers import Measured

HERE = os.path.dirname(os.path.realpath(__file__))
MAPPINGS, QUESTIONS = 1_024, 10_000
GAP = 1_000_000 // COMMITS_A_SECOND
MOST_OF_BARE = 1.3


def last_line_size(journal):
    """How many bytes the last commit's line has, with its newline."""
    with open(journal, "rb") as file:
        file.seek(-min(os.path.getsize(journal), 4_096), os.SEEK_END)
        return len(file.read().splitlines(keepends=True)[-1])


class Bench:
    """A map, programs that ask, and two servers over the map: with a journal, and without."""

    def __init__(self, program, options, folder, stack):
        self.options, self.folder, self.waits = options, folder, Waits(folder)
        self.bare = compiled(f"{HERE}/bare.c", folder)
        self.land, self.journal = Districts(MAPPINGS), f"{folder}/commits.journal"
        path = write_file(self.land, f"{folder}/map").path
        self.kept, self.plain = (
            stack.enter_context(Measured(program, "--map", path, *words)) for words in (["--journal", self.journal], [])
        )
        self.desks = {server: Desk(self.waits, server, self.land, folder) for server in (self.kept, self.plain)}

    def commits(self, _):
        """The nanoseconds within which half of the commits of a server with a journal come."""
        with self.desks[self.kept].committing(self.options.seconds) as spans:
            time.sleep(self.options.seconds)
        return spans[0]

    def writes(self, _):
        """The same of the bare program."""
        sizes = len(self.desks[self.kept].replacement()), last_line_size(self.journal)
        return self.waits.end(begun(self.bare, f"{self.folder}/bare.file", self.options.seconds, GAP, *sizes))[1]

    def late(self, server):
        """The nanoseconds within which 99 of a hundred replies come beside commits."""
        desk = self.desks[server]
        pairs = self.asked.write(desk.digits(self.options.seconds))
        with desk.committing(self.options.seconds):
            return self.waits.ask(server.port, pairs, self.options.seconds)[2]

    def rounds(self, runs, ask):
        """What both give, in turns; a first round does not count."""
        return Turns([in_turns(number, runs, ask) for number in range(self.options.rounds + 1)][1:])


def measure_commits(program, options, folder):
    """Measures commits and the queries beside them, and prints what came out."""
    with contextlib.ExitStack() as stack:
        bench = Bench(program, options, folder, stack)
        bench.asked = Asked(bench.plain.port, bench.land.requests(bench.land.kinds[0], QUESTIONS), f"{folder}/asked")
        turns = bench.rounds([bench.commits, bench.writes], lambda run: run(None))
        kept, bare = turns.middles()
        print(f"a commit of one edit, nanoseconds within which half come: {kept:.0f} with a journal, {bare:.0f} for the same writes and"
              f" flushes alone; {middle(turns)} times as long (wanted: at most {MOST_OF_BARE})", flush=True)
        turns = bench.rounds([bench.kept, bench.plain], bench.late)
        kept, plain = turns.middles()
        print(f"a reply beside {COMMITS_A_SECOND} commits a second, nanoseconds within which 99 of a hundred come: {kept:.0f} with a"
              f" journal, {plain:.0f} without; {middle(turns)} times as long", flush=True)
