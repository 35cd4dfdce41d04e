"""Compares the programs through `replay`, in turns."""
import contextlib
import statistics
from typing import NamedTuple

from maps import Land
from programs import Failed, Replay, file_pieces, most_resident
from questions import SHOWN, Questions

MEGABYTE = 1_000_000
# A time of nothing counts as this many seconds: the system brings the times of a process up to date in steps.
LEAST = 0.0001
HEAD = ("mappings", "what", "lostd", "plain", "lostd / plain")


class Turns(NamedTuple):
    """What each round of both programs measured, the one of lostd first."""

    pairs: list

    def middles(self):
        """The middle of each program."""
        return tuple(statistics.median(pair[place] for pair in self.pairs) for place in (0, 1))

    def ratio(self):
        """The middle of the rounds' ratios, lostd by the plain server."""
        return statistics.median(pair[0] / pair[1] for pair in self.pairs)


def in_turns(number, runs, ask):
    """What `ask` gives for each of two runs; the one that begins changes with the round. In the order of the runs."""
    places = (0, 1) if number % 2 == 0 else (1, 0)
    told = {place: ask(runs[place]) for place in places}
    return told[0], told[1]


def need_same(lines, replies):
    """Failed, with the first line whose replies differ, where those of the two programs do."""
    if replies[0] == replies[1]:
        return
    lines, first, second = (text.splitlines() for text in (lines, *replies))
    for line, *others in zip(lines, first, second):
        if others[0] != others[1]:
            texts = [text.decode(errors="replace")[:400] for text in (line, *others)]
            raise Failed("WRONG: the replies differ\n  {}\n  lostd: {}\n  plain: {}".format(*texts))
    raise Failed("WRONG: one program gave fewer replies")


def row(mappings, what, middles, ratio):
    """Prints a row of the table."""
    print(f"{mappings:>8}  {what:<24}{middles[0]:>12}{middles[1]:>12}{ratio:>16}", flush=True)


class Comparison:
    """What is compared at one size."""

    def __init__(self, programs, land, path, given):
        self.programs, self.land, self.path, self.given = programs, land, path, given

    def compare(self, count):
        """Compares loading, memory and questions over a file of so many desk lines."""
        with contextlib.ExitStack() as stack:
            runs = self.load(stack, count)
            for kind in self.given.kinds:
                self.ask(runs, kind)

    def load(self, stack, count):
        """Loads the map in each round; the replays of the last one are kept."""
        spent, memory = [], []
        for number in range(self.given.rounds):
            is_last = number + 1 == self.given.rounds
            with contextlib.ExitStack() as here:
                owner = stack if is_last else here
                runs = [owner.enter_context(Replay(program)) for program in self.programs]
                told = in_turns(number, runs, lambda run: run.ask(file_pieces(self.path), count))
                need_same(b"", [replies for replies, _ in told])
                spent.append([max(seconds, LEAST) for _, seconds in told])
                memory.append([most_resident(run.process) / MEGABYTE for run in runs])
        self.show("loading, seconds", Turns(spent), "{:.3f}")
        self.show("most memory, megabytes", Turns(memory), "{:,.0f}")
        return runs

    def show(self, what, turns, form):
        """Prints a row of what was measured."""
        row(f"{self.land.mappings:,}", what, [form.format(one) for one in turns.middles()], f"{turns.ratio():.2f}")

    def ask(self, runs, kind):
        """Asks both for the same questions in each round; the first round does not count."""
        count = self.given.questions
        lines = Questions(self.land).lines(kind, count)
        rates = []
        for number in range(self.given.rounds + 1):
            told = in_turns(number, runs, lambda run: run.ask([lines], count))
            need_same(lines, [replies for replies, _ in told])
            rates.append([count / max(seconds, LEAST) for _, seconds in told])
        self.show(SHOWN[kind], Turns(rates[1:]), "{:,.0f}")


def compare_replays(programs, sizes, given, folder):
    """Compares the programs at each size, and prints the table."""
    print(f"Through replay, by processor time; the middle of {given.rounds} rounds in turn. Questions: how many a second.")
    row(*HEAD[:2], HEAD[2:4], HEAD[4])
    for land, path, count in maps_of(sizes, folder):
        Comparison(programs, land, path, given).compare(count)


def maps_of(sizes, folder):
    """The land of each size, with the file of its desk lines and how many they are."""
    for size in sizes:
        land, path = Land(size), f"{folder}/map"
        yield land, path, land.write(path)
