"""What lines, edits and whole maps cost `replay`."""
import contextlib
import statistics
import tempfile

import kinds
from building.faults import Fault
from counts import Counted, NotCounted
from edits import COMMITTED, KINDS, STAGED, Edits
from programs import Replay, file_pieces

# Where lines take long, fewer are asked: as many as take so many seconds. Under valgrind they take some fifty times as long.
FIRST_LINES, LEAST_LINES, MOST_SECONDS = 200, 20, 1.0
COUNTED_LINES, COUNTED_EDITS, COUNTED_SECONDS = 2_000, 200, 0.05


def need(is_right, reply):
    """A fault where a reply is not as it is wanted."""
    if not is_right:
        raise Fault(f"a reply is of another kind: {reply.decode(errors='replace')[:300]}")


def load(run, file):
    """What loading a map costs a replay."""
    replies, cost = run.ask(file_pieces(file.path), file.lines)
    last = replies.splitlines()[-1]
    need(last.startswith(COMMITTED) and b'"refused"' not in replies, last)
    return cost


def cost_of_line(run, kind, lines, count):
    """What each of so many lines of a kind costs a replay."""
    replies, cost = run.ask([lines], count)
    for reply in replies.splitlines():
        need(kind.mark in reply, reply)
    return cost / count


def cost_of_edit(run, edits, kind, count):
    """What each of so many edits of a kind costs a replay, with its commit."""
    lines = edits.lines(kind, count)
    replies, cost = run.ask([lines], 2 * count)
    told = replies.splitlines()
    for staged, committed in zip(told[::2], told[1::2]):
        need(staged == STAGED, staged)
        need(committed.startswith(COMMITTED), committed)
    return cost / count


def catch_up(run, edits):
    """Commits an edit, with which the second copy of the book catches up with the map."""
    cost_of_edit(run, edits, "replacement", 1)


def few(most, wanted):
    """A number of lines: the wanted one, where it is neither too small nor above the most."""
    return min(most, max(LEAST_LINES, int(wanted)))


class Bench:
    """What is measured, and how often."""

    def __init__(self, program, options, folder):
        self.program, self.options, self.folder = program, options, folder
        self.is_counted = options.instructions

    def measure(self, land):
        """Measures a map, and prints what came out."""
        file = kinds.write_file(land, f"{self.folder}/map")
        edits = Edits(land) if isinstance(land, kinds.Districts) else None
        with contextlib.ExitStack() as stack:
            run, loading = self.loaded(stack, file)
            print(f"{land.mappings} mappings loaded: {loading * 1e9:.0f} nanoseconds for {file.size} bytes", flush=True)
            of_lines = {kind: self.time_of(run, land, kind) for kind in land.kinds}
            of_edits = self.times_of_edits(run, edits) if edits else {}
        of_kinds, of_commits = self.counted(land, file, edits, of_lines)
        for kind, spent in of_lines.items():
            self.tell(land, kind.words, f"{spent * 1e9:.0f} nanoseconds a line", of_kinds.get(kind))
        for kind, spent in of_edits.items():
            self.tell(land, f"{kind} and commit", f"{spent * 1e9:.0f} nanoseconds", of_commits.get(kind))

    def loaded(self, stack, file):
        """A replay that has loaded a map, and how many seconds that took, the middle of the rounds."""
        spent = []
        for number in range(self.options.rounds):
            with contextlib.ExitStack() as here:
                owner = stack if number + 1 == self.options.rounds else here
                run = owner.enter_context(Replay(self.program))
                spent.append(load(run, file))
        return run, statistics.median(spent)

    def time_of(self, run, land, kind):
        """The seconds of a line of a kind, the middle of the rounds. A first round says how many lines are asked, and does not count."""
        first = few(self.options.lines, FIRST_LINES)
        count = few(self.options.lines, MOST_SECONDS / cost_of_line(run, kind, land.requests(kind, first), first))
        lines = land.requests(kind, count)
        return statistics.median(cost_of_line(run, kind, lines, count) for _ in range(self.options.rounds))

    def times_of_edits(self, run, edits):
        """The seconds of an edit of each kind and its commit. The kinds are made in turn; a first round does not count."""
        catch_up(run, edits)
        rounds = [[cost_of_edit(run, edits, kind, self.options.edits) for kind in KINDS] for _ in range(self.options.rounds + 1)]
        return {kind: statistics.median(spent) for kind, spent in zip(KINDS, zip(*rounds[1:]))}

    def counted(self, land, file, edits, spent):
        """The instructions of a line of each kind, and of an edit of each; none where they cannot be counted."""
        if not self.is_counted:
            return {}, {}
        try:
            with tempfile.TemporaryDirectory() as folder, Counted(self.program, folder) as run:
                load(run, file)
                counts = {kind: few(COUNTED_LINES, COUNTED_SECONDS / spent[kind]) for kind in land.kinds}
                of_kinds = {kind: cost_of_line(run, kind, land.requests(kind, count), count) for kind, count in counts.items()}
                if not edits:
                    return of_kinds, {}
                catch_up(run, edits)
                return of_kinds, {kind: cost_of_edit(run, edits, kind, COUNTED_EDITS) for kind in KINDS}
        except NotCounted as error:
            self.is_counted = False
            print(f"instructions: not counted: {error}", flush=True)
            return {}, {}

    def tell(self, land, words, spent, counted):
        """Prints a line."""
        more = "" if counted is None else f", {counted:.0f} instructions"
        print(f"{land.mappings} mappings, {words}: {spent}{more}", flush=True)


def measure_lines(program, options, folder):
    """Measures lines of all kinds over maps of all sizes."""
    bench = Bench(program, options, folder)
    for of in (kinds.Districts, kinds.Roads):
        for size in options.sizes:
            bench.measure(of(size))
