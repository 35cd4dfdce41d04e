"""Measures servers in turns with one and the same load, and says what came out, line by line."""
import contextlib
import os
import subprocess
from typing import NamedTuple, Optional

from building.faults import Fault
from crowds import close_all, crowd, ended_among, raise_files
from programs import processor_seconds
from replays import Turns, in_turns
from sides import Lostd

HERE = os.path.dirname(os.path.realpath(__file__))
WORKERS, IDLE, BUSY = 4, 10_000, 64
# So many cores give each of four workers one, and the load as many; so much of its core a server must be busy where many ask it.
APART, LEAST_BUSY = 2 * WORKERS, 0.9
PATIENCE = 60


class Plan(NamedTuple):
    """So many connections, so many requests at a time on each, and the least ratio to redis, where one is wanted."""

    connections: int
    depth: int
    least: Optional[float]


PLANS = [Plan(1, 1, 0.8), Plan(1, 16, 0.5), Plan(BUSY, 1, 0.6), Plan(BUSY, 16, None)]
LEAST_FOUR, LEAST_BESIDE = 3.0, 0.9


@contextlib.contextmanager
def on_cores(cores):
    """What begins meanwhile runs on these cores alone, as `taskset` has it."""
    before = os.sched_getaffinity(0)
    os.sched_setaffinity(0, cores)
    try:
        yield
    finally:
        os.sched_setaffinity(0, before)


def compiled(source, folder):
    """The path of a C program that is compiled into a folder; its name is that of its source."""
    path = f"{folder}/{os.path.basename(source)[:-2]}"
    try:
        ran = subprocess.run(["cc", "-O2", "-pthread", "-o", path, source], capture_output=True, text=True)
    except FileNotFoundError:
        raise Fault("cc is missing: apt-get install gcc libc6-dev") from None
    if ran.returncode:
        raise Fault(f"{os.path.basename(source)} does not compile: {(ran.stderr.strip() or 'cc says nothing').splitlines()[0]}")
    return path


class Load:
    """The program that asks; it is compiled into a folder."""

    def __init__(self, folder, seconds):
        self.path, self.seconds = compiled(f"{HERE}/load.c", folder), seconds

    def ask(self, side, pairs, plan, cores):
        """Asks a server from some cores: replies a second, and how much of a core the server took."""
        numbers = [side.port, plan.connections, plan.depth, len(cores), self.seconds]
        before = processor_seconds(side.process)
        with on_cores(cores):
            try:
                words = [self.path, pairs, *map(str, numbers)]
                ran = subprocess.run(words, capture_output=True, text=True, timeout=self.seconds + PATIENCE)
            except subprocess.TimeoutExpired:
                raise Fault(f"{side.title} did not reply for {PATIENCE} seconds") from None
        if ran.returncode:
            raise Fault(f"{side.title}, asked over {count_of(plan)}: {ran.stderr.strip() or f'status {ran.returncode}'}")
        return int(ran.stdout) / self.seconds, (processor_seconds(side.process) - before) / self.seconds


class Bench(NamedTuple):
    """What is measured with: the load, how many rounds, the cores, and the files of both sides' questions and of the map."""

    load: Load
    rounds: int
    cores: list
    program: str
    path: str
    pairs: dict

    def server_cores(self):
        """The core of a server alone."""
        return self.cores[-1:]

    def load_cores(self):
        """The cores of the load beside it."""
        return self.cores[:-1]

    def compare(self, plan, sides, load_cores):
        """The rates of two servers that are asked in turns, and how much of a core each took; a first round does not count."""
        rates, shares = [], []
        ask = lambda place: self.load.ask(sides[place], self.pairs[sides[place].title], plan, load_cores[place])
        for number in range(self.rounds + 1):
            told = in_turns(number, [0, 1], ask)
            rates.append([rate for rate, _ in told])
            shares.append([share for _, share in told])
        if not all(one > 0 for pair in rates[1:] for one in pair):
            raise Fault(f"no reply came within {self.load.seconds} s over {count_of(plan)}: give more --seconds")
        return Turns(rates[1:]), Turns(shares[1:])


def count_of(plan):
    """A plan in words."""
    return f"{plan.connections} connection{'s' if plan.connections > 1 else ''}, depth {plan.depth}"


def middle(turns):
    """The middle of the ratios, and how far they reach."""
    ratios = sorted(first / second for first, second in turns.pairs)
    return f"{turns.ratio():.2f} ({ratios[0]:.2f} to {ratios[-1]:.2f})"


def by_time(rates, shares):
    """The rates for each second of processor time."""
    return Turns([[rate / max(share, 1e-9) for rate, share in zip(*pairs)] for pairs in zip(rates.pairs, shares.pairs)])


class Told:
    """Prints what is measured, each with what is wanted of it, and counts what is missed."""

    def __init__(self):
        self.missed = 0

    def tell(self, text, ratio, least=None):
        """Prints a line."""
        is_missed = least is not None and ratio < least
        self.missed += is_missed
        print(text + ("" if least is None else f"; {'MISSED' if is_missed else 'met'}: at least {least}"), flush=True)


def compare_with_redis(bench, sides, told):
    """lostd with one worker beside redis, each on the same core."""
    for plan in PLANS:
        rates, shares = bench.compare(plan, sides, [bench.load_cores()] * 2)
        (mine, its), (busy, its_busy) = rates.middles(), shares.middles()
        told.tell(
            f"{count_of(plan)}: lostd {mine:.0f} replies a second by {busy:.2f} of its core, redis {its:.0f} by {its_busy:.2f};"
            f" {middle(rates)} of redis, {by_time(rates, shares).ratio():.2f} by processor time", rates.ratio(), plan.least)
        if plan.connections == BUSY and min(busy, its_busy) < LEAST_BUSY:
            print(f"note: a server waited over {count_of(plan)}: it had too few requests, or its core other work", flush=True)


def shared_cores(cores):
    """The cores of four workers, those of their load, and both in words."""
    of_four = cores[-WORKERS:]
    if len(cores) >= APART:
        return of_four, cores[:-WORKERS], "each on a core of its own"
    return of_four, of_four, f"each on a core that it shares with the load, since there are {len(cores)}"


def compare_workers(bench, told):
    """lostd with four workers on four cores beside lostd with one worker on one core."""
    cores = bench.cores
    if len(cores) < WORKERS:
        print(f"four workers: not measured, since there are {len(cores)} cores", flush=True)
        return
    of_four, its_load, where = shared_cores(cores)
    of_one = cores[-1:]
    load_cores = [its_load, its_load if len(cores) >= APART else of_one]
    with contextlib.ExitStack() as stack:
        sides = []
        for workers, its_cores in ((WORKERS, of_four), (1, of_one)):
            with on_cores(its_cores):
                sides.append(stack.enter_context(Lostd(bench.program, bench.path, workers)))
        for depth in (1, 16):
            plan = Plan(BUSY, depth, LEAST_FOUR)
            rates, _ = bench.compare(plan, sides, load_cores)
            four, one = rates.middles()
            told.tell(
                f"four workers, {count_of(plan)}: {four:.0f} replies a second, one {one:.0f}, {where}; {middle(rates)} times one",
                rates.ratio(), plan.least)


def compare_idle(bench, told):
    """lostd with thousands of idle connections beside lostd without."""
    try:
        raise_files(IDLE + BUSY)
    except (ValueError, OSError):
        raise Fault(f"{IDLE:,} idle connections need as many open files: run it as root, or raise `ulimit -Hn`") from None
    plan = Plan(BUSY, 1, LEAST_BESIDE)
    with contextlib.ExitStack() as stack:
        with on_cores(bench.server_cores()):
            sides = [stack.enter_context(Lostd(bench.program, bench.path)) for _ in range(2)]
        idle = crowd(sides[0].port, IDLE)
        stack.callback(close_all, idle)
        rates, _ = bench.compare(plan, sides, [bench.load_cores()] * 2)
        if ended := ended_among(idle):
            raise Fault(f"lostd ended {ended} of {IDLE} idle connections")
        beside, alone = rates.middles()
        told.tell(
            f"{IDLE} idle connections beside {count_of(plan)}: {beside:.0f} replies a second, without them {alone:.0f};"
            f" {middle(rates)} times as many", rates.ratio(), plan.least)
