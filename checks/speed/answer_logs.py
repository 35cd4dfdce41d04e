"""What a log of answers costs a server and its disk, and how quickly it is audited."""
import contextlib
import glob
import math
import os
import subprocess
import time

from asked import MARGIN, Asked, Waits
from building.faults import Fault
from desk_lines import is_desk_line
from kinds import Districts, write_file
from logs import Kept, Logged, count_lines
from measuring import BUSY, WORKERS, Bench, Load, Plan, Told, by_time, count_of, middle, on_cores, shared_cores
from programs import NAME, Replay, file_pieces
from replays import Turns, in_turns
from sides import Lostd
from verdicts import read_or_none

HERE = os.path.dirname(os.path.realpath(__file__))
EXAMPLES = f"{os.path.dirname(os.path.dirname(HERE))}/examples/*.jsonl"
MAPPINGS, QUESTIONS, DEPTH, BATCH = 1_024, 10_000, 16, 1_000
LEAST_RATE, LEAST_AUDITED, MOST_BYTES = 0.9, 0.5, 1.3
# Beside the client whose replies are timed, so many ask two lines in so many microseconds.
OTHERS, GAP = 4, 1_000
AUDITED_BY_LINES = 5
REPLIES = ["digest", "whole", "none"]
SANITIZED = "note: with a program that is built with a sanitizer, as `rt try` builds it, the figures of logs mean nothing"


class LogsTold(Told):
    """Prints what is measured of logs."""

    def tell_most(self, text, ratio, most):
        """Prints a line of what should be small."""
        self.missed += ratio > most
        print(f"{text}; {'MISSED' if ratio > most else 'met'}: at most {most}", flush=True)


class Sides:
    """A server that logs its answers and one that does not, over the same map."""

    def __init__(self, stack, program, file, workers, log):
        self.log = log
        self.pair = [stack.enter_context(Lostd(program.path, file.path, workers, *more)) for more in (["--log", log], [])]

    def left_out(self):
        """How many answers the log has and left out so far, in words."""
        with open(self.log, "rb") as lines:
            counts = count_lines(lines)
        return f"{counts.left_out} of {counts.both()} answers were left out of the log"


def compare_rates(program, options, cores, folder, told):
    """Replies a second with and without a log: one worker that has a core beside the log's, and four workers."""
    file, load = write_file(Districts(MAPPINGS), f"{folder}/map"), Load(folder, options.seconds)
    plans = [(1, cores[-2:], cores[:-2] or cores, "and the log's thread on a core each" if len(cores) > 2 else "and all else on two cores")]
    if len(cores) >= WORKERS:
        plans.append((WORKERS, *shared_cores(cores)))
    for workers, its_cores, load_cores, where in plans:
        with contextlib.ExitStack() as stack:
            with on_cores(its_cores):
                sides = Sides(stack, program, file, workers, f"{folder}/answers-{workers}.log")
            pairs = questions(sides, options.lines, f"{folder}/asked").write()
            bench = Bench(load, options.rounds, cores, program.path, file.path, {Lostd.title: pairs})
            plan = Plan(BUSY, DEPTH, LEAST_RATE)
            rates, shares = bench.compare(plan, sides.pair, [load_cores] * 2)
            logged, plain = rates.middles()
            told.tell(
                f"log, {workers} worker{'s' if workers > 1 else ''} {where}, {count_of(plan)}: {logged:.0f} replies a second, without"
                f" {plain:.0f}; {middle(rates)} times as many, {by_time(rates, shares).ratio():.2f} by processor time; {sides.left_out()}",
                rates.ratio(), plan.least)


def questions(sides, most, path, needed=1):
    """Questions for both sides, with their replies; again and again until so many are there as are needed."""
    land = Districts(MAPPINGS)
    asked = Asked(sides.pair[0].port, land.requests(land.kinds[0], min(QUESTIONS, most)), path)
    times = math.ceil(needed / len(asked.lines))
    asked.lines, asked.replies = asked.lines * times, asked.replies * times
    return asked


def compare_times(program, options, folder):
    """The times within which replies come, with and without a log."""
    file, waits = write_file(Districts(MAPPINGS), f"{folder}/map"), Waits(folder)
    with contextlib.ExitStack() as stack:
        sides = Sides(stack, program, file, WORKERS, f"{folder}/answers.log")
        pairs = questions(sides, options.lines, f"{folder}/asked", (options.seconds + 3 * MARGIN) * 2_000_000 / GAP).write()
        ask = lambda side: spans_of(waits, side, pairs, options.seconds)
        rounds = [in_turns(number, sides.pair, ask) for number in range(options.rounds + 1)][1:]
        halves, lates = (Turns([[spans[place] for spans in pair] for pair in rounds]) for place in (0, 1))
        (half, its_half), (late, its_late) = halves.middles(), lates.middles()
        print(f"log, nanoseconds within which half and 99 of a hundred replies come beside {OTHERS * 2_000_000 // GAP} others a second:"
              f" {half:.0f} and {late:.0f}, without {its_half:.0f} and {its_late:.0f}; {middle(lates)} times as long; {sides.left_out()}", flush=True)


def spans_of(waits, side, pairs, seconds):
    """The nanoseconds within which half and 99 of a hundred replies come to a client, beside others."""
    others = [waits.begin(pairs, side.port, seconds + 2 * MARGIN, GAP) for _ in range(OTHERS)]
    try:
        time.sleep(MARGIN)
        _, *spans = waits.ask(side.port, pairs, seconds)
    finally:
        for other in others:
            waits.end(other)
    return spans


def bytes_of_session(program, path, kept, replies):
    """The bytes of the requests of a session and of their replies, and those of their log."""
    with open(path, "rb") as file:
        lines = [line for line in file.read().split(b"\n") if line]
    count = size = 0
    with Logged(program.path, 1, kept, replies) as server:
        desk, client = server.desk(), server.connect()
        for line in lines:
            if is_desk_line(read_or_none(line)):
                desk.ask(line)
            else:
                size += len(line) + len(client.ask(line)) + 2
                count += 1
        server.settle(count)
    return size, os.path.getsize(kept.log)


def compare_bytes(program, folder, told):
    """The bytes of logs by those of requests and replies."""
    for replies in REPLIES:
        asked = logged = 0
        for number, path in enumerate(sorted(glob.glob(EXAMPLES))):
            kept = Kept(*(f"{folder}/{replies}-{number}.{name}" for name in ("journal", "log")))
            size, log = bytes_of_session(program, path, kept, replies)
            asked, logged = asked + size, logged + log
        told.tell_most(f"log, --log-replies {replies}, examples: {logged} bytes for {asked} bytes of requests and replies, {logged / asked:.2f} times as many",
                       logged / asked, MOST_BYTES)


def make_log(program, file, lines, kept, replies):
    """Has a server answer lines, and log that."""
    with Logged(program.path, 1, kept, replies, "--map", file.path) as server:
        client = server.connect()
        for first in range(0, len(lines), BATCH):
            client.ask_all(lines[first : first + BATCH])
        if missed := server.settle(len(lines)):
            raise Fault(f"{missed} answers were left out of the log that is to be audited")
    with open(kept.log, "rb") as log, open(f"{kept.log}.first", "wb") as first:
        first.write(log.readline())


def cost_of_audit(program, journal, log):
    """The processor time of an audit."""
    with open(log, "rb") as lines:
        process = subprocess.Popen([program.path, "audit", "--journal", journal, *NAME], stdin=lines, stdout=subprocess.PIPE)
        done = process.stdout.read()
        process.stdout.close()
        _, status, used = os.wait4(process.pid, 0)
        process.returncode = os.waitstatus_to_exitcode(status)
    if process.returncode:
        raise Fault(f"the audit finds something: {done.decode(errors='replace')[:300]}")
    return used.ru_utime + used.ru_stime


def compare_audits(program, options, folder, told):
    """The speed of an audit beside that of a replay, by processor time."""
    land = Districts(MAPPINGS)
    file, asked = write_file(land, f"{folder}/map"), land.requests(land.kinds[0], options.lines * AUDITED_BY_LINES)
    lines = asked.splitlines()
    for replies in REPLIES[:2]:
        kept = Kept(*(f"{folder}/{replies}-audited.{name}" for name in ("journal", "log")))
        make_log(program, file, lines, kept, replies)
        with Replay(program) as run:
            run.ask(file_pieces(file.path), file.lines)
            ways = [
                lambda: cost_of_audit(program, kept.journal, kept.log) - cost_of_audit(program, kept.journal, f"{kept.log}.first"),
                lambda: run.ask([asked], len(lines))[1],
            ]
            rounds = [in_turns(number, ways, lambda way: len(lines) / max(way(), 1e-4)) for number in range(options.rounds + 1)]
        rates = Turns(rounds[1:])
        audited, replayed = rates.middles()
        told.tell(f"log, audit of {len(lines)} lines, {replies}: {audited:.0f} lines a second, replay {replayed:.0f}; {middle(rates)} times as many",
                  rates.ratio(), LEAST_AUDITED)


def measure_logs(program, options, cores, folder):
    """Measures logs of answers, and prints what came out."""
    print(SANITIZED, flush=True)
    told = LogsTold()
    compare_rates(program, options, cores, folder, told)
    compare_times(program, options, folder)
    compare_bytes(program, folder, told)
    compare_audits(program, options, folder, told)
    print(f"log: {told.missed} missed", flush=True)
