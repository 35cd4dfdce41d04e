"""Compares sessions on all processors until so many lines were compared."""
import itertools
import multiprocessing
import os
from collections import Counter
from typing import NamedTuple

from comparing import lostd
from oracle import Replay, cut

MOST_SHOWN = 5


class Judged(NamedTuple):
    """Of the session of a seed: how many lines it has, the kinds of replies, a figure, and whether the program replies the same."""

    seed: int
    lines: int
    kinds: Counter
    figure: int
    is_same: bool


def judgements(judge, first, batch, prepare):
    """What is judged of the sessions of all seeds from one on."""
    with multiprocessing.Pool(os.cpu_count(), prepare) as pool:
        for begin in itertools.count(first, batch):
            yield from pool.imap(judge, range(begin, begin + batch))


def compare_many(judge, session_of, wanted, first, batch, prepare=None):
    """Compares sessions until so many lines were compared; how many are the same, how many not, kinds, and all figures."""
    kinds, lines, figures, results = Counter(), 0, [], Counter()
    for judged in judgements(judge, first, batch, prepare):
        lines, kinds = lines + judged.lines, kinds + judged.kinds
        figures.append(judged.figure)
        results[judged.is_same] += 1
        if not judged.is_same:
            print(f"session of seed {judged.seed}: WRONG", flush=True)
            if results[False] <= MOST_SHOWN:
                show_first_difference(session_of(judged.seed))
        if lines >= wanted:
            break
    print(f"{sum(results.values())} sessions and {lines} lines were compared; {results[False]} sessions differ")
    return results[True], results[False], kinds, figures


def show_first_difference(session):
    """Prints the first line of a session that is answered otherwise, with both replies."""
    of_oracle = cut(b"".join(Replay(session.name, session.now).replies(session.given)))
    of_lostd = cut(lostd(session.given, session.name, session.now))
    for number, (line, reply, other) in enumerate(zip(session.lines, of_lostd, of_oracle), 1):
        if reply != other:
            print(f"  line {number} of lostd replay --name {session.name} --now {session.now}")
            print(f"  {line.decode(errors='backslashreplace')}")
            print(f"    lostd:  {reply.decode(errors='backslashreplace')}")
            print(f"    oracle: {other.decode()}", flush=True)
            return
