"""Random sessions through readers that keep places: the program `rows_gate`, over a folder of sessions with the oracle's replies.

With a file of limits beside a session its desk has these, and not the widest: so refusals 18, 19 and 22 come after a few edits.
"""
import os
import subprocess
import sys
import tempfile
from collections import Counter

from comparing import TOP, kinds_of, oracle_replies
from noticing import standing_in
from sessions import Session

PROGRAM = f"{TOP}/crates/rows_gate/out/rows_gate"
NAME, NOW = "lost.example", "2026-01-01T00:00:00Z"


def write(folder, seed):
    """Writes the session of a seed and the oracle's replies; the replies, or None: of a member named twice nothing is promised."""
    given = Session(seed).given
    replies = oracle_replies(given, NAME, NOW)
    if replies is not None:
        write_files(folder, seed, jsonl=given, expected=b"".join(replies))
    return replies


def write_limited(folder, seed):
    """The same for a desk of small limits, which are drawn: how many mappings, edits and traces it has at most."""
    dice = Session(seed).dice
    mappings, edits, traces = dice.randint(1, 6), dice.choice([dice.randint(1, 12), 30]), dice.randint(1, 3)
    with standing_in("MOST_MAPPINGS", mappings), standing_in("MOST_EDITS", edits), standing_in("MOST_TRACES", traces):
        replies = write(folder, seed)
    if replies is not None:
        write_files(folder, seed, limits=b"%d %d %d" % (mappings, edits, traces))
    return replies


def write_files(folder, seed, **contents):
    """Writes files of a session, by their endings."""
    for ending, content in contents.items():
        with open(f"{folder}/sessions/{seed:07}.{ending}", "wb") as file:
            file.write(content)


def compare_written(write_one, seeds):
    """Compares the replies of the program with those that are written; how many sessions are the same, how many not, and kinds."""
    if not os.path.exists(PROGRAM):
        sys.exit(f"{PROGRAM} is not built yet: rt run in crates/rows_gate builds it")
    with tempfile.TemporaryDirectory() as folder:
        os.mkdir(f"{folder}/sessions")
        written = [replies for replies in (write_one(folder, seed) for seed in seeds) if replies is not None]
        ran = subprocess.run([PROGRAM, "sessions"], cwd=folder, capture_output=True, text=True)
    same = [line for line in ran.stdout.splitlines() if line.endswith(": as expected")]
    for line in ran.stdout.splitlines()[1:]:
        if line not in same:
            print(f"seed {line}")
    print(f"{len(written)} sessions were compared, {len(seeds) - len(written)} left out: a member is named twice")
    return len(same), len(written) - len(same), sum(map(kinds_of, written), Counter())


def compare_kept_places(count, first):
    """Compares the replies of replay and of readers that keep 1, 2 and 1,024 places; how many sessions are the same, how many not."""
    return compare_written(write, range(first, first + count))[:2]


def compare_limits(count, first):
    """Compares sessions at desks of small limits; how many are the same, how many not, and whether refusals 18, 19 and 22 came."""
    passed, failed, kinds = compare_written(write_limited, range(first, first + count))
    missing = [kind for kind in ("refused 18 Full", "refused 19 EditsSpent", "refused 22 TracesFull") if not kinds[kind]]
    for kind in missing:
        print(f"{kind}: WRONG: it never came")
    return passed, failed + len(missing)
