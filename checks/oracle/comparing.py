"""Compares the program with the oracle, counts the kinds of replies, and shrinks a session that differs."""
import itertools
import json
import os
import subprocess
from collections import Counter

from oracle import Replay, cut

TOP = os.path.dirname(os.path.dirname(os.path.dirname(os.path.realpath(__file__))))
PROGRAM = os.environ.get("LOSTD", f"{TOP}/crates/lostd/out/lostd")
MOST_STEPS, MOST_TRIES = 30, 100


def lostd(given, name, now):
    """The output of the program; where it did not end well, what it said stands behind it."""
    words = [PROGRAM, "replay", "--name", name, "--now", now]
    ran = subprocess.run(words, input=given, capture_output=True, timeout=60)
    if ran.returncode == 0 and not ran.stderr:
        return ran.stdout
    return ran.stdout + b"status %d: %b\n" % (ran.returncode, ran.stderr)


def oracle_replies(given, name, now):
    """The oracle's replies; None where an object names a member twice, since no reading of that is promised."""
    replay = Replay(name, now)
    replies = replay.replies(given)
    return None if replay.has_member_twice else replies


def differs(lines, name, now):
    """Whether the program and the oracle reply otherwise to lines."""
    given = b"\n".join(lines) + b"\n"
    replies = oracle_replies(given, name, now)
    return replies is not None and b"".join(replies) != lostd(given, name, now)


def smaller_values(value):
    """The values that have one member or item less, somewhere inside."""
    if isinstance(value, dict):
        for name in value:
            yield {other: value[other] for other in value if other != name}
            yield from (value | {name: smaller} for smaller in smaller_values(value[name]))
    if isinstance(value, list):
        for place, item in enumerate(value):
            yield value[:place] + value[place + 1 :]
            yield from (value[:place] + [smaller] + value[place + 1 :] for smaller in smaller_values(item))


def smaller_lines(line):
    """The lines of smaller values; none where the line is no JSON."""
    try:
        values = smaller_values(json.loads(line))
        yield from (json.dumps(value, separators=(",", ":"), ensure_ascii=False).encode() for value in values)
    except ValueError:
        return


def with_fewer_lines(lines, name, now):
    """Leaves out each line, the last one first, without which the session differs still."""
    for place in reversed(range(len(lines))):
        fewer = lines[:place] + lines[place + 1 :]
        if differs(fewer, name, now):
            lines = fewer
    return lines


def with_smaller_line(lines, place, name, now):
    """Makes one line smaller, step by step, while the session differs still."""
    for _ in range(MOST_STEPS):
        sessions = (lines[:place] + [line] + lines[place + 1 :] for line in smaller_lines(lines[place]))
        tried = itertools.islice(sessions, MOST_TRIES)
        smaller = next((session for session in tried if differs(session, name, now)), None)
        if smaller is None:
            return lines
        lines = smaller
    return lines


def shrink(lines, name, now):
    """A smaller session that differs too."""
    lines = with_fewer_lines(lines, name, now)
    for place in range(len(lines)):
        lines = with_smaller_line(lines, place, name, now)
    return lines


def show_difference(lines, name, now):
    """Prints a session that differs, as small as can be, with both replies to a line where they are not the same."""
    lines = shrink(lines, name, now)
    given = b"\n".join(lines) + b"\n"
    of_lostd, of_oracle = cut(lostd(given, name, now)), cut(b"".join(oracle_replies(given, name, now)))
    print(f"  lostd replay --name {name} --now {now}")
    for line, reply, other in itertools.zip_longest(lines, of_lostd, of_oracle, fillvalue=b"nothing"):
        print(f"  {line.decode(errors='backslashreplace')}")
        if reply != other:
            print(f"    lostd:  {reply.decode(errors='backslashreplace')}")
            print(f"    oracle: {other.decode()}", flush=True)


def kinds_of(replies):
    """How often each refusal, error, warning and other kind of reply came."""
    kinds = Counter()
    for reply in map(json.loads, replies):
        ((kind, members),) = reply.items()
        if kind == "refused":
            kinds[f"refused {members['code']} {members['name']}"] += 1
        elif kind == "errors":
            kinds[f"error {members['error']}"] += 1
        else:
            kinds[f"reply {kind}"] += 1
            kinds.update(f"warning {warning}" for warning in members.get("warnings", ()))
    return kinds
