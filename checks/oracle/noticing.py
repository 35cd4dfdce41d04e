"""Whether the comparison on random sessions notices wrong readings of the rules.

A reading that it does not notice is a rule that the sessions do not check.
"""
import contextlib

from comparing import lostd, oracle_replies
from sessions import Session
from wrong_readings import CHANGES_NOTHING, HOLDERS, RIGHT, WRONG_READINGS


@contextlib.contextmanager
def standing_in(name, stand_in):
    """Puts a function or a constant in the place of the right one, wherever the oracle has it."""
    right = RIGHT[name]
    holders = [holder for holder in HOLDERS if vars(holder).get(name) is right]
    for holder in holders:
        setattr(holder, name, stand_in)
    try:
        yield
    finally:
        for holder in holders:
            setattr(holder, name, right)


def first_noticed(recorded):
    """The number of the first session where the oracle's replies are not those of the program; None where all are."""
    for number, (session, replies) in enumerate(recorded, 1):
        if b"".join(oracle_replies(session.given, session.name, session.now)) != replies:
            return number
    return None


def record(count, first):
    """The sessions of seeds, each with the replies of the program."""
    for session in map(Session, range(first, first + count)):
        if oracle_replies(session.given, session.name, session.now) is not None:
            yield session, lostd(session.given, session.name, session.now)


def compare_wrong_readings(count, first):
    """Compares each reading: the wrong ones should be noticed, and no others; how many are as they should, and not."""
    recorded = list(record(count, first))
    readings = [("the oracle as it is", "replay", RIGHT["replay"], False)]
    readings += [(*reading, True) for reading in WRONG_READINGS] + [(*reading, False) for reading in CHANGES_NOTHING]
    print(f"{len(readings)} readings on {len(recorded)} sessions", flush=True)
    passed = 0
    for text, name, stand_in, is_wrong in readings:
        with standing_in(name, stand_in):
            number = first_noticed(recorded)
        is_right = is_wrong == (number is not None)
        told = f"noticed at session {number}" if number else "changes nothing"
        print(f"{text}: {'' if is_right else 'WRONG: '}{told}", flush=True)
        passed += is_right
    return passed, len(readings) - passed
