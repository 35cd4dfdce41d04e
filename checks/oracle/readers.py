"""Compares the program with the oracle on odd lines, which its two readers take: the one of tokens and the one of trees.

Of an object that names a member twice the last one counts. The protocol promises nothing of it, but the two readers must
agree.
"""
from comparing import kinds_of, lostd
from many_lines import Judged, compare_many
from odd_lines import OddSession
from oracle import Replay, cut

BATCH = 64


def judge(seed):
    """What is judged of the session of a seed; the figure is whether it names a member twice."""
    session = OddSession(seed)
    replay = Replay(session.name, session.now)
    replies = replay.replies(session.given)
    is_same = lostd(session.given, session.name, session.now) == b"".join(replies)
    return Judged(seed, len(cut(session.given)), kinds_of(replies), replay.has_member_twice, is_same)


def compare_readers(wanted, first):
    """Compares sessions until so many lines were compared; how many sessions are the same, how many not, and kinds."""
    passed, failed, kinds, figures = compare_many(judge, OddSession, wanted, first, BATCH)
    print(f"{sum(figures)} of the sessions name a member twice")
    return passed, failed, kinds
