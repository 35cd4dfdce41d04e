"""How checks/replicas judges: it must see what it is there for. The modules of the checks are read by a Python of their own."""
from __future__ import annotations

import subprocess
import sys
import unittest

from tests.running import TOP

JUDGED = """
import sys
sys.dont_write_bytecode = True
sys.path[:0] = [sys.argv[1] + "/tools", *(f"{sys.argv[1]}/checks/{name}" for name in ("replicas", "serve", "oracle", "gateway"))]
from types import SimpleNamespace
from faults import OUT, Odd
from history import History, questions
from judging import Replies, differing_servers, lost_commits
from publisher import COMMIT, Told
from verdicts import Books, Question
from watching import Seen

one, other = "1" * 32, "2" * 32
rows = [[3, one, "a"], [5, other, "b"]]
print(lost_commits([Told(0.0, 3, one, "a"), Told(0.0, 5, other, "b")], rows))
print(len(lost_commits([Told(0.0, 3, other, "a"), Told(0.0, 5, other, "x"), Told(0.0, 6, one, "c")], rows)))
seen = [Seen(1.0, "a", 3, one), Seen(1.0, "a", 0, "0" * 32)]
print(differing_servers(seen, rows, []))
odd = [Odd(10.0, 10.0, "a", 6)]
wrong = [Seen(10.0 + OUT / 2, "a", 6, one), Seen(10.0 + OUT / 2, "b", 6, one), Seen(10.1 + OUT, "a", 6, one), Seen(9.0, "a", 5, one)]
print([(each.name, each.moment) for each in wrong if differing_servers([each], rows, odd)] == [("b", 11.0), ("a", 12.1), ("a", 9.0)])

books, history = Books(), History(1)
for _ in range(30):
    for line in [*map(str.encode, history.commit()), COMMIT]:
        assert b"refused" not in books.wanted(line)
    books.by_edition[books.last()] = books.oracle.published
editions = list(books.by_edition)
replies = {(line, Question(line, books.oracle).wanted(books.by_edition[edition])): (1.0, 2.0) for line in questions() for edition in editions}
judged = Replies([SimpleNamespace(replies=replies)], books, odd)
print(judged.wrong(), judged.different == len(replies) > 500, judged.of_odd)
late = next(reply for (line, reply) in replies if b"sip:" in reply)
line = next(line for (line, reply) in replies if reply == late)
odd = [Odd(10.0, 10.0, "a", 1)]
for moments in ((1.0, 2.0), (10.5, 11.0), (10.5, 13.0)):
    judged = Replies([SimpleNamespace(replies={(line, late.replace(b"sip:", b"sip:x")): moments})], books, odd)
    print(len(judged.wrong()), judged.of_odd)
"""
WANTED = """[]
3
[]
True
[] True 0
1 0
0 1
1 0
"""


class Judging(unittest.TestCase):
    """What is judged once a run is over."""

    def test_what_is_wrong_is_seen(self) -> None:
        ran = subprocess.run([sys.executable, "-c", JUDGED, TOP], capture_output=True, text=True, timeout=60)
        self.assertEqual((ran.stdout, ran.stderr), (WANTED, ""))
