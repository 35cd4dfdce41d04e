"""How checks/serve looks at journals that crash: it must see what it is there for. Its modules are read by a Python of their own."""
from __future__ import annotations

import subprocess
import sys
import tempfile
import unittest

from tests import measuring
from tests.running import TOP

FRONT = """
import sys
sys.dont_write_bytecode = True
sys.path[:0] = [sys.argv[1] + "/tools", *(f"{sys.argv[1]}/checks/{name}" for name in ("serve", "oracle", "gateway"))]
"""
RECORD = r"""7 pwrite64(4</f/j.new>(deleted), "\x61\x62", 2, 0) = 2
7 fdatasync(4</f/j.new>(deleted) <unfinished ...>
8 write(2</f/other>, "\x61", 1) = 1
7 <... fdatasync resumed>)          = 0
7 pwrite64(4</f/j>, "\x63\x64\x65", 3, 2) = 2
7 ftruncate(4</f/j>, 3) = 0
7 fdatasync(4</f/j>) = -1 EIO (Input/output error) (INJECTED)
7 pwrite64(4</f/j>, "\x09", 1, 1 <unfinished ...>
8 +++ killed by SIGKILL +++
7 <... pwrite64 resumed>)           = ?
"""
RECORDED = FRONT + r"""
from recorded import Record
from tearing import Crashed
calls = Record(sys.argv[2], "/f/j").calls()
for call in calls:
    print(call.name, call.at, call.data, call.is_done, call.is_failed)
crashed = Crashed(b"", calls)
print(crashed.flushed, len(crashed.since), crashed.last, crashed.may_be(b"abc"), crashed.may_be(b"a\tc"), crashed.may_be(b"a\t"))
"""
CALLS = r"""pwrite64 0 b'ab' True False
fdatasync 0 b'' True False
pwrite64 2 b'cd' True False
ftruncate 3 b'' True False
fdatasync 0 b'' False True
pwrite64 1 b'\t' False False
b'ab' 3 b'abc' True True False
"""
TORN = FRONT + r"""
from recorded import CUT, FLUSH, WRITE, Call
from spelling import Dice
from tearing import STALE, TEARS, Crashed

def call(name, at, data=b""):
    return Call(name, at, data, True, False)

before = bytes(range(100))
calls = [call(WRITE, 90, b"n" * 30), call(WRITE, 40, b"\t"), call(WRITE, 60, b"m" * 9)]
found, lengths, gates = {kind: set() for kind in [*TEARS, STALE]}, set(), set()
for seed in range(300):
    for kind in found:
        torn = Crashed(before, calls).torn(Dice(seed), kind)
        found[kind].add(torn)
        lengths.add(len(torn))
        gates.add(torn[40])
        assert torn[:40] == before[:40] and torn[41:60] == before[41:60] and torn[69:90] == before[69:90]
    cut = Crashed(before, calls).shorter(Dice(seed))
    assert 100 <= len(cut) <= 120 and (before[:40] + b"\t" + before[41:60] + b"m" * 9 + before[69:90] + b"n" * 30).startswith(cut)
print(gates == {40, 9}, min(lengths), max(lengths), {kind: len(kinds) > 2 for kind, kinds in found.items()})
torn = {Crashed(before, [call(CUT, 50)]).torn(Dice(seed), TEARS[0]) for seed in range(300)}
print(min(map(len, torn)), max(map(len, torn)), all(before.startswith(one) for one in torn))
print(Crashed(before, [*calls, call(FLUSH, 0)]).torn(Dice(1), TEARS[1]) == Crashed(before, calls).last)
"""
TORN_WANTED = """True 100 120 {'nothing': False, 'half': True, 'zeros': False, 'garbage': True, 'mixed': True, 'stale': True}
50 100 True
True
"""
JUDGED = FRONT + r"""
from flipped import DAMAGED, Flip, Journal, Read, judged
from ledger import NOT_KEPT, Ledger
from plain_lines import LIST, publish, services_reply
from server import COMMIT

def told(*turn):
    ledger = Ledger()
    ledger.take_turn([(publish(1), b'{"staged":{"pending":1}}'), (COMMIT, b'{"committed":{"edition":1}}'), *turn])
    return ledger

pending, commit = (publish(2), b'{"staged":{"pending":1}}'), (COMMIT, None)
print([[told(pending, commit).settle(edition) for edition in range(4)], [told(pending).settle(edition) for edition in range(3)]])
ledger = told(pending, (COMMIT, NOT_KEPT))
print(ledger.settle(1), ledger.not_kept, len(ledger.kept), ledger.differences.count)
ledger = told(pending, commit)
ledger.settle(2)
line = b'{"commit":{"edition":%d}}'
ledger.look_at_file(b"\n".join([line % 0, publish(1), line % 1, publish(2), line % 2, b""]))
ledger.judge({(LIST, services_reply(1, "sos")), (LIST, services_reply(2, "sos"))})
print(ledger.differences.count)
ledger.look_at_file(b"\n".join([line % 0, publish(1), line % 1, publish(3), line % 2, b""]))
ledger.look_at_file(b"\n".join([line % 0, publish(1), publish(2), line % 2, b""]))
ledger.judge({(LIST, services_reply(3, "sos")), (LIST, services_reply(1, "sos.police"))})
ledger.look_at_page(b"ready\nedition 2\nmap " + b"0" * 32 + b"\n")
print(ledger.differences.count)

journal = Journal(b"x" * 50, 40, (1, "a"), (2, "b"))
damage = Read(DAMAGED, "lostd: j: line 1, offset 0: it is so\n", ())
for place, read, file in (
    (3, damage, b"f"), (3, Read(0, "", (2, "b")), b"f"), (45, Read(0, "", (1, "a")), b"f"),
    (3, Read(0, "", (1, "a")), b"f"), (45, Read(0, "", (1, "b")), b"f"), (3, damage, b""), (3, Read(1, damage.said, ()), b"f"), (3, Read(3, "", ()), b"f"),
):
    print(judged(journal, Flip(place, 1), read, file, b"f")[1] == "", end=" ")
"""
JUDGED_WANTED = """[[False, True, True, False], [False, True, False]]
True 1 1 0
0
5
True True True False False False False False """


class Crashes(unittest.TestCase):
    """What a crash may leave, and what is then looked for."""

    def shown(self, script: str, wanted: str, *words: str) -> None:
        """A script prints what is wanted, and says nothing."""
        ran = subprocess.run([sys.executable, "-c", script, TOP, *words], capture_output=True, text=True, timeout=60)
        self.assertEqual((ran.stdout, ran.stderr), (wanted, ""))

    def test_the_record_of_calls(self) -> None:
        with tempfile.TemporaryDirectory() as folder:
            with open(f"{folder}/calls", "w", encoding="ascii") as file:
                file.write(RECORD)
            self.shown(RECORDED, CALLS, folder)

    def test_what_is_torn(self) -> None:
        self.shown(TORN, TORN_WANTED)

    def test_what_is_wrong_is_seen(self) -> None:
        self.shown(JUDGED, JUDGED_WANTED)


class JournalSpeedTests(measuring.Refusing):
    """checks/journal-speed: its command line."""

    check = "journal-speed/run"
    mistakes = [["--only", "start"], ["--rounds", "0"], ["--edits", "64001"], ["--seconds", "0"], ["x"]]
