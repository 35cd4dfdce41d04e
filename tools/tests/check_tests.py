"""`lostd check` over rows of lines, and `lostd replay` over the sessions of examples/. Skipped where no program is built."""
from __future__ import annotations

import os
import subprocess
import tempfile
import unittest
from typing import List, Tuple

from building.sessions import differing
from tests.running import CASES, TOP, lostd

ROWS = f"{CASES}/checks"
MOST_MAPPINGS = 65_536
MOST_TRACES = 65_536
MOST_BYTES = 1_048_576
COMMIT = '{"commit":{}}\n'


def publish(number: int, day: int) -> str:
    """The publish of a default with this number as its sourceId, with a stamp of this day."""
    front = f'"default":true,"expires":"NO-CACHE","lastUpdated":"2025-12-0{day}T00:00:00Z","service":"urn:service:sos"'
    return f'{{"publish":{{{front},"source":"map.example","sourceId":"{number}","uri":["sip:a"]}}}}\n'


def withdrawal(number: int) -> str:
    """Its withdrawal, on the second day."""
    return f'{{"withdraw":{{"lastUpdated":"2025-12-02T00:00:00Z","source":"map.example","sourceId":"{number}"}}}}\n'


def check(lines: bytes) -> Tuple[int, str]:
    """The status and the report of a check."""
    words = [str(lostd()), "check", "--name", "lost.example", "--now", "2026-01-01T00:00:00Z"]
    ran = subprocess.run(words, input=lines, capture_output=True, timeout=60)
    return ran.returncode, ran.stdout.decode()


def done(lines: int, refused: int = 0, bad: int = 0, memory: int = 0, edition: int = 0) -> str:
    """The last line of a report."""
    return f"done lines={lines} refused={refused} badRequest={bad} internalError={memory} edition={edition}\n"


@unittest.skipUnless(lostd(), "no program is built")
class CheckTests(unittest.TestCase):
    """The reports of checks."""

    def test_rows(self) -> None:
        """Each row of the folder: NAME.jsonl has the lines, NAME.expected the report."""
        names = sorted(name[:-6] for name in os.listdir(ROWS) if name.endswith(".jsonl"))
        self.assertEqual(len(names), 9)
        for name in names:
            with open(f"{ROWS}/{name}.jsonl", "rb") as lines, open(f"{ROWS}/{name}.expected", encoding="utf-8") as report:
                self.assertEqual(check(lines.read()), (3, report.read()), name)

    def test_files(self) -> None:
        """Files are checked each by itself, without a name and a time; several behind their names. The first that cannot be read
        ends the check."""
        with tempfile.TemporaryDirectory() as folder:
            good, bad, missing = (f"{folder}/{name}.jsonl" for name in ("good", "bad", "missing"))
            for path, lines in ((good, publish(1, 1) + COMMIT), (bad, publish(1, 1) * 2 + COMMIT)):
                with open(path, "w", encoding="utf-8") as file:
                    file.write(lines)
            held = 'line 2: 13 IdentityHeld: map.example / 1 is held: send it as replace\n'
            for words, status, told, said in (
                ([good], 0, done(2, edition=1), ""),
                ([bad], 3, held + done(3, refused=1, edition=1), ""),
                ([good, bad, good], 3, f"{good}:\n{done(2, edition=1)}{bad}:\n{held}{done(3, refused=1, edition=1)}{good}:\n{done(2, edition=1)}", ""),
                ([missing], 1, "", f"lostd: '{missing}' cannot be read: there is no such file\n"),
                ([folder], 1, "", f"lostd: '{folder}' cannot be read: it is a folder\n"),
                ([missing, good], 1, f"{missing}:\n", f"lostd: '{missing}' cannot be read: there is no such file\n"),
            ):
                with self.subTest(words):
                    ran = subprocess.run([str(lostd()), "check", *words], capture_output=True, timeout=60)
                    self.assertEqual((ran.returncode, ran.stdout.decode(), ran.stderr.decode()), (status, told, said))

    def test_full(self) -> None:
        """One mapping more than may be held."""
        told = "line 65537: 18 Full: 65536 mappings are held, and no more may be\n"
        lines = "".join(publish(number, 1) for number in range(MOST_MAPPINGS + 1))
        self.assertEqual(check(lines.encode()), (3, told + done(MOST_MAPPINGS + 1, refused=1)))

    def test_traces_full(self) -> None:
        """One withdrawal more than can be remembered. Once a mapping is published again, the same withdrawal is accepted."""
        told = (
            "line 131074: 22 TracesFull: 65,536 withdrawn mappings are remembered, and no more can be: "
            "publish one of them again\n"
        )
        pairs = "".join(publish(number, 1) + withdrawal(number) for number in range(MOST_TRACES + 1))
        lines = pairs + publish(0, 3) + withdrawal(MOST_TRACES)
        self.assertEqual(check(lines.encode()), (3, told + done(2 * MOST_TRACES + 4, refused=1)))

    def test_too_long(self) -> None:
        """A line of one byte more than a line may have, and a good line."""
        told = "line 1: badRequest: the line has more than 1048576 bytes\n"
        self.assertEqual(check((" " * (MOST_BYTES + 1) + "\n" + COMMIT).encode()), (3, told + done(2, bad=1)))

    def test_a_line_without_its_memory(self) -> None:
        """A request that wants more memory than its line may take, and a good line."""
        places = ",".join(['{"id":"p","profile":"none"}'] * 37_000)
        line = f'{{"findService":{{"service":"urn:service:sos","location":[{places}]}}}}\n'
        told = "line 1: internalError: memory ran out\n"
        self.assertEqual(check((line + COMMIT).encode()), (3, told + done(2, memory=1)))


def square(verb: str, number: int, day: int = 1) -> str:
    """The edit of a small square of its own by its number, with a stamp of this day."""
    front = f'"lastUpdated":"2025-12-0{day}T00:00:00Z","source":"map.example","sourceId":"M-{number}"'
    if verb == "withdraw":
        return f'{{"withdraw":{{{front}}}}}\n'
    south, west = number // 256 * 10, number % 256 * 10
    ring = f"[[{south},{west}],[{south},{west + 10}],[{south + 10},{west + 10}],[{south + 10},{west}],[{south},{west}]]"
    region = f'"serviceBoundary":[{{"polygon":{ring},"profile":"geodetic-2d"}}]'
    rest = f'"expires":"NO-EXPIRATION","key":"K-{number}","service":"urn:service:sos.police",{region},"uri":["sip:m@map.example"]'
    return f'{{"publish":{{{front},{rest}}}}}\n'


def replies(lines: str) -> List[str]:
    """The replies of a replay; those to accepted edits are empty, if they count what is staged."""
    words = [str(lostd()), "replay", "--name", "lost.example", "--now", "2026-01-01T00:00:00Z"]
    ran = subprocess.run(words, input=lines.encode(), capture_output=True, timeout=60, check=True)
    said, staged = [], 0
    for reply in ran.stdout.decode().splitlines():
        is_staged = reply == f'{{"staged":{{"pending":{staged + 1}}}}}'
        staged += is_staged
        said.append("" if is_staged else reply)
    return said


@unittest.skipUnless(lostd(), "no program is built")
class FullTests(unittest.TestCase):
    """A map of as many mappings as may be held, and one of as many withdrawals as can be remembered."""

    def test_mappings(self) -> None:
        """Once one of them is withdrawn, one more is accepted, and not two."""
        lines = "".join(square("publish", number) for number in range(MOST_MAPPINGS + 1))
        lines += square("withdraw", 0, 2) + square("publish", 70_000) + square("publish", 70_001) + COMMIT
        full = '{"refused":{"code":18,"name":"Full"}}'
        self.assertEqual(replies(lines), [""] * MOST_MAPPINGS + [full, "", "", full, '{"committed":{"edition":65538}}'])

    def test_withdrawals(self) -> None:
        """All that are remembered count: a publish must be newer than each. Once one is published, one more is accepted."""
        pairs = (square("publish", number) + square("withdraw", number, 2) for number in range(MOST_TRACES + 1))
        edits = [("publish", 0, 2), ("publish", 32_768, 2), ("publish", 65_535, 2), ("publish", 0, 3), ("publish", 65_535, 2)]
        edits += [("publish", 32_768, 2), ("withdraw", 65_536, 2), ("withdraw", 0, 4)]
        full, gone = '{"refused":{"code":22,"name":"TracesFull"}}', '{"refused":{"code":21,"name":"Withdrawn"}}'
        wanted = [""] * (2 * MOST_TRACES + 1) + [full, gone, gone, gone, "", gone, gone, "", full]
        lines = "".join(pairs) + "".join(square(*edit) for edit in edits) + COMMIT
        self.assertEqual(replies(lines), [*wanted, '{"committed":{"edition":131075}}'])


@unittest.skipUnless(lostd(), "no program is built")
class SessionTests(unittest.TestCase):
    """The sessions of examples/."""

    def test_sessions(self) -> None:
        """A replay gives the replies that stand beside each session."""
        names, count = differing(TOP, str(lostd()))
        self.assertEqual(names, [])
        self.assertGreater(count, 30)
