"""checks/benchmarks: what the checks print becomes docs/BENCHMARKS.md and five rows of README, with programs in their place
that print figures of no meaning."""
from __future__ import annotations

import os
import re
import subprocess
import tempfile
import unittest
from typing import Dict, List, Tuple

from tests.running import TOP

LINES = [
    "findService, found", "not found", "service not served", "answered by a default", "listServices", "listServicesByLocation", "getServiceBoundary",
]
ROADS = ["validation of an address"]
EDITS = ["publish", "replacement", "withdrawal"]


def measured(size: int, load: int, lines: List[str], edits: List[str], spent: int, counted: int) -> List[str]:
    """What a map costs."""
    return [
        f"{size} mappings loaded: {load} nanoseconds for 260000000 bytes",
        *[f"{size} mappings, {name}: {spent} nanoseconds a line, {counted} instructions" for name in lines],
        *[f"{size} mappings, {name} and commit: {2 * spent} nanoseconds, {3 * counted} instructions" for name in edits],
    ]


CORES = "each on a core that it shares with the load, since there are 4"
PRINTED: Dict[str, Dict[str, List[str]]] = {
    "speed": {
        "--only lines": [
            *measured(1024, 61_000_000, LINES, EDITS, 3412, 8000), *measured(60025, 3_412_345_000, LINES, EDITS, 11_800, 8240),
            *measured(1024, 5_000_000, ROADS, [], 3412, 8000), *measured(60025, 700_000_000, ROADS, [], 11_800, 8240),
        ],
        "--only workers": [
            f"four workers, 64 connections, depth {depth}: 200000 replies a second, 190000 beside 100 commits a second, {CORES}; 0.{90 + depth} (0.85 to 1.01) times as many"
            for depth in (1, 7)
        ],
        "--only cache": [
            f"{of} positions: {again} nanoseconds a reply at points asked again and again, {once} at points asked once"
            for of, again, once in (("10 boundaries of 400", 1700, 11_600), ("1 boundary of 200", 1300, 2400))
        ],
        "--only connections": [
            f"{mappings} mappings, nanoseconds within which half and 99 of a hundred come: a reply 17000 and 21000, beside commits 18000 and 27000,"
            " a commit 90000 and 290000" for mappings in (1024, 60025)
        ],
    },
    "redis": {
        "": [
            "1000 mappings, 10000 questions, redis 7.0.15: requests of 124 and 124 bytes, replies of 355 and 361",
            *[
                f"{peers}, depth {depth}: lostd 45678 replies a second by 0.51 of its core, redis 54321 by 0.49; 0.84 (0.80 to 0.88) of redis, 0.81 by processor time{wanted}"
                for peers, depth, wanted in (
                    ("1 connection", 1, "; met: at least 0.8"), ("1 connection", 16, "; MISSED: at least 0.85"),
                    ("64 connections", 1, "; met: at least 0.6"), ("64 connections", 16, ""),
                )
            ],
            "note: a server waited over 64 connections, depth 16: it had too few requests, or its core other work",
            *[
                f"four workers, 64 connections, depth {depth}: 200000 replies a second, one 58000, {CORES}; 3.{depth:02} (3.00 to 3.70) times one; met: at least 3.0"
                for depth in (1, 16)
            ],
            "10000 idle connections beside 64 connections, depth 1: 49000 replies a second, without them 50000; 0.98 (0.97 to 1.01) times as many; met: at least 0.9",
            "1 missed",
        ],
    },
    "plain-server": {
        words: [head, "mappings  what                           lostd       plain   lostd / plain", *[
            f"{size:>8}  {what:<24}{mine:>12}{its:>12}{ratio:>16}" for size, ratio in zip(sizes, ("0.61", "1.48", "1.52")) for what, mine, its in of
        ]]
        for words, head, sizes, of in (
            ("", "Through replay, by processor time; the middle of 5 rounds in turn. Questions: how many a second.", ("30", "1,000", "60,000"), (
                ("loading, seconds", "0.120", "0.080"), ("most memory, megabytes", "1,204", "998"), ("points all over the map", "412,001", "398,123"),
                ("one hot point", "412,001", "398,123"),
            )),
            ("--serve", "Over TCP, points all over the map, one connection: replies a second, the middle of 5 rounds in turn.", ("30", "1,000", "60,000"), (
                ("depth 1, by the clock", "41,001", "39,123"), ("depth 1, by processor time", "41,001", "39,123"),
            )),
            ("--instructions --kinds anywhere", "Instructions, by valgrind: of each desk line of the map, and of each of 2,000 questions of a kind.", ("30", "1,000"), (
                ("a desk line", "41,001", "39,123"), ("points all over the map", "5,123", "10,123"),
            )),
        )
    },
    "resident-memory": {"": ["60000 boundaries: 260000000 bytes of desk lines, at most 442000000 bytes resident; 1.70 times"]},
    "loaded-server": {
        "": [
            "60000 boundaries, 252000000 bytes of desk lines: ready after 3100000 microseconds with 470000000 bytes resident;"
            " the next edit and commit took 1400000 microseconds, then 570000000 bytes"
        ],
    },
    "gateway": {
        "--speed": [
            "one process: 0.55 of the answers a second of a fixed body (3357 and 6103)", "four processes: 0.51 of those of four with a fixed body",
            "four processes: 2.9 times one", *[f"99 of a hundred answers within {span} ms: {name}, 32 connections" for name, span in (("fixed", 8.0), ("one", 15.0), ("four", 7.0))],
            *[f"99 of a hundred answers within {span} ms: {name}, 200 connections" for name, span in (("fixed", 30.0), ("one", 42.0))],
            "200 connections: 1.40 times as long as with a fixed body, 0.72 of its answers a second",
            "ok: a check (90.0 s)", "0 failed",
        ],
    },
    "map-page": {
        "": [
            "60,000 districts, 152 MB of desk lines: made in 29 s with 747 MB; the page has 14.6 MB",
            "read: 1.16 s of the main thread; large.jsonl: 60,000 mappings, 60,000 polygons, 6,060,000 positions.", "drawn: 0.73 s",
            "zoomed in: 0.13 s", "dragged: 0.04 s", "zoomed out: 0.52 s", "asked: 0.05 s", "searched: 0.09 s",
        ],
    },
}
README = ["findService` at a point", "Loading", "Replies", "A commit", "Answers at points"]


def with_programs(folder: str, printed: Dict[str, Dict[str, List[str]]]) -> None:
    """Puts programs into a folder that print these lines at these words, and fail at any other."""
    for name, by_words in printed.items():
        cases = "".join(f"'{words}') cat << 'END'\n" + "\n".join(lines) + "\nEND\n;;\n" for words, lines in by_words.items())
        with open(f"{folder}/{name}", "w", encoding="utf-8") as file:
            file.write(f'#!/bin/sh\ncase "$*" in\n{cases}*) echo "no such word" >&2; exit 2;;\nesac\n')
        os.chmod(f"{folder}/{name}", 0o755)


class Benchmarks(unittest.TestCase):
    """Runs it with pages and programs in a folder of its own."""

    def setUp(self) -> None:
        made = tempfile.TemporaryDirectory()
        self.addCleanup(made.cleanup)
        self.folder = made.name
        os.makedirs(f"{self.folder}/docs")
        for name in ("README.md", "docs/BENCHMARKS.md"):
            self.write(name, open(f"{TOP}/{name}", encoding="utf-8").read())
        with_programs(self.folder, PRINTED)

    def write(self, name: str, text: str) -> None:
        with open(f"{self.folder}/{name}", "w", encoding="utf-8") as file:
            file.write(text)

    def read(self, name: str) -> str:
        with open(f"{self.folder}/{name}", encoding="utf-8") as file:
            return file.read()

    def run_check(self, *words: str) -> Tuple[int, str]:
        command = [f"{TOP}/checks/benchmarks/run", "--busy", "--programs", self.folder, "--pages", self.folder, *words]
        ran = subprocess.run(command, capture_output=True, text=True, timeout=60)
        return ran.returncode, ran.stderr

    def rows(self) -> List[str]:
        return [line for line in self.read("README.md").splitlines() if any(line.startswith((f"| {name}", f"| `{name}")) for name in README)]

    def test_all_sections_and_the_rows_of_readme(self) -> None:
        self.assertEqual(self.run_check(), (0, ""))
        page = self.read("docs/BENCHMARKS.md")
        self.assertEqual(re.findall("^## (.*)$", page, re.M), ["Lines", "Readers", "Cache", "Connections", "Beside redis", "Beside a plain server", "Memory", "A large map", "Gateway", "The page of a large map"])
        for row in (
            "| Microseconds a line | 1,024 | 60,025 | Instructions |", "| `findService`, found | 3.4 | 12 | 1.03 |",
            "| validation of an address | 3.4 | 12 | 1.03 |", "| withdrawal | 6.8 | 24 | 1.03 |",
            "Loading 1,024 boundaries takes 0.06 s, and 60,025 3.4 s, at 76 MB a second.",
            "Beside 100 commits a second, four workers give 64 connections 0.91 times (1 at a time) and 0.97 times (7 at a time) the replies.",
            "| 10 boundaries of 400 positions | 1.7 | 12 |", "| 1 boundary of 200 positions | 1.3 | 2.4 |", "| 60,025 | 17, 21 | 18, 27 | 90, 290 |",
            "| Mappings | 30 | 1,000 | 60,000 |", "| loading | 0.61 | 1.48 | 1.52 |", "| most memory | 0.61 | 1.48 | 1.52 |", "| points all over the map | 0.61 | 1.48 | 1.52 |",
            "| TCP, 1 at a time | 0.61 | 1.48 | 1.52 |", "| instructions of a point | 0.61 | 1.48 | – |",
            "Of one hot point, lostd answers 1.00 times as many at 60,000 mappings as at 1,000.",
            "| one | 3,360 | 0.55 | 15.0 |", "| read | 1.16 |", "| zoomed out | 0.52 |", "| 1 | 16 | 45,700 | 54,300 | 0.84 | 0.81 |", "| 64 | 1 | 45,700 | 54,300 | 0.84 | 0.81 |",
            f"10,000 idle connections beside 64 leave 0.98 of the replies. Four workers, {CORES}, answer 64 connections 3.01 times (1 at a time) and 3.16 times (16 at a time) as fast as one.",
        ):
            self.assertIn(f"\n{row}\n", page)
        self.assertEqual([row.rsplit("|", 2)[1].strip() for row in self.rows()], ["12 µs", "3.4 s", "45,700 a second", "0.29 ms", "1.5 times as many"])

    def test_a_section_that_fails_stays_as_it_was(self) -> None:
        self.assertEqual(self.run_check(), (0, ""))
        before = self.read("docs/BENCHMARKS.md")
        with_programs(self.folder, {"speed": {**PRINTED["speed"], "--only connections": ["nothing that is known"], "--only cache": []}})
        os.remove(f"{self.folder}/resident-memory")
        status, said = self.run_check()
        self.assertEqual((status, len(said.splitlines())), (1, 3), said)
        after = self.read("docs/BENCHMARKS.md")
        self.assertRegex(after, r"(?m)^`checks/speed/run --only connections`, \S+, commit .+\.$")
        self.assertEqual(re.sub(r"(?m)^(`[^`]*`), \S+, commit .+\.$", r"\1.", after), before)

    def test_figures_of_another_machine_are_left_out(self) -> None:
        self.write("docs/BENCHMARKS.md", "# Benchmarks\n\nMeasured on 2026-01-01 at commit 1234567, on another one.\n\n## Lines\n\nof a 286\n\n## Cache\n\nof a 286\n")
        self.assertEqual(self.run_check("--only", "cache"), (0, ""))
        page = self.read("docs/BENCHMARKS.md")
        self.assertNotIn("of a 286", page)
        self.assertEqual(re.findall("^## (.*)$", page, re.M), ["Cache"])

    def test_tables_beside_a_plain_server(self) -> None:
        whole = PRINTED["plain-server"]
        for words, kept in (("", [whole[""][0]]), ("", whole[""][:-1]), ("--serve", whole["--serve"][:2]), ("--serve", whole["--serve"][:-1]), ("--serve", whole[""])):
            with_programs(self.folder, {"plain-server": {**whole, words: kept}})
            status, said = self.run_check("--only", "plain server")
            self.assertEqual((status, len(said.splitlines())), (1, 1), said)

    def test_lines_without_instructions(self) -> None:
        plain = ["instructions: not counted: valgrind is missing", *[line.partition(" nanoseconds")[0] + " nanoseconds" + (
            " for 260000000 bytes" if "loaded" in line else "" if "commit" in line else " a line") for line in PRINTED["speed"]["--only lines"]]]
        with_programs(self.folder, {"speed": {"--only lines": plain}})
        self.assertEqual(self.run_check("--only", "lines"), (0, ""))
        page = self.read("docs/BENCHMARKS.md")
        for row in ("| Microseconds a line | 1,024 | 60,025 |", "| `findService`, found | 3.4 | 12 |", "| withdrawal | 6.8 | 24 |"):
            self.assertIn(f"\n{row}\n", page)
        for lines in ([*plain[:-1], f"{plain[-1]}, 7 instructions"], plain[:-1]):
            with_programs(self.folder, {"speed": {"--only lines": lines}})
            status, said = self.run_check("--only", "lines")
            self.assertEqual((status, len(said.splitlines())), (1, 1), said)

    def test_workers_on_few_cores(self) -> None:
        with_programs(self.folder, {"speed": {"--only workers": ["four workers: not measured, since there are 2 cores"]}})
        status, said = self.run_check("--only", "readers")
        self.assertEqual((status, len(said.splitlines())), (1, 1), said)

    def test_redis_on_few_cores(self) -> None:
        lines = [line for line in PRINTED["redis"][""] if not line.startswith("four workers")]
        with_programs(self.folder, {"redis": {"": [*lines, "four workers: not measured, since there are 2 cores"]}})
        self.assertEqual(self.run_check("--only", "beside redis"), (0, ""))
        self.assertRegex(self.read("docs/BENCHMARKS.md"), r"(?m)^10,000 idle connections beside 64 leave 0\.98 of the replies\.$")
        with_programs(self.folder, {"redis": {"": lines}})
        status, said = self.run_check("--only", "beside redis")
        self.assertEqual((status, len(said.splitlines())), (1, 1), said)

    def test_a_section_that_was_never_measured_is_left_out(self) -> None:
        self.assertEqual(self.run_check("--only", "cache"), (0, ""))
        self.assertEqual(re.findall("^## (.*)$", self.read("docs/BENCHMARKS.md"), re.M), ["Cache"])

    def test_mistakes(self) -> None:
        self.assertEqual(self.run_check("--only", "no such section")[0], 2)
        self.write("README.md", "# Nothing\n")
        status, said = self.run_check("--only", "connections")
        self.assertEqual((status, len(said.splitlines())), (1, 1), said)
