"""The sections of the page: what is run for each, and what is read from what it prints.

Each reader gives the section's Markdown, and the figures in it that README shows too, by the words of their rows there.
"""
import re
import statistics
from typing import Callable, Dict, List, NamedTuple, Tuple

from figures import Unexpected, count, megabytes, micro, milli, rows, seconds, table

FIND = "`findService` at a point, over 60,000 boundaries"
LOAD = "Loading 60,000 boundaries of 20 to 400 positions"
REPLIES = "Replies over TCP, one worker, 64 connections"
COMMIT = "A commit over TCP at 60,000 mappings, 99 of 100 within"
PLAIN = "Answers at points, beside a plain Rust server"

Read = Tuple[str, Dict[str, str]]

LINES = {
    "findService, found": "`findService`, found",
    "not found": "not found",
    "service not served": "service not served",
    "answered by a default": "answered by a default",
    "listServices": "`listServices`",
    "listServicesByLocation": "`listServicesByLocation`",
    "getServiceBoundary": "`getServiceBoundary`",
    "validation of an address": "validation of an address",
}
EDITS = ["publish", "replacement", "withdrawal"]


def grown(names: Dict[str, str], spent: Dict[Tuple[str, str], str], counted: Dict[Tuple[str, str], str], sizes: List[str]) -> List[List[str]]:
    """Rows of a table: what each name takes at both sizes, and the ratio of the instructions, where these are counted."""
    few, many = sizes
    return [
        [said, *(micro(spent[size, name]) for size in sizes), *([f"{int(counted[many, name]) / int(counted[few, name]):.2f}"] if counted else [])]
        for name, said in names.items()
    ]


def read_lines(text: str) -> Read:
    """What a line of each kind, an edit and a map cost at two sizes."""
    loads = rows(r"(\d+) mappings loaded: (\d+) nanoseconds for (\d+) bytes", text, 4)
    sizes = [size for size, _, _ in loads[:2]]
    found = rows(r"(\d+) mappings, (.+): (\d+) nanoseconds a line(?:, (\d+) instructions)?", text, 2 * len(LINES))
    found += rows(r"(\d+) mappings, (.+) and commit: (\d+) nanoseconds(?:, (\d+) instructions)?", text, 2 * len(EDITS))
    spent = {(size, name): nanoseconds for size, name, nanoseconds, _ in found}
    counted = {(size, name): number for size, name, _, number in found if number}
    if set(spent) != {(size, name) for size in sizes for name in (*LINES, *EDITS)} or len(counted) not in (0, len(spent)):
        raise Unexpected("a kind of line is measured, or counted, at one size alone")
    heads = [f"{int(size):,}" for size in sizes]
    (_, few, _), (_, many, size) = loads[:2]
    said = (
        f"Loading {heads[0]} boundaries takes {seconds(int(few) // 1_000)} s, and {heads[1]} {seconds(int(many) // 1_000)} s,"
        f" at {int(size) * 1_000 // int(many)} MB a second."
    )
    more = ["Instructions"] if counted else []
    lines = table(["Microseconds a line", *heads, *more], grown(LINES, spent, counted, sizes))
    edits = table(["Microseconds an edit and its commit", *heads, *more], grown({name: name for name in EDITS}, spent, counted, sizes))
    shown = {
        FIND: f"{micro(spent[sizes[1], 'findService, found'])} µs",
        LOAD: f"{seconds(int(many) // 1_000)} s",
    }
    return f"`replay`, boundaries of 20 to 400 positions, by processor time.\n\n{lines}\n\n{edits}\n\n{said}", shown


def read_workers(text: str) -> Read:
    """How much less four workers answer while a desk commits."""
    if re.search("^four workers: not measured", text, re.MULTILINE):
        raise Unexpected("four workers are not measured on fewer cores")
    found = rows(
        r"four workers, (\d+) connections, depth (\d+): \d+ replies a second, \d+ beside 100 commits a second, .+;"
        r" (\d+\.\d\d) \(\d+\.\d\d to \d+\.\d\d\) times as many", text, 2)
    said = " and ".join(f"{times} times ({depth} at a time)" for _, depth, times in found)
    return f"Beside 100 commits a second, four workers give {found[0][0]} connections {said} the replies.", {}


def read_cache(text: str) -> Read:
    """What a worker's cache saves."""
    found = rows(
        r"(\d+ boundar.+) of (\d+) positions: (\d+) nanoseconds a reply at points asked again and again, (\d+) at points asked once", text, 2)
    lines = [[f"{of} of {positions} positions", micro(again), micro(once)] for of, positions, again, once in found]
    said = "Processor time over TCP, 16 requests at a time. A worker keeps the places that it was asked for last."
    return f"{said}\n\n{table(['Microseconds a reply', 'Asked again', 'Asked once'], lines)}", {}


def read_connections(text: str) -> Read:
    """How long a line and a commit take over a connection."""
    late = rows(
        r"(\d+) mappings, nanoseconds within which half and 99 of a hundred come:"
        r" a reply (\d+) and (\d+), beside commits (\d+) and (\d+), a commit (\d+) and (\d+)", text, 2)
    lines = [
        [f"{int(mappings):,}", *(f"{micro(half)}, {micro(most)}" for half, most in zip(spans[::2], spans[1::2]))] for mappings, *spans in late
    ]
    said = table(["Half and 99 of 100 within microseconds, at mappings", "Reply", "Reply beside commits", "Commit"], lines)
    return f"One line at a time, beside 100 commits a second.\n\n{said}", {COMMIT: f"{milli(late[1][6])} ms"}


def read_memory(text: str) -> Read:
    """How much memory a replay takes."""
    (boundaries, lines, resident, share), = rows(r"(\d+) boundaries: (\d+) bytes of desk lines, at most (\d+) bytes resident; (.+) times", text, 1)
    return f"`replay` over {count(boundaries)} boundaries, {megabytes(lines)} MB of desk lines: {megabytes(resident)} MB, {share} times as much.", {}


def read_loaded(text: str) -> Read:
    """How long a server reads a map, and how much memory it takes."""
    (boundaries, lines, ready, first, commit, second), = rows(
        r"(\d+) boundaries, (\d+) bytes of desk lines: ready after (\d+) microseconds with (\d+) bytes resident;"
        r" the next edit and commit took (\d+) microseconds, then (\d+) bytes", text, 1)
    return (
        f"`serve --map` with {count(boundaries)} boundaries, {megabytes(lines)} MB of desk lines: ready after {seconds(ready)} s, with {megabytes(first)} MB."
        f" The first edit and its commit take {seconds(commit)} s; then it has {megabytes(second)} MB."
    ), {}


def read_gateway(text: str) -> Read:
    """How fast the gateway is."""
    (ratio, rate, fixed), = rows(r"one process: (.+) of the answers a second of a fixed body \((\d+) and (\d+)\)", text, 1)
    (four_ratio, ), = rows(r"four processes: (.+) of those of four with a fixed body", text, 1)
    (four, ), = rows(r"four processes: (.+) times one", text, 1)
    late = {name: span for span, name in rows(r"99 of a hundred answers within (.+) ms: (\w+), 32 connections", text, 3)}
    (many, times), = rows(r"(\d+) connections: (.+) times as long as with a fixed body, .+ of its answers a second", text, 1)
    lines = [
        ["one", count(rate), ratio, late["one"]],
        ["four", f"{four} times one", four_ratio, late["four"]],
    ]
    more = f"At {many} connections 99 of 100 answers come within {times} times those with a fixed body."
    return table(["Processes", "Answers a second", "Share of a fixed body's", "99 of 100 within, ms"], lines) + f"\n\n{more}", {}


SEEN = ["read", "drawn", "zoomed in", "dragged", "zoomed out", "asked", "searched"]


def read_page(text: str) -> Read:
    """What the page of a large map takes, to be made and in a browser."""
    (districts, lines, made, memory, size), = rows(
        r"([\d,]+) districts, (\d+) MB of desk lines: made in (\d+) s with (\d+) MB; the page has (.+) MB", text, 1)
    spent = dict(rows(rf"({'|'.join(SEEN)}): (\d+\.\d\d) s(?: of the main thread; .*)?", text, len(SEEN)))
    return (
        f"{districts} districts with crooked borders, {lines} MB of desk lines: `map-page` makes the page in {made} s with {memory} MB,"
        f" without findings, and it has {size} MB. Times are of the processor, in Chromium of the page's main thread.\n\n"
    ) + table(["The page", "Seconds"], [[name, spent[name]] for name in SEEN]), {}


def read_redis(text: str) -> Read:
    """How lostd compares with redis over TCP, how much more four workers answer, and what idle connections cost."""
    ratio = r"(\d+\.\d\d) \(\d+\.\d\d to \d+\.\d\d\)"
    (mappings, questions, version), = rows(r"(\d+) mappings, (\d+) questions, redis (\S+): .+", text, 1)
    beside = rows(rf"(\d+) connections?, depth (\d+): lostd (\d+) replies a second by .+, redis (\d+) by .+; {ratio} of redis, (\d+\.\d\d) by processor time.*", text, 4)
    four = rf"four workers, \d+ connections, depth (\d+): \d+ replies a second, one \d+, (.+); {ratio} times one.*"
    workers = [] if re.search("^four workers: not measured", text, re.MULTILINE) else rows(four, text, 2)
    (idle, busy, share), = rows(rf"(\d+) idle connections beside (\d+) connections, depth 1: .+; {ratio} times as many.*", text, 1)
    lines = [[connections, depth, count(mine), count(its), *ratios] for connections, depth, mine, its, *ratios in beside]
    first = table(["Connections", "Requests at a time", "lostd, replies a second", "redis", "Ratio", "By processor time"], lines)
    said = " and ".join(f"{times} times ({depth} at a time)" for depth, _, times in workers)
    more = f" Four workers, {workers[0][1]}, answer 64 connections {said} as fast as one." if workers else ""
    return (
        f"One worker and redis {version}, each on one core; {count(questions)} points all over {count(mappings)} mappings."
        " A GET has as many bytes as a request, and a value as a reply.\n\n"
        f"{first}\n\n{count(idle)} idle connections beside {busy} leave {share} of the replies.{more}"
    ), {REPLIES: f"{count(beside[-1][2])} a second"}


PLAIN_ROW = r" *([\d,]+)  (\S.*\S) {2,}(\S+) +(\S+) +(\d+\.\d\d)"
PLAIN_HEADS = ["Through replay", "Over TCP", "Instructions"]
HOT = "one hot point"
POINTS = ["points all over the map", "points around a city", HOT]


def plain_rows(text: str) -> List[List[Tuple[str, ...]]]:
    """The rows of the comparison's tables, in the order of their heads."""
    head, *parts = re.split(f"^({'|'.join(PLAIN_HEADS)})", text, flags=re.MULTILINE)
    found = [re.findall(f"^{PLAIN_ROW}$", part, re.MULTILINE) for part in parts[1::2]]
    if head.strip() or parts[::2] != PLAIN_HEADS or not all(found):
        raise Unexpected(f"{len(found)} tables, or an empty one")
    return found


def plain_name(name: str) -> str:
    """How the page calls what a row of the first two tables measures; empty where it leaves the row out."""
    depth = re.fullmatch(r"depth (\d+), by (.+)", name)
    if depth:
        return f"TCP, {depth[1]} at a time" if depth[2] == "processor time" else ""
    return name.partition(",")[0] if name.startswith(("loading", "most")) else name


def read_plain(text: str) -> Read:
    """How lostd compares with a plain Rust server that reads the same lines and is not proved."""
    replays, served, counted = plain_rows(text)
    sizes = list(dict.fromkeys(size for size, *_ in replays))
    named = [(size, plain_name(name), ratio) for size, name, *_, ratio in replays + served]
    named += [(size, "instructions of a point", ratio) for size, name, *_, ratio in counted if name == POINTS[0]]
    ratios = {(size, name): ratio for size, name, ratio in named if name}
    names = list(dict.fromkeys(name for _, name in ratios))
    if any((size, name) not in ratios for name in names for size in sizes if not name.startswith("instructions")):
        raise Unexpected(f"{len(ratios)} ratios of {len(names)} kinds at {len(sizes)} sizes")
    hot = [float(mine.replace(",", "")) for _, name, mine, *_ in replays if name == HOT]
    flat = f"\n\nOf {HOT}, lostd answers {hot[-1] / hot[1]:.2f} times as many at {sizes[-1]} mappings as at {sizes[1]}." if len(hot) > 2 else ""
    lines = [[name, *(ratios.get((size, name), "–") for size in sizes)] for name in names]
    said = "A share of what a server of the same lines in plain Rust has, by processor time: questions a second, loading time, memory. TCP is `--serve`, instructions `--instructions`."
    points = [float(ratio) for (_, name), ratio in ratios.items() if name in POINTS]
    return f"{said}\n\n{table(['Mappings', *sizes], lines)}{flat}", {PLAIN: f"{statistics.median(points):.1f} times as many"} if points else {}


class Section(NamedTuple):
    """A section of the page: its title, the check that is run with words, what reads its output, and other words it runs with."""

    title: str
    program: str
    words: List[str]
    read: Callable[[str], Read]
    more: List[List[str]] = []

    @property
    def command(self) -> str:
        """The first command, as the page shows it."""
        return " ".join([self.program, *self.words])


SECTIONS = [
    Section("Lines", "checks/speed/run", ["--only", "lines"], read_lines),
    Section("Readers", "checks/speed/run", ["--only", "workers"], read_workers),
    Section("Cache", "checks/speed/run", ["--only", "cache"], read_cache),
    Section("Connections", "checks/speed/run", ["--only", "connections"], read_connections),
    Section("Beside redis", "checks/redis/run", [], read_redis),
    Section("Beside a plain server", "checks/plain-server/run", [], read_plain, [["--serve"], ["--instructions", "--kinds", "anywhere"]]),
    Section("Memory", "checks/resident-memory/run", [], read_memory),
    Section("A large map", "checks/benchmarks/loaded-server", [], read_loaded),
    Section("Gateway", "checks/gateway/run", ["--speed"], read_gateway),
    Section("The page of a large map", "checks/map-page/run", [], read_page),
]
