"""Mistakes on the command line of a server: its status, and the one line that it says, which names the option."""
import socket
import subprocess

from plain_lines import differs
from server import NAME, PATIENCE, free_ports

NOBODY = 65534
FREE = "127.0.0.1:0"
OPTIONS = {"--name": NAME, "--queries": FREE, "--desk": FREE, "--workers": "1", "--connections": "1"}
# The option, its value, and the status. (tools/cases/command.rows has more, each with the whole line that is said.)
VALUES = [
    ("--queries", "", 1), ("--queries", "127.0.0.1:", 1), ("--desk", ":lost", 1), ("--desk", "127.0.0.1:65536", 1),
    ("--desk", "127.0.0.1:-1", 1), ("--queries", "no-such-host.invalid:5222", 1), ("--desk", "192.0.2.1:0", 1),
    ("--workers", "", 2), ("--connections", "99999999999999999999", 2), ("--idle", "1.5", 2), ("--desk-idle", "1.5", 2),
    ("--status", "192.0.2.1:0", 1), ("--desk", "unix:/", 1), ("--queries", "unix:/" + "x" * 200, 1), ("--desk", "unix:/dev/null", 1),
    ("--socket-mode", "8", 2), ("--name", "", 2), ("--queries", None, 2), ("--workers", None, 2), ("--name", None, 2),
    ("--now", "2026-01-01T00:00:00Z", 2),
]


def mistake(program, option, value, status, user=None):
    """What is wrong with the end of a server whose option has this value; None leaves the option out."""
    given = {**OPTIONS, option: value}
    words = ["lostd", "serve"] + [word for pair in given.items() if pair[1] is not None for word in pair]
    try:
        ran = subprocess.run(words, executable=program, capture_output=True, timeout=PATIENCE / 2, user=user)
    except subprocess.TimeoutExpired:
        return [f"{option} {value}: it went on"]
    said = ran.stderr.decode()
    is_right = said.startswith("lostd: ") and said.count("\n") == 1 and said.endswith("\n") and option in said
    wrong = [] if is_right else [f"{option} {value}: it said {said!r}"]
    return wrong + differs(f"{option} {value}: status and output", (ran.returncode, ran.stdout), (status, b""))


def bad_values(program, is_long):
    """a value out of its bounds, an address that cannot be used, an option left out: status, and one line that names it"""
    return [wrong for option, value, status in VALUES for wrong in mistake(program, option, value, status)]


def used_addresses(program, is_long):
    """an address in use, also the other one's, and a port below 1024 without rights"""
    wrong = []
    with socket.create_server(("127.0.0.1", 0)) as taken:
        for option in ("--queries", "--desk"):
            wrong += mistake(program, option, f"127.0.0.1:{taken.getsockname()[1]}", 1)
    OPTIONS["--queries"] = f"127.0.0.1:{free_ports(1)[0]}"
    wrong += mistake(program, "--desk", OPTIONS["--queries"], 1)
    OPTIONS["--queries"] = FREE
    with open("/proc/sys/net/ipv4/ip_unprivileged_port_start", encoding="ascii") as file:
        first = int(file.read())
    if first <= 1:
        print("    (any user may use any port here: rights are not checked)")
        return wrong
    user = NOBODY if is_root() else None
    return wrong + mistake(program, "--queries", f"127.0.0.1:{first - 1}", 1, user)


def is_root():
    """Whether this check has all rights."""
    with open("/proc/self/status", encoding="ascii") as file:
        return "\nUid:\t0\t" in file.read()
