"""The command line of lost-feed."""
from __future__ import annotations

import argparse
from typing import Any, List, Tuple

from maptools.addresses import address, server_of, tcp_of
from maptools.client_words import number_argument, seconds_argument
from maptools.command_line import CommandLine
from maptools.feeding.schema import FOLLOWER, PUBLISHER
from maptools.installed import add_version

MOST_BEHIND = 10.0
URL = "the database of the log: postgresql://USER@HOST/DATABASE, or several hosts with commas between them"
EXAMPLES = """examples:
  lost-feed init --log postgresql://localhost/lost
  lost-feed publish --log postgresql://localhost/lost map.jsonl
  lost-feed follow --log postgresql://localhost/lost --desk unix:/run/lostd/desk.sock --status 127.0.0.1:5224 --listen :5226
  lost-feed status --log postgresql://localhost/lost
  lost-feed snapshot --log postgresql://localhost/lost > journal.jsonl
"""
INIT = f"""Makes the tables of the log in a database of PostgreSQL, and the roles {PUBLISHER} and {FOLLOWER}. Members of
the first may add commits; members of the second may read them, and write down how far a server is. Nobody may change or
remove a commit. If the log is there already, nothing changes.
"""
PUBLISH = """Publishes the desk lines of FILE: each commit becomes a row of the log, all of them or none. A lostd of its own, which
holds what the log says, judges every line first, and says the edition and the digest that each commit makes. Standard error
names each refused line; of many with like faults it names 20, and counts the rest. Then nothing is published, and the status
is 3. So it is where somebody else published meanwhile.

With --state the log's lines are kept in FOLDER between calls, so that the next one reads only what is new. With --each every
commit is published as soon as it comes, and a line on standard output says so: FILE may be a pipe that stays open.
"""
FOLLOW = """Feeds one server from the log, as its only desk. It asks the server for its edition and the digest of its map, and goes
on from there: each row is one commit, after which the digest is compared again. It goes on by itself after a restart of the
database, of itself, or of the server, which begins with its journal, or empty. It prints `ready HOST:PORT` once its own address
answers HTTP: GET /health gives 200 while the server holds what the log says, and 503 with the cause if it does not answer, differs,
has not yet reached the end of the log since it started, or is more than --most-behind behind; GET /metrics is for Prometheus. Let
the balancer check that address.

If the server differs from the log, standard error says at which edition and what to do, and the status is 3. Of a server that
was edited before this follower began, only its journal tells the first edition that differs: name it with --journal. If the log
cannot be reached, the server stays as it is, and /health too, unless --most-apart says how long that may last.

Exit status: 3 if the server differs from the log, 0 at SIGTERM or an interrupt, 1 if it cannot listen, 2 for the command line.
"""
STATUS = """Shows the edition of the log, and where each follower was when it last said so.

Exit status: 0 if all is well, 3 if a server differs or a follower was silent for 30 seconds, 1 if the log cannot be read.
"""
SNAPSHOT = """Writes the log as a journal: each edit as it was published, and a commit for each row, with its edition, digest and
time. A server that starts with it (lostd serve --journal) has the same edition and the same digest, and a follower goes on from
there. `lostd check --journal` checks it. One that was broken off is no journal, and no server starts with it.
"""


def listen_argument(text: str) -> Any:
    """HOST:PORT of the command line, or :PORT for all addresses; port 0 for any."""
    host, _, port = text.rpartition(":")
    if port == "0" and host:
        return tcp_of(f"{host}:1")._replace(port=0)
    return tcp_of(text if host else f"0.0.0.0:{port}")


def add_command(commands: Any, name: str, about: str, description: str) -> CommandLine:
    """A subcommand, which takes the log."""
    words = commands.add_parser(name, help=about, description=description)
    words.add_argument("--log", required=True, metavar="URL", help=URL)
    return words


def add_judge(words: argparse.ArgumentParser) -> None:
    """The options of what is published."""
    words.add_argument("--state", metavar="FOLDER", help="keep the log's lines in this folder between calls")
    words.add_argument("--lostd", metavar="PATH", help="the program that judges; without it, the one that ./lostd would run, or is installed")


def add_follow(commands: Any) -> None:
    """The subcommand that feeds a server."""
    words = add_command(commands, "follow", "feed one server from the log", FOLLOW)
    server = {"type": address(server_of), "required": True, "metavar": "ADDRESS"}
    words.add_argument("--desk", help="the server's desk: unix:PATH, or HOST:PORT", **server)
    words.add_argument("--status", help="the server's status: HOST:PORT, or unix:PATH", **server)
    words.add_argument("--listen", type=address(listen_argument), required=True, metavar="HOST:PORT", help="where to answer /health and /metrics")
    words.add_argument("--journal", metavar="FILE", help="the server's journal, which is read if the server differs: it tells from which edition on")
    words.add_argument("--name", help="what status calls this follower; without it, the host's name and the desk")
    seconds = {"type": seconds_argument, "metavar": "SECONDS"}
    words.add_argument("--most-behind", default=MOST_BEHIND, help=f"/health fails if the server is more behind; without it, {MOST_BEHIND:g}", **seconds)
    words.add_argument("--most-apart", help="/health fails if the log cannot be reached for longer; without it, never", **seconds)


def parser(description: str) -> CommandLine:
    """The command line."""
    words = CommandLine(prog="lost-feed", description=description, epilog=EXAMPLES)
    commands = words.add_subparsers(dest="command", required=True, metavar="COMMAND")
    add_command(commands, "init", "make the log in a database", INIT)
    publish = add_command(commands, "publish", "add the commits of a file of desk lines to the log", PUBLISH)
    publish.add_argument("file", metavar="FILE", help="the desk lines; standard input for -")
    publish.add_argument("--each", action="store_true", help="publish each commit by itself, as it comes")
    add_judge(publish)
    add_follow(commands)
    status = add_command(commands, "status", "show the log, and where each follower is", STATUS)
    status.add_argument("--json", action="store_true", help="print one JSON object")
    snapshot = add_command(commands, "snapshot", "write the log as a journal that a server starts with", SNAPSHOT)
    snapshot.add_argument("--until", type=number_argument, metavar="N", help="only the commits up to edition N, as for the map of an earlier day")
    add_version(words)
    return words


def options_of(description: str, given: List[str]) -> Tuple[argparse.ArgumentParser, argparse.Namespace]:
    """The command line, and what it says."""
    words = parser(description)
    return words, words.parse_args(given)
