"""The command line of lost-client."""
from __future__ import annotations

import argparse
from typing import Any, List, Tuple

from maptools.addresses import server_of
from maptools.command_line import CommandLine
from maptools.feed import USUAL
from maptools.installed import add_version
from maptools.units import joined

RAW = argparse.RawDescriptionHelpFormatter
EXAMPLES = """examples:
  lost-client find --server localhost:5222 --service urn:service:sos.police --point 40.861,-73.988
  lost-client find --server localhost:5222 --service urn:service:sos --address country=US A1=NJ A3=Leonia --validate
  lost-client find --server localhost:5222 --service urn:service:sos --token 'building 7, floor 3'
  lost-client services --server '[::1]:5222' --service urn:service:sos
  lost-client boundary --server localhost:5222 --key leonia-1
  lost-client desk --server localhost:5223 --keep-open map.jsonl
  lost-client desk --server unix:/run/lostd/desk.sock --sync map.jsonl
  lost-client status --server localhost:5224
"""
DESK = """Sends the desk lines of FILE, and reads the replies at the same time. Standard error names each refused line with its
number, and standard output sums up all lines.

The server serves one desk at a time, and drops uncommitted edits when a desk's connection ends. While it serves another
desk, this one waits, and says so. With --keep-open the connection stays open after FILE: further lines come from
standard input, and it ends at the end of standard input or at an interrupt (Ctrl-C). With FILE - all lines come from
standard input, and are sent as they come.

--sync makes the server hold what FILE says: the mappings that its lines leave when they are read from the start. FILE
must end with a commit, so that a truncated file is not taken for a whole one. The client asks the server for its map,
withdraws mappings that are gone, replaces those that changed, publishes new ones, and commits all of that at once. If
nothing differs, it sends nothing. A mapping whose lastUpdated alone differs is not changed: the server keeps it. At the end
the client compares the digest of what the server holds with that of what it was to hold. With several --server each is made
the same, whatever it held.

Before it sends anything, --sync names each edit that would be refused. A changed mapping needs a later lastUpdated, and
a new key if its regions changed. With --stamp now a mapping that changed without a later lastUpdated gets the time of the
sync instead. That is the default for files of geojson-to-desk and addresses-to-desk, whose commit line says so; --stamp file
keeps to the file. --back brings an older file back: all that differs gets the time of the sync. A withdrawal has the stamp
of its withdraw line in FILE, or else the time of the sync, whichever is after the lastUpdated of the withdrawn mapping. If
neither is, the stamp is a nanosecond after that lastUpdated.

If more than 10 mappings would be withdrawn, and more than 5 % of those that are held, nothing is sent, since FILE may not be
whole; --most-withdrawn N allows N. --dry-run says for each mapping what would change, and --svg draws it.
"""
DESK_EXAMPLES = """examples:
  tail -n +1 -F map.jsonl | lost-client desk --server localhost:5223 -
  lost-client desk --sync map.jsonl --server unix:/run/lostd/desk.sock --dry-run --svg changes.svg
  lost-client desk --sync map.jsonl --server unix:/run/lostd/desk.sock
  lost-client desk --sync map.jsonl --server 10.0.0.5:5223 --server 10.0.0.6:5223
"""
STATUS = """Shows what the server reports at its --status address: whether it is ready, its edition, its mappings, and its counts
since it started. --json prints the report as it comes, as one JSON object.

Exit status: 0 if the server is ready, 3 if it is not, 1 if there is no answer.
"""
STATUS_EXAMPLES = """examples:
  lost-client status --server localhost:5224
  lost-client status --server unix:/run/lostd/status.sock --json
"""


def server_argument(text: str) -> Any:
    """HOST:PORT or unix:PATH of the command line."""
    try:
        return server_of(text)
    except ValueError as error:
        raise argparse.ArgumentTypeError(str(error)) from None


def element_argument(text: str) -> Tuple[str, str]:
    """ELEMENT=VALUE of the command line."""
    name, equals, value = text.partition("=")
    if not equals or not name:
        raise argparse.ArgumentTypeError(f"{text!r} is not ELEMENT=VALUE, such as A1=NJ")
    return name, value


def number_argument(text: str) -> int:
    """A whole number."""
    if not (text.isascii() and text.isdigit()):
        raise argparse.ArgumentTypeError(f"{text!r} is not a whole number")
    return int(text)


def seconds_argument(text: str) -> float:
    """A time to wait."""
    try:
        seconds = float(text)
    except ValueError:
        seconds = 0
    if not 0 < seconds <= 86_400:
        raise argparse.ArgumentTypeError(f"{text!r} is not a number of seconds up to 86,400")
    return seconds


def add_common(words: argparse.ArgumentParser, is_desk: bool = False) -> None:
    """The arguments of every subcommand. A desk waits for its turn, and may have several servers."""
    where = "where the server listens: HOST:PORT, or unix:PATH for a socket in the file system"
    many = {"action": "append", "dest": "servers", "help": f"{where}; with --sync repeat it for more servers"}
    words.add_argument("--server", required=True, type=server_argument, metavar="ADDRESS", **(many if is_desk else {"help": where}))
    usual = f"{USUAL:g}, but no limit for the first reply, while another desk is served" if is_desk else f"{USUAL:g}"
    seconds = {"type": seconds_argument, "default": None if is_desk else USUAL, "metavar": "SECONDS"}
    words.add_argument("--timeout", help=f"how long to wait for a connection, and for a reply ({usual})", **seconds)
    words.add_argument("--json", action="store_true", help="print each reply as it is")


def add_place(words: argparse.ArgumentParser, is_required: bool) -> None:
    """The arguments that say where."""
    place = words.add_mutually_exclusive_group(required=is_required)
    place.add_argument("--point", metavar="LAT,LON", help="a point in degrees, or in whole units with --units")
    pairs = {"nargs": "+", "type": element_argument, "metavar": "ELEMENT=VALUE"}
    place.add_argument("--address", help="an address, such as country=US A1=NJ", **pairs)
    place.add_argument("--token", metavar="T", help="a token: a place by the name that the map gives it")
    words.add_argument("--units", action="store_true", help="the point is in whole units of 1e-7 degrees")
    words.add_argument("--path", action="append", metavar="NAME", help="a server that the request passed through")


def add_requests(commands: Any) -> None:
    """The subcommands that ask one question."""
    find = commands.add_parser("find", help="which centre serves a place (findService)")
    find.add_argument("--service", required=True, metavar="URN", help="such as urn:service:sos.police")
    find.add_argument("--value", action="store_true", help="show the boundary itself, not its key")
    find.add_argument("--validate", action="store_true", help="validate the address")
    add_place(find, True)
    services = commands.add_parser("services", help="which services there are (listServices, listServicesByLocation)")
    services.add_argument("--service", metavar="URN", help="only those one label below this service")
    add_place(services, False)
    boundary = commands.add_parser("boundary", help="the boundary of a key (getServiceBoundary)")
    boundary.add_argument("--key", required=True, help="the key, as `find` shows it")
    for command in (find, services, boundary):
        add_common(command)


def add_desk(commands: Any) -> None:
    """The subcommand that sends desk lines."""
    about = {"description": DESK, "epilog": DESK_EXAMPLES, "formatter_class": RAW}
    desk = commands.add_parser("desk", help="send desk lines from a file to the desk's address", **about)
    desk.add_argument("file", metavar="FILE", help="the desk lines; standard input for -")
    desk.add_argument("--keep-open", action="store_true", help="after FILE, send what comes on standard input, until it ends")
    desk.add_argument("--sync", action="store_true", help="make the server hold what FILE says")
    stamp = {"choices": ("now", "file"), "help": "with --sync, what changed without a later lastUpdated gets the time of the sync, or is named"}
    desk.add_argument("--stamp", **stamp)
    desk.add_argument("--back", action="store_true", help="with --sync, all that differs gets the time of the sync, as for an older FILE")
    desk.add_argument("--dry-run", action="store_true", help="with --sync, say what would be sent, and send nothing")
    desk.add_argument("--show", action="store_true", help="with --dry-run, print the lines that would be sent, not what they change")
    desk.add_argument("--svg", metavar="PATH", help="with --dry-run, draw the outlines that change, as a picture (SVG)")
    most = {"type": number_argument, "metavar": "N", "help": "with --sync, withdraw up to N mappings"}
    desk.add_argument("--most-withdrawn", **most)
    add_common(desk, is_desk=True)


def parser(description: str) -> CommandLine:
    """The command line."""
    words = CommandLine(prog="lost-client", description=description, epilog=EXAMPLES)
    commands = words.add_subparsers(dest="command", required=True, metavar="COMMAND")
    add_requests(commands)
    add_desk(commands)
    about = {"description": STATUS, "epilog": STATUS_EXAMPLES, "formatter_class": RAW}
    add_common(commands.add_parser("status", help="whether a server is ready, and what it counts", **about))
    add_version(words)
    return words


def mistake_in(options: argparse.Namespace) -> str:
    """What is wrong with words that do not go together; empty where nothing is."""
    if options.command != "desk":
        return ""
    if options.sync and (options.keep_open or options.file == "-"):
        return "--sync needs a FILE, and goes with neither standard input nor --keep-open"
    if not options.sync and (options.stamp or options.back or options.dry_run or options.most_withdrawn is not None):
        return "--stamp, --back, --dry-run and --most-withdrawn go with --sync"
    if not options.sync and len(options.servers) > 1:
        return "several servers go with --sync"
    if options.svg and len(options.servers) > 1:
        return "--svg draws what changes in one server"
    return "--show and --svg go with --dry-run" if (options.show or options.svg) and not options.dry_run else ""


def options_of(description: str, given: List[str]) -> Tuple[argparse.ArgumentParser, argparse.Namespace]:
    """The command line and what it says; ends the program where there is a mistake in it."""
    words = parser(description)
    options = words.parse_args(joined(given))
    mistake = mistake_in(options)
    if mistake:
        words.error(mistake)
    if options.command == "desk":
        options.server = options.servers[0]
    return words, options
