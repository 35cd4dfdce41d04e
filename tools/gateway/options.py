"""The command line of the gateway."""
from __future__ import annotations

import argparse
from typing import Any, Callable, List

from gateway import nena
from gateway.services import Alias, alias_of
from maptools.addresses import Tcp, tcp_of
from maptools.command_line import CommandLine
from maptools.installed import add_version

PACKAGES = "apt-get install python3-lxml python3-aiohttp python3-prometheus-client"
SHAPELY = "apt-get install python3-shapely"
EXAMPLE = f"""It needs Debian's packages python3-lxml, python3-aiohttp and python3-prometheus-client:
  {PACKAGES}
It runs under Debian's own python3, /usr/bin/python3, which finds them.

example:
  lost-gateway --listen 127.0.0.1:8080 --lostd 127.0.0.1:5222
  curl -H 'Content-Type: application/lost+xml' --data-binary @request.xml http://127.0.0.1:8080/
  lost-gateway --check request.xml --lostd 127.0.0.1:5222

--alias nena, for NAME after {" or ".join(nena.SPACES)}
{nena.table()}
Names below these are called by the labels that they have more. An --alias THEIRS=OURS of the same name goes before the table.
"""


def checked(read: Callable[[str], Any]) -> Callable[[str], Any]:
    """A reader of an argument whose ValueError is said to the user."""

    def read_argument(text: str) -> Any:
        """The value of an argument."""
        try:
            return read(text)
        except ValueError as error:
            raise argparse.ArgumentTypeError(str(error)) from None

    return read_argument


def listen_of(text: str) -> Tcp:
    """HOST:PORT, where port 0 lets the system choose."""
    host, _, port = text.rpartition(":")
    return tcp_of(f"{host}:1")._replace(port=0) if port == "0" else tcp_of(text)


def servers_of(text: str) -> List[Tcp]:
    """HOST:PORT, and more of them after commas."""
    return [tcp_of(part) for part in text.split(",")]


def aliases_of(text: str) -> List[Alias]:
    """The aliases of NENA's registry, or the one THEIRS=OURS."""
    return nena.aliases() if text == "nena" else [alias_of(text)]


def number_between(least: float, greatest: float, kind: Callable[[str], Any]) -> Callable[[str], Any]:
    """A reader of a number in these bounds."""

    def read(text: str) -> Any:
        """The number of a text."""
        try:
            number = kind(text)
        except ValueError:
            number = least - 1
        if not least <= number <= greatest:
            raise ValueError(f"{text!r} is not a number from {least:g} to {greatest:g}")
        return number

    return checked(read)


def read_words(words: argparse.ArgumentParser) -> argparse.Namespace:
    """The command line; without --check it must say where to listen, and whom to ask."""
    options = words.parse_args()
    if options.check is None and not (options.listen and options.lostd):
        words.error("--listen and --lostd are required, or --check")
    if options.check is not None and options.listen:
        words.error("--check does not listen: leave out --listen")
    return options


def parser(description: str) -> CommandLine:
    """The command line."""
    words = CommandLine(prog="lost-gateway", description=description, epilog=EXAMPLE)
    add = words.add_argument
    add("--listen", type=checked(listen_of), metavar="HOST:PORT", help="the address for clients, over HTTP")
    servers = {"type": checked(servers_of), "metavar": "HOST:PORT[,HOST:PORT..]"}
    add("--lostd", help="the --queries addresses of the servers behind, the preferred one first", **servers)
    add("--check", metavar="FILE", help="do not listen: say of each request in FILE (- is standard input; documents one after "
        "another) what it is sent as, and with --lostd what comes back and what the client is told")
    pool = {"type": number_between(1, 64, int), "default": 2, "metavar": "N"}
    add("--pool", help="connections from each process to each server (2); a server with --connections needs as many --workers as all of them", **pool)
    processes = {"type": number_between(1, 256, int), "default": 1, "metavar": "N"}
    add("--processes", help="how many processes share the work (1); more than one for each core does not help", **processes)
    timeout = {"type": number_between(0.05, 600, float), "default": 2.0, "metavar": "SECONDS"}
    add("--timeout", help="how long to wait for a server before the next one is tried (2)", **timeout)
    area = {"choices": ("largest", "all", "centre", "refuse"), "default": "largest"}
    add("--area", help="an area gets the mapping that covers most of it (largest, the default), all that cover enough of it, "
        "the mapping at its centre, or locationInvalid; the first two need python3-shapely, and without it are centre", **area)
    least = {"type": number_between(0, 1, float), "default": 0.1, "metavar": "SHARE"}
    add("--area-least", help="what share of the area is enough for --area all (0.1); if none has it, the largest is given", **least)
    alias = {"type": checked(aliases_of), "default": [], "action": "extend", "metavar": "THEIRS=OURS"}
    add("--alias", help="turn THEIRS at the start of a service into OURS, and back in replies; nena: the table below", **alias)
    add("--no-made-up-names", action="store_true", help="leave out displayName if the map has none, instead of giving the sourceId")
    add("--name", metavar="NAME", help="the source of errors and warnings; without it, the server's own name")
    add("--log", metavar="FILE", help="add one JSON line to FILE for each query")
    add_version(words)
    return words
