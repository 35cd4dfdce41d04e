"""The services of systemd, and their files of options, which are made from the helps of the commands."""
from __future__ import annotations

import re
import textwrap
from typing import Dict, Iterator, List, NamedTuple

from building.faults import Fault
from building.helps import Command, Option
from building.installing import OWN, File, Files, body_of

FOLDER = "release/service"
SETTINGS = "etc/lostd"
UNITS = "lib/systemd/system"
USERS = "lib/sysusers.d/lostd.conf"
DEFAULT = re.compile(r" ?\[default: (.*)\]")
WIDTH = 100
HEAD = """\
# The options of `{words}`, one a line, for {unit}. What follows an option is its value, up to the end of the line.
# Lines that begin with # are comments. After a change: systemctl restart {unit}
"""


class Service(NamedTuple):
    """A service: its unit, the words of its command, its options that are set, those with a value to begin with, and those that it
    never has."""

    unit: str
    words: List[str]
    values: Dict[str, str]
    offered: Dict[str, str]
    never: List[str]

    def settings(self) -> str:
        """Where its options stand."""
        return f"{SETTINGS}/{self.words[0]}.conf"


SERVER = Service("lostd.service", ["lostd", "serve"], {
    "--name": "lost.example", "--map": "/var/lib/lostd/map.jsonl", "--queries": "127.0.0.1:5222", "--desk": "unix:/run/lostd/desk.sock",
    "--status": "127.0.0.1:5224", "--workers": "4",
}, {}, ["--connections"])  # fmt: skip
GATEWAY = Service("lost-gateway.service", ["lost-gateway"], {"--listen": "127.0.0.1:8080", "--lostd": "127.0.0.1:5222"}, {
    "--log": "/var/log/lost-gateway/queries.jsonl",
}, ["--check"])  # fmt: skip
FOLLOWER = Service("lost-feed.service", ["lost-feed", "follow"], {
    "--log": "postgresql://site@log.example/lost", "--desk": "unix:/run/lostd/desk.sock", "--status": "127.0.0.1:5224", "--listen": ":5226",
    "--journal": "/var/lib/lostd/journal.jsonl",
}, {}, [])  # fmt: skip
SERVICES = (SERVER, GATEWAY, FOLLOWER)


def option_lines(service: Service, option: Option) -> Iterator[str]:
    """An option of a file of options: what it does, and its line, which is a comment unless it is set."""
    name, default = option.names[-1], DEFAULT.search(option.text)
    text = DEFAULT.sub("", option.text)
    yield ""
    yield from textwrap.wrap(text[:1].upper() + text[1:], WIDTH, initial_indent="# ", subsequent_indent="# ")
    if name in service.values:
        yield f"{name} {service.values[name]}"
    else:
        value = service.offered.get(name) or (default[1] if default else option.value.strip("<>"))
        yield f"#{name} {value}".rstrip()


def settings_of(service: Service, command: Command) -> str:
    """A service's file of options."""
    options = [option for option in command.options() if option.names[-1] not in ("--help", "--version", *service.never)]
    missing = {*service.values, *service.offered} - {name for option in command.options() for name in option.names}
    if missing:
        raise Fault(f"{' '.join(service.words)} has no {', '.join(sorted(missing))}, which {service.unit} names")
    lines = [line for option in options for line in option_lines(service, option)]
    return HEAD.format(words=" ".join(service.words), unit=service.unit) + "\n".join(lines) + "\n"


def settings_files(commands: List[Command]) -> Files:
    """The files of options."""
    files: Files = {}
    for service in SERVICES:
        command = next(one for one in commands if one.name == service.words[0])
        for word in service.words[1:]:
            command = next(one for one in command.commands if one.name == word)
        files[service.settings()] = File(settings_of(service, command).encode())
    return files


def unit_files(top: str, prefix: str) -> Files:
    """The units, their users, and the scripts that they run, for what is installed under a prefix."""

    def text(name: str) -> bytes:
        """A file for this prefix."""
        body = body_of(f"{top}/{FOLDER}/{name}").replace(b"@PREFIX@", prefix.encode())
        return body.replace(b"@LOCKS@\n", body_of(f"{top}/{FOLDER}/locks") + b"\n") if b"@LOCKS@" in body else body

    files: Files = {f"{UNITS}/{service.unit}": File(text(service.unit)) for service in SERVICES}
    files[USERS] = File(text("sysusers.conf"))
    files.update({f"{OWN}/{script}": File(text(script), 0o755) for script in ("with-options", "check-map")})
    return files


def unit_places() -> List[str]:
    """Where the units and their users stand."""
    return [f"{UNITS}/{service.unit}" for service in SERVICES] + [USERS]
