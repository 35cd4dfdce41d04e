"""Where a server listens: at a port of a host, or at a socket in the file system."""
from __future__ import annotations

import argparse
from typing import Any, Callable, NamedTuple, Union

UNIX = "unix:"


class Tcp(NamedTuple):
    """A port of a host."""

    host: str
    port: int

    def __str__(self) -> str:
        return f"[{self.host}]:{self.port}" if ":" in self.host else f"{self.host}:{self.port}"


class Unix(NamedTuple):
    """A socket in the file system."""

    path: str

    def __str__(self) -> str:
        return f"{UNIX}{self.path}"


Server = Union[Tcp, Unix]


def tcp_of(text: str) -> Tcp:
    """HOST:PORT, or [ADDRESS]:PORT; ValueError where the text is neither."""
    host, colon, port = text.rpartition(":")
    bare = host[1:-1] if host.startswith("[") and host.endswith("]") else host
    is_port = port.isascii() and port.isdigit() and 1 <= int(port) <= 65535
    if not colon or not bare or not is_port or (bare == host and ":" in host):
        raise ValueError(f"{text!r} is not HOST:PORT")
    return Tcp(bare, int(port))


def server_of(text: str) -> Server:
    """unix:PATH, or what tcp_of takes; ValueError where the text is neither."""
    if not text.startswith(UNIX):
        return tcp_of(text)
    if text == UNIX:
        raise ValueError(f"{text!r} names no socket: write {UNIX}PATH")
    return Unix(text[len(UNIX) :])


def address(read_address: Callable[[str], Any]) -> Callable[[str], Any]:
    """What argparse reads an address with."""

    def argument(text: str) -> Any:
        try:
            return read_address(text)
        except ValueError as error:
            raise argparse.ArgumentTypeError(str(error)) from None

    return argument
