"""A connection to the server: one line out, and its reply in."""
from __future__ import annotations

import errno
import os
import socket
import time

from maptools.addresses import Server, Tcp, Unix

CHUNK = 65_536
LOOK_AGAIN = 0.2


class Broken(Exception):
    """What is wrong with a connection."""


def connect(server: Server, seconds: float) -> socket.socket:
    """A connection, on which each wait may last so many seconds; Broken where there is none."""
    try:
        return socket.create_connection(server, timeout=seconds) if isinstance(server, Tcp) else connect_unix(server, seconds)
    except OSError as error:
        raise Broken(f"no connection to {server}: {error}") from None


def connect_unix(server: Unix, seconds: float) -> socket.socket:
    """The same for a socket in the file system. Where its queue is full the system says so at once: it is tried again."""
    end = time.monotonic() + seconds
    while True:
        connection = socket.socket(socket.AF_UNIX)
        connection.settimeout(seconds)
        error = connection.connect_ex(server.path)
        if not error:
            return connection
        connection.close()
        if error != errno.EAGAIN or time.monotonic() > end:
            raise OSError(error, os.strerror(error))
        time.sleep(LOOK_AGAIN)


def ask(server: Server, line: bytes, seconds: float) -> bytes:
    """The reply to one line, without its newline."""
    with connect(server, seconds) as connection:
        try:
            connection.sendall(line + b"\n")
            reply = b""
            while not reply.endswith(b"\n"):
                piece = connection.recv(CHUNK)
                if not piece:
                    raise Broken(f"{server} closed the connection before the end of its reply")
                reply += piece
        except socket.timeout:
            raise Broken(f"{server} gave no complete reply in {seconds:g} seconds") from None
        except OSError as error:
            raise Broken(f"the connection to {server} failed: {error}") from None
    return reply[:-1]
