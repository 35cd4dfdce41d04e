"""Connections to PostgreSQL, by psycopg2, which Debian has as python3-psycopg2."""
from __future__ import annotations

import sys
from typing import Any

from maptools.connection import Broken

try:
    import psycopg2
except ImportError:
    psycopg2 = None

PACKAGE = "on Debian 12: apt-get install python3-psycopg2"
# How a connection behaves unless its URL says so: nobody waits long for a database that is gone.
USUAL = {
    "application_name": "lost-feed", "connect_timeout": "3", "tcp_user_timeout": "5000",
    "keepalives_idle": "5", "keepalives_interval": "2", "keepalives_count": "3",
}  # fmt: skip


def need_driver() -> None:
    """Broken where the module is missing."""
    if psycopg2 is None:
        raise Broken(f"{sys.executable} lacks the module psycopg2: {PACKAGE}")


def first_line(error: BaseException) -> str:
    """What a database says, in one line."""
    lines = [line.strip() for line in str(error).splitlines() if line.strip()]
    return lines[0] if lines else type(error).__name__


def is_gone(error: BaseException) -> bool:
    """Whether an error means that the connection or the database is gone, and not that a statement was wrong."""
    return isinstance(error, (psycopg2.OperationalError, psycopg2.InterfaceError))


def connected(url: str) -> Any:
    """A connection in which each statement is a transaction of its own; Broken where there is none."""
    need_driver()
    try:
        connection = psycopg2.connect(**{**USUAL, **psycopg2.extensions.parse_dsn(url)})
        connection.autocommit = True
        return connection
    except psycopg2.ProgrammingError:
        raise Broken("this is no address of a database: write postgresql://USER@HOST/DATABASE") from None
    except psycopg2.Error as error:
        raise Broken(f"no connection to the database: {first_line(error)}") from None
