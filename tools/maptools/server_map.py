"""The map that a server holds, as it tells it over HTTP at its desk's address: desk lines, and their digest."""
from __future__ import annotations

import contextlib
import http.client
import os
import select
import tempfile
from typing import Any, BinaryIO, Iterator, NamedTuple, Optional

from maptools.addresses import Server
from maptools.connection import LOOK_AGAIN, Broken
from maptools.desk_map import DeskMap, Reader
from maptools.digest import map_digest, mapping_digest
from maptools.feed import USUAL, Patience
from maptools.lines import read_line
from maptools.sending import say
from maptools.status_page import OK, Http

PATH = "/map"
PIECE = 1 << 20
HINT = "is it the server's --desk address, and does the server tell its map there?"


class Told(NamedTuple):
    """What a server says of its map: the edition and the digest, and its lines as they come."""

    edition: str
    digest: str
    lines: Any


def wait_for_turn(http_side: Http, seconds: Optional[float]) -> None:
    """Waits until an answer begins: a server serves one desk at a time, and an answer takes its turn among them."""
    patience = Patience(seconds, say)
    while not select.select([http_side.sock], [], [], LOOK_AGAIN)[0]:
        patience.look(0)


@contextlib.contextmanager
def told_by(server: Server, seconds: Optional[float]) -> Iterator[Told]:
    """What a server tells; Broken where it tells nothing."""
    http_side = Http(server, seconds or USUAL)
    try:
        http_side.request("GET", PATH)
        wait_for_turn(http_side, seconds)
        answer = http_side.getresponse()
        if answer.status != OK:
            raise Broken(f"{server} answers {PATH} with {answer.status}: {HINT}")
        yield Told(answer.headers.get("Edition", ""), answer.headers.get("Map", ""), answer)
    except (OSError, http.client.HTTPException) as error:
        raise Broken(f"{server} did not tell its map ({str(error).strip() or type(error).__name__}): {HINT}") from None
    finally:
        http_side.close()


def digest_told(server: Server, seconds: Optional[float]) -> str:
    """The digest of what a server holds now, by what it says. Its lines are read to their end, lest it report a broken connection."""
    with told_by(server, seconds) as told:
        for _ in iter(lambda: told.lines.read(PIECE), b""):
            pass
        return told.digest


def held_by(server: Server, seconds: Optional[float], reader: Reader) -> DeskMap:
    """The map that a server holds; Broken where its lines and its digest do not go together."""
    with told_by(server, seconds) as told:
        held = reader.read_lines(str(server), told.lines)
    if held.complaints:
        raise Broken(f"the map that {server} tells cannot be read: {held.complaints[0]}")
    digest = digest_of(held)
    if digest != told.digest:
        raise Broken(f"the map that {server} tells has the digest {digest}, and it says {told.digest or 'none'}")
    held.edition = told.edition
    return held


def digest_of(what: DeskMap) -> str:
    """The digest of a map."""
    return map_digest(outline["digest"] for outline in what.book.held.values())


@contextlib.contextmanager
def file_of(server: Server, seconds: float) -> Iterator[str]:
    """The path of a file with the lines that a server tells, for as long as it is needed; Broken where they are not its map."""
    with tempfile.TemporaryDirectory(prefix="lostd-map-") as folder:
        path = os.path.join(folder, "map.jsonl")
        with told_by(server, seconds) as told, open(path, "wb") as file:
            total = sum(digest_after(line, file) for line in told.lines)
        if map_digest([total]) != told.digest:
            raise Broken(f"the map that {server} told is not the one that its digest names: ask again")
        yield path


def digest_after(line: bytes, file: BinaryIO) -> int:
    """Keeps a line that a server told; the digest of the mapping that it publishes, 0 for another line."""
    file.write(line)
    member = read_line(line)
    return mapping_digest(member[1]) if member and member[0] == "publish" else 0
