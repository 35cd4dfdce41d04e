"""Edits to the server in rounds over one connection, and what becomes of them."""
from __future__ import annotations

import argparse
import io
import socket
from typing import Any, Callable, Dict, Iterable, List, NamedTuple, Tuple

from maptools.desk_map import DeskMap
from maptools.difference import Edit, line_of_edit
from maptools.feed import Feed, Patience, replies
from maptools.replies import reply_of
from maptools.sending import say

WITHDRAWN = 21

Reply = Tuple[str, Dict[str, Any]]


class Refused(NamedTuple):
    """An edit that was refused, and the reply to it."""

    edit: Edit
    reply: Reply

    def code(self) -> int:
        """The code of the refusal; 0 where the reply has none."""
        return self.reply[1].get("code", 0)


class Outcome(NamedTuple):
    """What was accepted, and what the server refused."""

    accepted: List[Edit]
    refused: List[Refused]


class Talk:
    """A connection of a desk over which lines are sent in rounds."""

    def __init__(self, connection: socket.socket, options: argparse.Namespace) -> None:
        connection.settimeout(None)
        self.connection, self.is_shown = connection, options.json
        self.patience = Patience(options.timeout, say)

    def ask(self, lines: Iterable[bytes]) -> List[Reply]:
        """The replies to some lines; it returns as soon as the last one is there."""
        self.patience.begin_anew(False)
        sent = list(lines)
        feed = Feed(self.connection, [io.BytesIO(b"".join(line + b"\n" for line in sent))], has_more=True)
        result: List[Reply] = []
        for line in replies(self.connection, feed, self.patience) if sent else ():
            if line is not None:
                result.append(reply_of(line))
            if line is not None and self.is_shown:
                print(line.decode(errors="replace"), flush=True)
            if len(result) == len(sent):
                break
        return result


def send_round(talk: Talk, edits: List[Edit], wanted: DeskMap) -> Outcome:
    """Sends edits; nothing is committed."""
    told = list(map(Refused, edits, talk.ask(line_of_edit(edit, wanted) for edit in edits)))
    is_staged = [one.reply[0] == "staged" for one in told]
    return Outcome([one.edit for one, is_in in zip(told, is_staged) if is_in], [one for one, is_in in zip(told, is_staged) if not is_in])


def settle(talk: Talk, edits: List[Edit], wanted: DeskMap, stamp_again: Callable[[Edit], bool]) -> Outcome:
    """Sends edits. What was withdrawn with a later stamp, which only the server knows, is sent again if it may be stamped again."""
    first = send_round(talk, edits, wanted)
    late = [one for one in first.refused if one.code() == WITHDRAWN and stamp_again(one.edit)]
    if not late:
        return first
    second = send_round(talk, [one.edit for one in late], wanted)
    return Outcome(first.accepted + second.accepted, [one for one in first.refused if one not in late] + second.refused)
