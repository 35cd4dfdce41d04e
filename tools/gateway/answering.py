"""From a body to the body of its answer: read, ask behind, write."""
from __future__ import annotations

import asyncio
import json
from typing import TYPE_CHECKING, Any, Callable, Dict, NamedTuple, Optional, Tuple

from gateway import replies, requests
from gateway.causes import cause
from gateway.connection import Closed, Unanswered
from gateway.documents import LONGEST_BODY, NoDocument, read_document
from gateway.forms import Forms, Short
from gateway.kept import KeptReplies, Written, kept_of, key_around, key_of
from gateway.pool import Pool, Reply
from maptools.lines import LONGEST_LINE, line_of
from maptools.refusals import ERRORS
from maptools.texts import lowered

if TYPE_CHECKING:
    from gateway.covering import Covered, Covering

# Beyond so many bytes reading and writing go to a thread, so that other clients don't wait for them.
LARGE = 65_536
UNNAMED = "gateway.invalid"
UNSERVED = "serviceNotImplemented"


class Answer(NamedTuple):
    """The XML of an answer, and what is counted and written down of it.

    The kind is that of the request, "unreadable" where it is none; the outcome is "answered", or the name of the error.
    """

    xml: bytes
    kind: str
    outcome: str
    edition: Optional[int] = None
    server: Optional[str] = None
    area: Optional[str] = None
    detail: Optional[str] = None


class Manner(NamedTuple):
    """How requests are read and replies are written.

    Errors and warnings are said under `name`, or else under the own name of a server behind.
    """

    reading: requests.Manner
    makes_up_names: bool = True
    name: Optional[str] = None


class Answering:
    """Answers bodies by the servers of a pool."""

    def __init__(self, pool: Pool, manner: Manner, covering: Optional[Covering] = None) -> None:
        self.pool, self.manner, self.kept, self.covering = pool, manner, KeptReplies(), covering
        self.forms = Forms(self.read, self.asked)

    def name(self) -> str:
        """The source of errors and warnings."""
        return self.manner.name or self.pool.name or UNNAMED

    def refused(self, error: str, text: str, kind: str = "unreadable") -> Answer:
        """An error of this gateway itself."""
        return Answer(replies.xml_of(replies.errors(error, text, self.name())), kind, error, detail=text)

    def too_long(self) -> Answer:
        """The answer to a body that is not read to its end."""
        return self.refused("badRequest", f"the body has more than {LONGEST_BODY:,} bytes, which are allowed")

    async def answer(self, body: bytes) -> Answer:
        """The answer to a body: an error of LoST where there is no other."""
        short = self.forms.short(body)
        if short is not None:
            return await self.answer_short(short, body)
        try:
            request, line = self.read(body) if len(body) <= LARGE else await in_a_thread(self.read, body)
        except (NoDocument, requests.NoRequest) as error:
            return self.refused("badRequest", str(error))
        return await self.answer_request(request, line)

    async def answer_short(self, short: Short, body: bytes) -> Answer:
        """The answer to a request that was read in the short way; what is not kept is written as that to any other."""
        try:
            reply = await self.pool.ask(short.line)
        except Unanswered as error:
            return self.unanswered(error, short.form.kind)
        bytes_of_line = key_around(reply.line, short.name)
        kept = self.kept.find((bytes_of_line, short.form.asked, self.name())) if bytes_of_line else None
        if kept is not None and kept.back is not None:
            xml = b"%b%b%b" % (kept.front, short.name[1:-1], kept.back)
            return Answer(xml, short.form.kind, kept.outcome, kept.edition, reply.server)
        request, _ = self.read(body)
        return await self.answer_from(request, reply)

    async def answer_request(self, request: requests.Request, line: bytes) -> Answer:
        """The answer to a request and its line."""
        server = None
        try:
            if self.covering and request.area():
                covered, server = await self.covering.answer(request)
                return await in_a_thread(self.write_covered, request, covered, server)
            reply = await self.pool.ask(line)
        except Unanswered as error:
            return self.unanswered(error, request.kind)
        except replies.NoReply as error:
            return self.refused("serverError", str(error), request.kind)._replace(server=server)
        return await self.answer_from(request, reply)

    async def answer_from(self, request: requests.Request, reply: Reply) -> Answer:
        """The answer to a request from its reply."""
        try:
            if len(reply.line) <= LARGE:
                return self.written(request, reply)
            return await in_a_thread(self.write, request, reply)
        except replies.NoReply as error:
            return self.refused("serverError", str(error), request.kind)._replace(server=reply.server)

    def unanswered(self, error: Unanswered, kind: str) -> Answer:
        """The error where no server answered."""
        return self.refused("serverError" if isinstance(error, Closed) else "serverTimeout", str(error), kind)

    def read(self, body: bytes) -> Tuple[requests.Request, bytes]:
        """The request of a body, and its line."""
        request = requests.read_request(read_document(body), self.manner.reading)
        return request, self.line(request)

    def line(self, request: requests.Request) -> bytes:
        """The line of a request, with its newline. Of a path that is too long for it, the servers at the end go out, or this one."""
        kind, members = request.line_members()
        if request.earlier and lowered(self.pool.name or "") in map(lowered, request.earlier):
            members = {**members, "path": [self.pool.name]}
        line = line_of({kind: members}).encode()
        if len(line) > LONGEST_LINE:
            raise requests.NoRequest(f"the request has {len(line):,} bytes as a line of JSON; {LONGEST_LINE:,} are allowed")
        return line + b"\n"

    def asked(self, request: requests.Request) -> replies.Asked:
        """What a reply must know of its request."""
        area = request.used.area if request.used else None
        alias = request.asked.alias if request.asked else None
        return replies.Asked(alias, replies.centre_warning(area) if area else None)

    def made(self, request: requests.Request, line: bytes) -> Written:
        """The XML of the reply to a request."""
        return self.made_of(request, *reply_of(line), self.asked(request))

    def made_of(self, request: requests.Request, name: str, value: Dict[str, Any], asked: replies.Asked) -> Written:
        """The same, of a reply that is read."""
        if name == "errors" or request.is_unserved():
            return self.error(request, value)
        if request.earlier and "path" in value:
            value = {**value, "path": [*request.earlier, *value["path"]]}
        manner = replies.Manner(self.name(), self.manner.reading.services, self.manner.makes_up_names)
        root = replies.reply(name, value, asked, manner)
        return Written(replies.xml_of(root), "answered", value.get("edition"))

    def write_covered(self, request: requests.Request, covered: Covered, server: str) -> Answer:
        """The answer to a request about an area."""
        asked = self.asked(request)._replace(warning=covered.warning)
        written = self.made_of(request, covered.name, covered.value, asked)
        return answer_of(written, request, Reply(b"", server))._replace(area=None)

    def error(self, request: requests.Request, value: Dict[str, Any]) -> Written:
        """An error with its cause; a service that the server can't have is one where it found no other error."""
        error = value.get("error", UNSERVED)
        if error not in ERRORS:
            raise replies.NoReply(f"the error {error!r} is unknown")
        root = replies.errors(error, cause(error, request, self.pool.name or ""), self.name())
        return Written(replies.xml_of(root), error, value.get("edition"))

    def write(self, request: requests.Request, reply: Reply) -> Answer:
        """The answer to a request from its reply."""
        return answer_of(self.made(request, reply.line), request, reply)

    def written(self, request: requests.Request, reply: Reply) -> Answer:
        """The same, from what is kept where the same reply came before."""
        bytes_of_line = None if request.earlier or request.is_unserved() else key_of(reply.line, used_id(request))
        if bytes_of_line is None:
            return self.write(request, reply)
        key = (bytes_of_line, self.asked(request), self.name())
        kept = self.kept.find(key)
        if kept is not None:
            return answer_of(kept.written(used_id(request)), request, reply)
        written = self.made(request, reply.line)
        if written.outcome == "answered":
            self.kept.keep(key, kept_of(written))
        return answer_of(written, request, reply)


def used_id(request: requests.Request) -> Optional[str]:
    """The client's name for the location used."""
    return request.used.item["id"] if request.used else None


def answer_of(written: Written, request: requests.Request, reply: Reply) -> Answer:
    """The answer to a request from the XML of its reply."""
    area = request.used.area if request.used else None
    return Answer(written.xml, request.kind, written.outcome, written.edition, reply.server, area)


async def in_a_thread(work: Callable[..., Any], *given: Any) -> Any:
    """What a long piece of work gives, while other clients are served."""
    return await asyncio.get_running_loop().run_in_executor(None, work, *given)


def reply_of(line: bytes) -> Tuple[str, Dict[str, Any]]:
    """The name and the members of a line of reply."""
    try:
        ((name, value),) = json.loads(line).items()
    except (ValueError, AttributeError):
        raise replies.NoReply("a line from behind is no reply") from None
    if not isinstance(value, dict):
        raise replies.NoReply("a line from behind is no reply")
    return name, value
