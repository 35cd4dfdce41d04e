"""The HTTP side: RFC 5222, section 14, and what an operator looks at."""
from __future__ import annotations

import asyncio
import time
import traceback
from typing import Dict, NamedTuple, Optional, Tuple, Type

from aiohttp import hdrs, web
from multidict import CIMultiDict, istr

from gateway import asked
from gateway.answering import LARGE, Answer, Answering, in_a_thread
from gateway.compression import GZIP, LEAST_PACKED, SPELLINGS, NoGzip, TooLong, accepts_gzip, packed, unpacked
from gateway.connection import Unanswered
from gateway.documents import LONGEST_BODY
from gateway.journal import Journal
from gateway.metrics import Metrics
from gateway.pool import QUESTION
from gateway.vocabulary import MEDIA_TYPE
from gateway.wording import shown

BODY_SECONDS = 10.0
EDITION = istr("Edition")
NOT_POSTED = "the method is {}; it must be POST, with a request of application/lost+xml"
NOT_LOST = "the Content-Type is {}; it must be application/lost+xml"
NOT_READ = "the Content-Encoding is {}; it must be gzip, or none"
PLAIN = "identity"
VARIES = {hdrs.VARY: hdrs.ACCEPT_ENCODING}
PACKED = {**VARIES, hdrs.CONTENT_ENCODING: GZIP}


class AtOnce(web.Response):
    """A response whose head and body go out in one piece. (aiohttp writes one after the other, and each takes the system long.)"""

    head = b""

    async def _write_headers(self) -> None:
        """Keeps the head until the body is written."""
        assert self._req is not None
        major, minor = self._req.version
        fields = "".join(f"{name}: {value}\r\n" for name, value in self.headers.items())
        self.head = f"HTTP/{major}.{minor} {self.status} {self.reason}\r\n{fields}\r\n".encode()

    async def write_eof(self, data: bytes = b"") -> None:
        """Writes both."""
        await web.StreamResponse.write_eof(self, self.head + bytes(self.body or b"") + data)


class Side(NamedTuple):
    """What the HTTP side works with."""

    answering: Answering
    metrics: Metrics
    journal: Optional[Journal]


def is_lost(request: web.Request) -> bool:
    """Whether the body is said to be of LoST. (aiohttp's own reader of types takes as long as all else.)"""
    said = request.headers.get(hdrs.CONTENT_TYPE, "")
    return said == MEDIA_TYPE or said.partition(";")[0].strip().lower() == MEDIA_TYPE


def encoding_of(request: web.Request) -> str:
    """How the body is encoded."""
    said = request.headers.get(hdrs.CONTENT_ENCODING)
    return PLAIN if said is None else said.strip().lower() or PLAIN


def unread(request: web.Request, encoding: str) -> str:
    """Why a body of this type and encoding is not read; empty where it is."""
    if not is_lost(request):
        return NOT_LOST.format(shown(request.headers.get(hdrs.CONTENT_TYPE, "")))
    if encoding != PLAIN and encoding not in SPELLINGS:
        return NOT_READ.format(shown(encoding))
    return ""


async def rest_of_body(request: web.Request) -> bytes:
    """A body that has not come whole yet."""
    body = bytearray()
    while not request.content.at_eof():
        body += await request.content.readany()
        if len(body) > LONGEST_BODY:
            raise TooLong
    return bytes(body)


async def body_of(request: web.Request) -> bytes:
    """The body of a request; TooLong where it is not read to its end, asyncio.TimeoutError where it doesn't come."""
    if request.content.is_eof():
        body = request.content.read_nowait(-1)
        if len(body) > LONGEST_BODY:
            raise TooLong
        return body
    if (request.content_length or 0) > LONGEST_BODY:
        raise TooLong
    return await asyncio.wait_for(rest_of_body(request), BODY_SECONDS)


class Handler:
    """Handles the requests of all connections of a process."""

    def __init__(self, side: Side) -> None:
        self.side = side
        self.is_stopping = False

    async def post(self, request: web.Request) -> web.Response:
        """The answer to a question, counted and written down."""
        begun = time.monotonic()
        if self.side.journal:
            asked.begin()
        encoding = encoding_of(request)
        why = unread(request, encoding)
        if why:
            return lost_response(self.side.answering.refused("badRequest", why), 415, {hdrs.ACCEPT_ENCODING: GZIP})
        body, answer, is_whole = await self.answer(request, encoding)
        self.note(request, body, answer, time.monotonic() - begun)
        response = lost_response(answer, made=AtOnce) if len(answer.xml) < LEAST_PACKED else await self.fitting(request, answer)
        if self.is_stopping or not is_whole:
            response.force_close()
        return response

    async def answer(self, request: web.Request, encoding: str) -> Tuple[bytes, Answer, bool]:
        """The body of a question, its answer, and whether the body was read to its end."""
        answering, body = self.side.answering, b""
        try:
            body = await body_of(request)
            if encoding != PLAIN:
                body = unpacked(body, LONGEST_BODY)
            return body, await answering.answer(body), True
        except TooLong:
            return body, answering.too_long(), False
        except NoGzip as error:
            return body, answering.refused("badRequest", f"the body is not gzip, as its Content-Encoding says: {error}"), True
        except asyncio.TimeoutError:
            return body, answering.refused("badRequest", f"the body did not come within {BODY_SECONDS:g} seconds"), False
        except Exception:  # pylint: disable=broad-except
            traceback.print_exc()
            return body, answering.refused("internalError", "the gateway failed, and says why on standard error"), True

    async def fitting(self, request: web.Request, answer: Answer) -> web.Response:
        """The response with a long answer, compressed where the client takes that."""
        if not accepts_gzip(request.headers.get(hdrs.ACCEPT_ENCODING, "")):
            return lost_response(answer, headers=VARIES)
        xml = packed(answer.xml) if len(answer.xml) <= LARGE else await in_a_thread(packed, answer.xml)
        return lost_response(answer._replace(xml=xml), headers=PACKED)

    def note(self, request: web.Request, body: bytes, answer: Answer, seconds: float) -> None:
        """Counts a query, and writes it down."""
        self.side.metrics.count(answer.kind, answer.outcome, seconds)
        if self.side.journal:
            peer = request.transport.get_extra_info("peername") if request.transport else None
            client = f"{peer[0]}:{peer[1]}" if peer else ""
            self.side.journal.note(client, request.headers.get("X-Forwarded-For"), body, answer, seconds)

    async def health(self, _: web.Request) -> web.Response:
        """A real question is asked behind: 200 where it is answered, and else 503."""
        try:
            reply = await self.side.answering.pool.ask(QUESTION)
        except Unanswered as error:
            return web.Response(status=503, text=f"no server answers: {error}\n")
        return web.Response(text=f"{reply.server} answers\n")

    async def metrics(self, _: web.Request) -> web.Response:
        """What is counted."""
        return web.Response(body=self.side.metrics.text(), headers={"Content-Type": self.side.metrics.media_type()})

    async def refuse(self, request: web.Request) -> web.Response:
        """The response to what is neither posted nor there to be looked at."""
        return lost_response(self.side.answering.refused("badRequest", NOT_POSTED.format(request.method)), 405, {"Allow": "POST"})

    async def stop(self, _: web.Application) -> None:
        """From now on each response is the last of its connection."""
        self.is_stopping = True


def application(handler: Handler) -> web.Application:
    """Questions are posted to any path; two paths are there to be looked at."""
    made = web.Application()
    made.router.add_post("/{path:.*}", handler.post)
    made.router.add_get("/health", handler.health)
    made.router.add_get("/metrics", handler.metrics)
    made.router.add_route("*", "/{path:.*}", handler.refuse)
    made.on_shutdown.append(handler.stop)
    return made


def lost_response(
    answer: Answer, status: int = 200, headers: Optional[Dict[str, str]] = None, made: Type[web.Response] = web.Response
) -> web.Response:
    """A response whose body is XML of LoST; 200 for errors of LoST too."""
    fields = CIMultiDict(((hdrs.CONTENT_TYPE, MEDIA_TYPE),))
    if headers:
        fields.update(headers)
    if answer.edition is not None:
        fields[EDITION] = str(answer.edition)
    return made(body=answer.xml, status=status, headers=fields)
