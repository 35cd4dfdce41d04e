"""Reads a file of requests, and says what each is sent as, what comes back, and what the client is told."""
from __future__ import annotations

import argparse
import asyncio
import sys
from typing import Iterator, List, NamedTuple, Tuple
from xml.parsers.expat import ExpatError, ParserCreate, errors

from gateway.answering import Answer, Answering
from gateway.documents import NoDocument
from gateway.making import answering_of
from gateway.pool import Pool, Reply
from gateway.requests import NoRequest

# How expat says that another document begins.
ENDED = (errors.codes[errors.XML_ERROR_JUNK_AFTER_DOC_ELEMENT], errors.codes[errors.XML_ERROR_MISPLACED_XML_PI])
DECLARATION = b"<?xml"
GOOD, UNREACHED, REFUSED = 0, 1, 3


class Document(NamedTuple):
    """A document of a file, and the number of the line where it begins."""

    line: int
    body: bytes


class Listening(Pool):
    """Keeps the lines that go out, and their replies."""

    heard: List[Tuple[bytes, bytes]] = []

    async def ask(self, line: bytes) -> Reply:
        """The reply to a line."""
        reply = await super().ask(line)
        self.heard.append((line, reply.line))
        return reply

    async def ask_burst(self, lines: List[bytes]) -> List[Reply]:
        """The replies to lines of one burst."""
        replies = await super().ask_burst(lines)
        self.heard += [(line, reply.line) for line, reply in zip(lines, replies)]
        return replies


def length_of_first(text: bytes) -> int:
    """How many bytes the first document of a text has. One that is no XML goes to the next declaration."""
    parser = ParserCreate()
    try:
        parser.Parse(text, True)
    except ExpatError as error:
        following = text.find(DECLARATION, 1)
        return parser.ErrorByteIndex if error.code in ENDED else following if following > 0 else len(text)
    return len(text)


def documents_in(text: bytes) -> Iterator[Document]:
    """The documents of a file, one behind the other; white space between them is left out."""
    line = 1
    while True:
        bare = text.lstrip()
        line += text[: len(text) - len(bare)].count(b"\n")
        if not bare:
            return
        length = max(1, length_of_first(bare))
        yield Document(line, bare[:length])
        line += bare[:length].count(b"\n")
        text = bare[length:]


def sent_as(answering: Answering, body: bytes) -> Tuple[str, List[str]]:
    """The kind of a request and the line that it is sent as; or why it is none."""
    try:
        request, line = answering.read(body)
    except (NoDocument, NoRequest) as error:
        return "refused", [f"badRequest  {error}"]
    if answering.covering and request.area():
        return request.kind, [f"would send  a line such as this for each of some points of the {request.area().name}: {line.decode().strip()}"]
    return request.kind, [f"would send  {line.decode().strip()}"]


def told(answer: Answer, heard: List[Tuple[bytes, bytes]]) -> Tuple[str, List[str]]:
    """The kind of a request, and in lines what was sent, what came back and what the client is told."""
    lines = []
    for line, reply in heard:
        lines += [f"sent        {line.decode().strip()}", f"came back   {reply.decode()}"]
    return answer.kind if answer.kind != "unreadable" else "refused", [*lines, f"told        {answer.xml.decode()}"]


def show(number: int, document: Document, kind: str, lines: List[str]) -> None:
    """Says what becomes of a request."""
    print(f"request {number}, line {document.line}: {kind}")
    for line in lines:
        print(f"  {line}")


async def check_all(options: argparse.Namespace, documents: List[Document]) -> int:
    """Says what becomes of each request; the status."""
    pool = Listening(options.lostd or [], 1, options.timeout)
    answering = answering_of(options, pool)
    status = GOOD
    for number, document in enumerate(documents, 1):
        pool.heard = []
        if not options.lostd:
            kind, lines = sent_as(answering, document.body)
        else:
            answer = await answering.answer(document.body)
            kind, lines = told(answer, pool.heard)
            if answer.outcome in ("serverTimeout", "serverError"):
                status = UNREACHED
        status = max(status, REFUSED if kind == "refused" else GOOD)
        show(number, document, kind, lines)
    await pool.end()
    return status


def check(options: argparse.Namespace) -> int:
    """Checks a file of requests, or standard input for "-"; the status."""
    if options.check == "-":
        text = sys.stdin.buffer.read()
    else:
        with open(options.check, "rb") as file:
            text = file.read()
    documents = list(documents_in(text))
    if not documents:
        print(f"lost-gateway: {options.check}: no request in it", file=sys.stderr)
        return REFUSED
    return asyncio.run(check_all(options, documents))
