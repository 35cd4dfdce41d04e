"""Reads a body as XML: no DTD, no entity, at most 1 MiB, at most 100 levels.

expat reads it, through the standard library, and not libxml2: of a start tag with 95,000 attributes, which fits into
1 MiB, libxml2 2.9 compares each with each, and takes minutes.
"""
from __future__ import annotations

import re
import xml.etree.ElementTree as ElementTree

LONGEST_BODY = 1_048_576
DEEPEST_LEVEL = 100
# So many bytes are read in one go: between two pieces other threads have their turn.
PIECE = 32_768

BYTE_ORDER_MARKS = ((b"\xef\xbb\xbf", "utf-8"), (b"\xff\xfe", "utf-16-le"), (b"\xfe\xff", "utf-16-be"))
DECLARED = re.compile(rb"""<\?xml[ \t\r\n][^>]*?encoding[ \t\r\n]*=[ \t\r\n]*["']([A-Za-z0-9._-]+)["']""")
# How UTF-8 is declared almost always.
USUAL = (b'<?xml version="1.0" encoding="UTF-8"?>', b'<?xml version="1.0" encoding="utf-8"?>')
ENCODINGS = {"utf-8": "utf-8", "utf8": "utf-8", "us-ascii": "ascii", "ascii": "ascii", "iso-8859-1": "latin-1"}


class NoDocument(Exception):
    """Why a body is no document that is read."""


def text_of(body: bytes) -> bytes:
    """The document in UTF-8, without a byte order mark."""
    if body.startswith(USUAL):
        return body
    if not body.startswith(b"<"):
        for mark, encoding in BYTE_ORDER_MARKS:
            if body.startswith(mark):
                return recoded(body[len(mark):], encoding)
    declared = DECLARED.match(body)
    if declared is None:
        return body
    name = declared[1].decode().lower()
    if name not in ENCODINGS:
        raise NoDocument(f"the encoding {name} is not read")
    return recoded(body, ENCODINGS[name])


def recoded(body: bytes, encoding: str) -> bytes:
    """The body in UTF-8."""
    if encoding == "utf-8":
        return body
    try:
        return body.decode(encoding).encode()
    except UnicodeError:
        raise NoDocument(f"the body is not written in {encoding}") from None


def after_misc(text: bytes, place: int) -> int:
    """The place after white space, a comment or a processing instruction; the same place where none of them is there."""
    for front, end in ((b"<?", b"?>"), (b"<!--", b"-->")):
        if text.startswith(front, place):
            found = text.find(end, place + len(front))
            return found + len(end) if found >= 0 else len(text)
    while text[place : place + 1].isspace():
        place += 1
    return place


def has_dtd(text: bytes) -> bool:
    """Whether a document type declaration follows the declaration, comments and processing instructions at the front."""
    if b"<!DOCTYPE" not in text:
        return False
    place, before = 0, -1
    while place != before:
        before, place = place, after_misc(text, place)
    return text.startswith(b"<!DOCTYPE", place)


def is_deeper(root: ElementTree.Element, levels: int) -> bool:
    """Whether elements lie in one another more than so many levels deep."""
    row = [root]
    for _ in range(levels):
        row = [child for element in row for child in element]
        if not row:
            return False
    return True


def read_document(body: bytes) -> ElementTree.Element:
    """The outermost element of a body; NoDocument where it is none that is read."""
    if len(body) > LONGEST_BODY:
        raise NoDocument("the body has more than 1 MiB")
    text = text_of(body)
    if has_dtd(text):
        raise NoDocument("a document type declaration is not read")
    parser = ElementTree.XMLParser(encoding="utf-8")
    try:
        for place in range(0, len(text), PIECE):
            parser.feed(text[place : place + PIECE])
        root = parser.close()
    except (ElementTree.ParseError, ValueError) as error:
        raise NoDocument(f"the body is no XML: {error}") from None
    if text.count(b"<") > DEEPEST_LEVEL and is_deeper(root, DEEPEST_LEVEL):
        raise NoDocument(f"elements lie more than {DEEPEST_LEVEL} levels deep")
    return root
