"""Reads and writes the JSON of lines, as strictly as docs/PROTOCOL.md says ("Lines").

What is read is None, True, False, an int (a whole number), NOT_WHOLE (any other number), a str, a list or a dict.
"""
import math
import re

DEEPEST = 127
LEAST_WHOLE, GREATEST_WHOLE = -(2**63), 2**63 - 1
NOT_WHOLE = object()

WHITE_SPACE = re.compile(r"[ \t\n\r]*")
NUMBER = re.compile(r"-?(?:0|[1-9][0-9]*)(?:\.[0-9]+)?(?:[eE][+-]?[0-9]+)?")
WHOLE = re.compile(r"-?[0-9]{1,19}")
PLAIN_TEXT = re.compile(r'[^"\\\x00-\x1f]*')
FOUR_DIGITS = re.compile(r"[0-9a-fA-F]{4}")
WORDS = {"true": True, "false": False, "null": None}
ESCAPES = {'"': '"', "\\": "\\", "/": "/", "b": "\b", "f": "\f", "n": "\n", "r": "\r", "t": "\t"}
WRITTEN = {code: f"\\u{code:04x}" for code in range(32)}
WRITTEN |= {ord(character): f"\\{mark}" for mark, character in ESCAPES.items() if mark != "/"}


class NoJson(Exception):
    """A line that is no JSON."""


def read_json(line):
    """The value of a line in UTF-8, and whether some object in it names a member twice; NoJson where it is no JSON."""
    try:
        reader = Reader(line.decode())
    except UnicodeDecodeError:
        raise NoJson from None
    return reader.whole_text(), reader.has_member_twice


def whole_number(text):
    """A number is whole where it is a signed 64-bit value without fraction and exponent, and not -0."""
    if text == "-0" or not WHOLE.fullmatch(text):
        return NOT_WHOLE
    return int(text) if LEAST_WHOLE <= int(text) <= GREATEST_WHOLE else NOT_WHOLE


class Reader:
    """Reads one JSON text from its front to its end."""

    def __init__(self, text):
        self.text = text
        self.place = 0
        self.has_member_twice = False

    def take(self, pattern):
        """Goes past what fits the pattern here, and gives it."""
        found = pattern.match(self.text, self.place)
        if not found:
            raise NoJson
        self.place = found.end()
        return found[0]

    def has(self, mark):
        """Whether the mark stands here, after which the reader goes past it."""
        found = self.text.startswith(mark, self.place)
        self.place += len(mark) if found else 0
        return found

    def need(self, mark):
        """Goes past the mark, which must stand here."""
        if not self.has(mark):
            raise NoJson

    def whole_text(self):
        """One value, with nothing after it but white space."""
        value = self.value(0)
        self.take(WHITE_SPACE)
        if self.place != len(self.text):
            raise NoJson
        return value

    def value(self, depth):
        """A value, inside as many lists and objects as the depth says."""
        self.take(WHITE_SPACE)
        if self.has("{"):
            return self.object(depth + 1)
        if self.has("["):
            return self.list(depth + 1)
        if self.has('"'):
            return self.string()
        for word, value in WORDS.items():
            if self.has(word):
                return value
        return self.number()

    def number(self):
        """A number; one that is too large for a floating-point number of 64 bits makes the line no JSON."""
        text = self.take(NUMBER)
        if math.isinf(float(text)):
            raise NoJson
        return whole_number(text)

    def string(self):
        """A text, after its opening mark: no byte below 32 stands in it."""
        pieces = []
        while True:
            pieces.append(self.take(PLAIN_TEXT))
            if self.has('"'):
                return "".join(pieces)
            self.need("\\")
            pieces.append(self.escaped())

    def escaped(self):
        """The character of an escape, after its backslash."""
        if self.has("u"):
            return self.numbered_character()
        mark = self.text[self.place : self.place + 1]
        if mark not in ESCAPES:
            raise NoJson
        self.place += 1
        return ESCAPES[mark]

    def numbered_character(self):
        """A character by its four digits; a high surrogate stands before a low one, and neither stands alone."""
        high = int(self.take(FOUR_DIGITS), 16)
        if not 0xD800 <= high <= 0xDFFF:
            return chr(high)
        self.need("\\u")
        low = int(self.take(FOUR_DIGITS), 16)
        if high >= 0xDC00 or not 0xDC00 <= low <= 0xDFFF:
            raise NoJson
        return chr(0x10000 + ((high - 0xD800) << 10) + (low - 0xDC00))

    def list(self, depth):
        """A list, after its opening mark."""
        values = []
        self.items("]", depth, lambda: values.append(self.value(depth)))
        return values

    def object(self, depth):
        """An object, after its opening mark; of two members with one name the later one counts."""
        members = {}
        self.items("}", depth, lambda: self.member(members, depth))
        return members

    def member(self, members, depth):
        """Puts one more member into those of an object."""
        self.take(WHITE_SPACE)
        self.need('"')
        name = self.string()
        self.take(WHITE_SPACE)
        self.need(":")
        self.has_member_twice |= name in members
        members[name] = self.value(depth)

    def items(self, end, depth, read_item):
        """Reads the items of a list or an object up to its end; values nest at most 127 deep."""
        if depth > DEEPEST:
            raise NoJson
        self.take(WHITE_SPACE)
        if self.has(end):
            return
        while True:
            read_item()
            self.take(WHITE_SPACE)
            if self.has(end):
                return
            self.need(",")


def in_byte_order(texts):
    """Texts in ascending order of their bytes."""
    return sorted(texts, key=str.encode)


def write_text(text):
    """A text in JSON: only the quotation mark, the backslash and bytes below 32 are escaped."""
    return f'"{text.translate(WRITTEN)}"'


def write_json(value):
    """The compact text of a value: no white space, and the members of each object in byte order of their names."""
    if isinstance(value, dict):
        members = (f"{write_text(name)}:{write_json(value[name])}" for name in in_byte_order(value))
        return "{" + ",".join(members) + "}"
    if isinstance(value, (list, tuple)):
        return "[" + ",".join(map(write_json, value)) + "]"
    if isinstance(value, str):
        return write_text(value)
    return str(value)
