"""Spells values as JSON in many ways, and breaks the bytes of a line."""
import random

BLANKS = ["", "", "", " ", "\t", "\r", " \t", "\r "]
SHORT_ESCAPES = {"\b": "\\b", "\t": "\\t", "\n": "\\n", "\f": "\\f", "\r": "\\r"}
BYTES_PUT_IN = bytes([0xFF, 0x80, 0xC0, 0xE9, 0, 1, 127, 32, 13, 9, 11, 12]) + b'",\\0-'
BYTES_PUT_OVER = b'"{}[],:0-1ae\\ .'
FRONTS = [b" ", b"\r", b"\t", b"\xef\xbb\xbf", b"\x0b", b"x", b"\xc2\xa0"]
ENDS = [b" ", b"\r", b"x", b"\x00", b"{}", b",", b"\t\r ", b"\xef\xbb\xbf", b"\x0c"]
WHOLE_LINES = [
    b"", b" ", b"\r", b"null", b"[]", b"{}", b"0", b'""', b"x", b"\xff", b'{"":{}}', b'{"commit":{}} {"commit":{}}',
    b'{"commit":[]}', b'{"commit":{}}\r',
]
DEPTHS = [60, 124, 125, 126, 127, 128, 200]


class Spelled(str):
    """A value that is given by its JSON text."""


class Dice(random.Random):
    """What draws a session."""

    def chance(self, share):
        """Whether something comes that comes in this share of the draws."""
        return self.random() < share

    def by_weight(self, weights):
        """One of the names of a dictionary, by its weight."""
        return self.choices(list(weights), list(weights.values()))[0]


def escaped(dice, character):
    """A character by its digits."""
    if ord(character) < 0x10000:
        return dice.choice(["\\u%04x", "\\u%04X"]) % ord(character)
    high, low = divmod(ord(character) - 0x10000, 0x400)
    return "\\u%04x\\u%04X" % (0xD800 + high, 0xDC00 + low)


def spelled_character(dice, character, is_digits_wanted):
    """A character of a text: escaped where it must be, and here and there where it need not be."""
    if is_digits_wanted and dice.chance(0.4):
        return escaped(dice, character)
    if character in '"\\' or character == "/" and dice.chance(0.3):
        return "\\" + character
    if character in SHORT_ESCAPES and dice.chance(0.7):
        return SHORT_ESCAPES[character]
    return escaped(dice, character) if character < " " else character


def spelled_text(dice, text):
    """A text as JSON; a few texts have characters by their digits."""
    is_digits_wanted = dice.chance(0.05)
    return '"' + "".join(spelled_character(dice, character, is_digits_wanted) for character in text) + '"'


def spelled(dice, value, with_blanks):
    """A value as JSON, the members of objects in any order."""

    def blank():
        return dice.choice(BLANKS) if with_blanks else ""

    def joined(items):
        return blank() + (blank() + "," + blank()).join(items) + blank()

    if isinstance(value, Spelled):
        return str(value)
    if isinstance(value, str):
        return spelled_text(dice, value)
    if isinstance(value, list):
        return "[" + joined([spelled(dice, item, with_blanks) for item in value]) + "]"
    if isinstance(value, dict):
        names = dice.sample(list(value), len(value))
        items = [(spelled_text(dice, name), spelled(dice, value[name], with_blanks)) for name in names]
        return "{" + joined([name + blank() + ":" + blank() + item for name, item in items]) + "}"
    if value is None or isinstance(value, bool):
        return {None: "null", True: "true", False: "false"}[value]
    return str(value)


def nested(dice):
    """Lists or objects that nest about as deep as they may."""
    depth = dice.choice(DEPTHS)
    return "[" * depth + "]" * depth if dice.chance(0.5) else '{"a":' * depth + "1" + "}" * depth


def with_member(line, piece):
    """A line whose inner object has one more member, of the piece as its value; the piece where there is no object."""
    place = line.find(b"{", line.find(b":")) + 1
    if place == 0:
        return piece
    comma = b"" if line[place:].lstrip().startswith(b"}") else b","
    return line[:place] + b'"member":' + piece + comma + line[place:]


def broken(dice, line, pieces):
    """A line of bytes with a byte or a piece of JSON too many, too few or another."""
    way = dice.by_weight({"cut": 10, "in": 10, "out": 10, "over": 7, "end": 5, "front": 4, "line": 4, "piece": 50})
    place = dice.randrange(len(line))
    front, end = line[:place], line[place + 1 :]
    if way == "cut":
        return front
    if way == "in":
        return front + bytes([dice.choice(BYTES_PUT_IN)]) + line[place:]
    if way == "out":
        return front + end
    if way == "over":
        return front + bytes([dice.choice(BYTES_PUT_OVER)]) + end
    if way == "end":
        return line + dice.choice(ENDS)
    if way == "front":
        return dice.choice(FRONTS) + line
    if way == "line":
        return dice.choice(WHOLE_LINES)
    piece = dice.choice(pieces) if dice.chance(0.85) else nested(dice)
    return with_member(line, piece.encode())
