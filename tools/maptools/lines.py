"""The JSON of the lines."""
from __future__ import annotations

import json
import math
import re
from json.encoder import c_make_encoder, encode_basestring
from typing import Any, Optional, Tuple

from maptools.texts import is_unicode

LONGEST_LINE = 1_048_576
DEEPEST_LINE = 127
MOST_DIGITS = 300
# What tells -0 and numbers of too many digits, which Python's own reading takes for other ones; such may stand in a text, too.
MINUS_ZERO = re.compile(rb"-0(?![0-9.eE])")
DIGITS_AS_ZERO = bytes.maketrans(b"123456789", b"000000000")
# A list that has neither lists, objects nor texts, such as a position.
PLAIN_LIST = re.compile(rb"\[[^][{}\"]*\]")
COMPACT = json.JSONEncoder(ensure_ascii=False, separators=(",", ":"), sort_keys=True)
# What COMPACT itself makes anew for each value, which takes half of the time of a short line; it looks for no circles.
ENCODER = c_make_encoder(None, COMPACT.default, encode_basestring, None, ":", ",", True, False, True)


def finite_number(text: str) -> float:
    """A number with a fraction or an exponent; one that is too large for 64 bits is not accepted."""
    number = float(text)
    if math.isinf(number):
        raise ValueError(f"{text} is too large")
    return number


def whole_number(text: str) -> Any:
    """A JSON number without fraction and exponent; -0 is no whole number, and one of hundreds of digits is not accepted."""
    return -0.0 if text == "-0" else int(text) if len(text) < MOST_DIGITS else finite_number(text)


def has_odd_number(line: bytes) -> bool:
    """Whether a line may have a number that must be looked at."""
    return MINUS_ZERO.search(line) is not None or b"0" * MOST_DIGITS in line.translate(DIGITS_AS_ZERO)


def is_shallow(line: bytes) -> bool:
    """Whether a line has so few brackets beyond its innermost lists that it cannot be too deep; most lines have."""
    rest = PLAIN_LIST.sub(b"", line)
    return rest.count(b"[") + rest.count(b"{") < DEEPEST_LINE


def is_deeper(value: Any, levels: int) -> bool:
    """Whether lists and objects lie in one another more than so many levels deep."""
    if not isinstance(value, (list, dict)):
        return False
    inner = value.values() if isinstance(value, dict) else value
    return levels == 0 or any(is_deeper(item, levels - 1) for item in inner)


def refuse_constant(name: str) -> Any:
    """NaN and Infinity are no JSON."""
    raise ValueError(f"{name} is not JSON")


def line_of(value: Any) -> str:
    """A value as one compact line, the members of objects in order of their names, without the newline."""
    return "".join(ENCODER(value, 0))


DECODER = json.JSONDecoder(parse_float=finite_number, parse_constant=refuse_constant)
# What asks for each whole number takes twice as long.
CAREFUL = json.JSONDecoder(parse_int=whole_number, parse_float=finite_number, parse_constant=refuse_constant)


def read_line(line: bytes) -> Optional[Tuple[str, Any]]:
    """The name and the value of the one member of a line. None where it is no such line, or too long."""
    if len(line) > LONGEST_LINE:
        return None
    try:
        value = (CAREFUL if has_odd_number(line) else DECODER).decode(line.decode())
    except (ValueError, RecursionError):
        return None
    if not isinstance(value, dict) or len(value) != 1 or not is_shallow(line) and is_deeper(value, DEEPEST_LINE):
        return None
    if b"\\u" in line and not is_unicode(line_of(value)):
        return None
    return next(iter(value.items()))
