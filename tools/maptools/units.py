"""Degrees and whole units of 1e-7 degrees, and the points of a command line."""
from __future__ import annotations

from decimal import MAX_EMAX, MAX_PREC, MIN_EMIN, ROUND_HALF_EVEN, Context, Decimal, InvalidOperation
from typing import List, Tuple, Union

from maptools.rings import is_pair
from maptools.texts import Point

EXACT = Context(prec=MAX_PREC, Emax=MAX_EMAX, Emin=MIN_EMIN, rounding=ROUND_HALF_EVEN)


def rounded_units(degrees: Union[int, Decimal]) -> int:
    """Degrees in whole units, exactly; what lies between goes to the nearest, a half to the even one."""
    return int(EXACT.to_integral_value(EXACT.scaleb(degrees, 7)))


def units_of(text: str) -> int:
    """A text of degrees in whole units; ValueError where it is none, or far out of range."""
    try:
        degrees = Decimal(text.strip())
    except InvalidOperation:
        raise ValueError(f"{text!r} is not a number of degrees") from None
    if not degrees.is_finite() or not -1000 < degrees < 1000:
        raise ValueError(f"{text!r} is out of range; for whole units give --units")
    return rounded_units(degrees)


def degrees_of(units: int) -> str:
    """Whole units as degrees, exactly, without zeros at the end."""
    return format(Decimal(units).scaleb(-7).normalize(), "f")


def text_of(position: Point) -> str:
    """A position as text of degrees, in the shortest spelling."""
    return f"{degrees_of(position[0])} {degrees_of(position[1])}"


def point_of(text: str, is_in_units: bool) -> Point:
    """LAT,LON as a point; ValueError where it is none, or out of range."""
    parts = text.split(",")
    if len(parts) != 2:
        raise ValueError(f"{text!r} is not LAT,LON")
    latitude, longitude = (int(part) if is_in_units else units_of(part) for part in parts)
    if not is_pair([latitude, longitude]):
        raise ValueError(f"{text!r} is out of range: latitude first, at most 90, then longitude, at most 180")
    return latitude, longitude


def box_of(text: str, is_in_units: bool) -> Tuple[Point, Point]:
    """SOUTH,WEST,NORTH,EAST as two corners; ValueError where it is none."""
    parts = text.split(",")
    if len(parts) != 4:
        raise ValueError(f"{text!r} is not SOUTH,WEST,NORTH,EAST")
    low, high = (point_of(",".join(corner), is_in_units) for corner in (parts[:2], parts[2:]))
    if low[0] >= high[0] or low[1] >= high[1]:
        raise ValueError(f"{text!r} is not SOUTH,WEST,NORTH,EAST: the south-west corner comes first")
    return low, high


def joined(words: List[str]) -> List[str]:
    """The words of a command line, with --point or --bbox and the word after it as one, which may begin with a minus sign."""
    result: List[str] = []
    for word in words:
        if result and result[-1] in ("--point", "--bbox"):
            result[-1] = f"{result[-1]}={word}"
        else:
            result.append(word)
    return result
