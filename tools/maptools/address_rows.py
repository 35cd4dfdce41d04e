"""Rows of address points and road centre lines, from CSV or GeoJSON, and the house numbers of each side of a line."""
from __future__ import annotations

import csv
import io
import re
from typing import Any, BinaryIO, Dict, Iterator, List, NamedTuple, Optional, Tuple

from maptools.address_columns import PREFIX_OF_RANGE, by_lower_name
from maptools.feature_stream import BYTE_ORDER_MARK, SEPARATOR, NotJson, stream_of
from maptools.meridian import Unfit

LONGEST_RANGE = 100_000
SIDES = {"_l": "left", "_r": "right"}
WHOLE = re.compile(r"[0-9]{1,9}(?:\.0+)?")
PARITIES = {"e": (0, 2), "o": (1, 2), "b": (None, 1), "z": (None, 0)}
Row = Dict[str, Any]


class Numbers(NamedTuple):
    """House numbers: what stands before each, and the numbers."""

    prefix: str
    span: range

    def texts(self) -> Iterator[str]:
        """Each number as a text."""
        return (f"{self.prefix}{number}" for number in self.span)


class Part(NamedTuple):
    """A row, or a side of one, with its house numbers if it is a side; where it stands."""

    place: str
    row: Row
    numbers: Optional[Numbers]


def delimiter_of(header: str) -> str:
    """What stands most often between the names of columns."""
    return max(",;\t|", key=header.count)


def csv_rows(file: BinaryIO) -> Iterator[Tuple[str, Any]]:
    """The rows of CSV, each with where it stands."""
    csv.field_size_limit(1 << 24)
    text = io.TextIOWrapper(file, encoding="utf-8-sig", newline="")
    header = text.readline()
    names = next(csv.reader([header], delimiter=delimiter_of(header)), [])
    reader = csv.reader(text, delimiter=delimiter_of(header))
    for values in reader:
        if any(values):
            yield f"line {reader.line_num + 1}", dict(zip([name.strip() for name in names], values))
    text.detach()


def geojson_rows(file: BinaryIO) -> Iterator[Tuple[str, Any]]:
    """The properties of features, each with where it stands."""
    for number, feature in enumerate(stream_of(file), 1):
        properties = feature.get("properties") if isinstance(feature, dict) else feature
        yield f"feature {number}", properties if properties is not None else {}


def rows_of(file: Any) -> Iterator[Tuple[str, Any]]:
    """The rows of a file, each with where it stands: GeoJSON where it begins so, and else CSV."""
    begin = file.peek(1024)
    begin = begin[len(BYTE_ORDER_MARK) :] if begin.startswith(BYTE_ORDER_MARK) else begin
    is_geojson = begin.lstrip()[:1] in (b"{", SEPARATOR)
    yield from geojson_rows(file) if is_geojson else csv_rows(file)


def whole_number(name: str, values: Dict[str, str]) -> Optional[int]:
    """The end of a range; None where there is none."""
    text = values.get(name, "")
    if not text:
        return None
    if not WHOLE.fullmatch(text):
        raise Unfit(f"has {text!r} as the end of a range, which is not a whole number")
    return int(text.partition(".")[0])


def parity_of(first: int, last: int, text: str) -> Tuple[Optional[int], int]:
    """What the numbers of a range leave when divided by two, if they all do, and the step between them; 0 for no numbers."""
    if text:
        if text.lower() not in PARITIES:
            raise Unfit(f"has the parity {text!r}, which is none of E, O, B and Z")
        return PARITIES[text.lower()]
    return (first % 2, 2) if first % 2 == last % 2 else (None, 1)


def numbers_of(values: Dict[str, str], side: str) -> Optional[Numbers]:
    """The house numbers of a side, of values by names in lower case; None where it has none."""
    first, last = whole_number(f"fromaddr{side}", values), whole_number(f"toaddr{side}", values)
    if first is None or last is None or first == last == 0:
        return None
    rest, step = parity_of(first, last, values.get(f"parity{side}", ""))
    if step == 0:
        return None
    low, high = sorted((first, last))
    if rest is not None and (low % 2 != rest or high % 2 != rest):
        raise Unfit(f"has a range from {first} to {last} whose parity is {values[f'parity{side}']!r}")
    if high - low > LONGEST_RANGE:
        raise Unfit(f"has a range from {first} to {last}, which is longer than {LONGEST_RANGE:,}: is it a mistake?")
    return Numbers(values.get(f"{PREFIX_OF_RANGE}{side}", ""), range(low, high + 1, step))


def row_of_side(row: Row, side: str) -> Row:
    """A row with the columns of one side under the names that points have, and without those of the other."""
    own = {name[:-2]: value for name, value in row.items() if name.lower().endswith(side)}
    return {**{name: value for name, value in row.items() if name[-2:].lower() not in SIDES}, **own}


def is_centre_line(row: Row) -> bool:
    """Whether a row has ranges."""
    return any(name.lower() in ("fromaddr_l", "fromaddr_r") for name in row)


def sides_of(place: str, row: Row) -> List[Part]:
    """The sides of a centre line that have house numbers."""
    values, parts = by_lower_name(row), []
    for side, name in SIDES.items():
        try:
            numbers = numbers_of(values, side)
        except Unfit as unfit:
            raise Unfit(unfit.cause, f"its {name} side") from None
        if numbers is not None:
            parts.append(Part(f"{place}, {name} side", row_of_side(row, side), numbers))
    return parts


def parts_of(place: str, row: Any) -> List[Part]:
    """A row as one part, or the sides of a centre line."""
    if isinstance(row, NotJson):
        raise Unfit(row.cause)
    if not isinstance(row, dict):
        raise Unfit("has no properties")
    return sides_of(place, row) if is_centre_line(row) else [Part(place, row, None)]
