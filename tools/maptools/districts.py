"""The districts of a list of addresses: their entries, what their rows have in common, and how their patterns are split."""
from __future__ import annotations

from typing import Any, Dict, List, Set, Tuple

from maptools.address_columns import elements_of, folded
from maptools.address_rows import Part, parts_of
from maptools.desk_rules import CIVIC, MOST_REGIONS
from maptools.fewest_patterns import Cover, Entry
from maptools.left_out import LeftOut
from maptools.meridian import Unfit
from maptools.templates import Template, fill

MOST_PATTERNS = MOST_REGIONS[CIVIC]
Pattern = Dict[str, str]


class District:
    """A district: its name and number, the columns that its rows have in common, and how many different rows."""

    def __init__(self, name: str, number: int, part: Part) -> None:
        self.name, self.number, self.first = name, number, part
        self.differing: Dict[str, str] = {}
        self.rows = 0

    def compare(self, part: Part, names: List[str]) -> None:
        """Notes in which of these columns a row differs from the first one of the district."""
        for name in names:
            mine, its = self.first.row.get(name), part.row.get(name)
            if mine != its and name not in self.differing:
                self.differing[name] = f"has {mine!r} as {name!r} at {self.first.place}, and {its!r} at {part.place}"

    def properties(self) -> Dict[str, Any]:
        """What stands for names in templates; Unfit where a column that is asked for differs."""
        for cause in self.differing.values():
            raise Unfit(cause)
        return {**self.first.row, "@district": self.name, "@number": self.number}


class Districts:
    """The entries of all rows, and the districts in the order in which they come."""

    def __init__(self, template: Template, elements: Dict[str, Template], names: List[str]) -> None:
        self.template, self.elements = template, elements
        self.names = sorted({name for name in names if not name.startswith("@")})
        self.by_name: Dict[str, District] = {}
        self.entries: List[Entry] = []
        self.known: Set[Tuple[Any, ...]] = set()

    def take(self, place: str, row: Any, left_out: LeftOut) -> None:
        """Takes a row; what of it is unfit is left out."""
        for part in parts_of(place, row):
            left_out.look(part.row)
            try:
                self.take_part(part)
            except Unfit as unfit:
                left_out.add(part.place, unfit)

    def take_part(self, part: Part) -> None:
        """Takes a row or a side of one."""
        name = fill(self.template, part.row)
        elements = elements_of(part.row, self.elements)
        if part.numbers:
            elements.pop("HNO", None)
        if not name:
            raise Unfit("has no district")
        if not elements:
            raise Unfit("has no element of an address: name the columns with --element, such as RD={street}")
        district = self.by_name.setdefault(name, District(name, len(self.by_name) + 1, part))
        district.compare(part, self.names)
        self.add(district, part, elements)

    def add(self, district: District, part: Part, elements: Dict[str, str]) -> None:
        """Adds an entry, unless the district has it already."""
        texts = {element: folded(value) for element, value in elements.items()}
        known = (district.name, part.numbers, *sorted(texts.items()))
        if known not in self.known:
            self.known.add(known)
            self.entries.append(Entry(part.place, district.name, elements, texts, part.numbers))
            district.rows += 1


def parts_of_cover(cover: Cover, is_split: bool) -> List[List[Pattern]]:
    """The patterns of each mapping of a district; patterns that share an address are in one. Unfit where they do not fit."""
    patterns = cover.patterns()
    if len(patterns) <= MOST_PATTERNS:
        return [patterns]
    longest = max(map(len, cover.groups))
    if longest > MOST_PATTERNS:
        raise Unfit(f"needs {longest} patterns that share addresses, and a mapping has at most {MOST_PATTERNS}: draw it, or make districts of it")
    parts: List[List[Pattern]] = [[]]
    for group in cover.groups:
        if len(parts[-1]) + len(group) > MOST_PATTERNS:
            parts.append([])
        parts[-1] += group
    if not is_split:
        raise Unfit(f"needs {len(patterns)} patterns, and a mapping has at most {MOST_PATTERNS}: --split makes {len(parts)} mappings of it")
    return parts
