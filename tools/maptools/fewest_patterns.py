"""The fewest civic patterns that give each address of a list to its district, and none to another one.

A pattern names the place down to the town, and then nothing more, or the street, or the house number, and so on inwards; it
may name the postal code, the postal community and the parts of the town besides. It is right for a district if it matches no
address of the list that is another district's. So where all streets of a town are one district's, one pattern serves them.
"""
from __future__ import annotations

import functools
import itertools
from typing import Dict, FrozenSet, Iterable, Iterator, List, NamedTuple, Optional, Set, Tuple

from maptools.address_columns import folded
from maptools.address_rows import Numbers
from maptools.set_cover import fewest

PLACES = ["country", "A1", "A2", "A3", "A4", "A5", "A6"]
TOWN = "A3"
BESIDE = ["A4", "A5", "A6", "PC", "PCN"]
STREET = ["PRM", "PRD", "RD", "STS", "POD", "POM", "RDSEC", "RDBR", "RDSUBBR"]
NUMBER = ["HNO", "HNS"]
INWARDS = [STREET, NUMBER, ["BLD"], ["FLR"], ["UNIT"], ["ROOM"], ["SEAT"], ["LMK", "NAM", "LOC", "PLC", "ADDCODE", "POBOX"]]
HNO = "HNO"

Names = FrozenSet[str]
Key = Tuple[str, ...]


class Entry(NamedTuple):
    """An address of the list, or as many as there are numbers: where it stands, its district, its elements and their
    comparison texts."""

    place: str
    district: str
    elements: Dict[str, str]
    folded: Dict[str, str]
    numbers: Optional[Numbers]

    def names(self) -> Names:
        """The elements that its addresses have."""
        return frozenset(self.elements) | ({HNO} if self.numbers else frozenset())


class Item(NamedTuple):
    """One address: an entry, and the house number where the entry has many."""

    entry: Entry
    number: Optional[str]


class Clash(NamedTuple):
    """An address that no pattern tells from one of another district."""

    entry: Entry
    number: Optional[str]
    other: Entry


class Candidate(NamedTuple):
    """A pattern: the elements that it names, with their comparison texts."""

    names: Names
    key: Key


class Cover(NamedTuple):
    """The patterns of a district, in groups that have addresses in common."""

    groups: List[List[Dict[str, str]]]

    def patterns(self) -> List[Dict[str, str]]:
        """All patterns."""
        return [pattern for group in self.groups for pattern in group]


def levels_of(whole: str) -> Tuple[List[str], List[List[str]], List[str]]:
    """The elements that each pattern names, what it may name inwards, and what besides, where all of each `whole` is known."""
    place = PLACES.index(whole) + 1
    inner = [[name] for name in PLACES[place : PLACES.index(TOWN) + 1]]
    return PLACES[:place], inner + INWARDS, [name for name in BESIDE if name not in PLACES[:place]]


def bases_of(names: Names, whole: str) -> Iterator[Names]:
    """The elements of the patterns for an address of these elements, without those besides; the widest first."""
    fixed, inwards, _ = levels_of(whole)
    base = frozenset(fixed) & names
    if whole in names:
        yield base
    for level in inwards:
        inner = names & frozenset(level)
        if inner:
            base |= inner
            yield base


def signatures_of(names: Names, whole: str) -> List[Names]:
    """The elements of each pattern for an address of these elements, each once; the fewest first."""
    beside = [name for name in levels_of(whole)[2] if name in names]
    bases = list(bases_of(names, whole)) or [names]
    found = [
        base | frozenset(more) for count in range(len(beside) + 1) for base in bases for more in itertools.combinations(beside, count)
    ]
    return sorted(dict.fromkeys(signature for signature in found if signature), key=len)


class Owner:
    """Whose the addresses are that a pattern matches: those of one district, or also of another one."""

    __slots__ = ("first", "other")

    def __init__(self, first: Entry) -> None:
        self.first, self.other = first, None  # type: Entry, Optional[Entry]

    def add(self, entry: Entry) -> None:
        """One more address that the pattern matches."""
        if self.other is None and entry.district != self.first.district:
            self.other = entry


class Patterns:
    """Looks for the fewest patterns. Houses of a range are told apart only where their streets do not say enough."""

    def __init__(self, entries: List[Entry], whole: str = TOWN) -> None:
        self.whole = whole
        self.shapes: Dict[Names, List[Entry]] = {}
        for entry in entries:
            self.shapes.setdefault(entry.names(), []).append(entry)
        self.owners: Dict[Names, Dict[Key, Owner]] = {}
        self.clashes: List[Clash] = []
        self.rows: Dict[str, Dict[FrozenSet[Candidate], Item]] = {}
        self.covers: Dict[str, Cover] = {}

    def find(self) -> None:
        """Finds the patterns of each district, and the addresses that none can have."""
        signatures = {names: signatures_of(names, self.whole) for names in self.shapes}
        upper = {signature for own in signatures.values() for signature in own if HNO not in signature}
        for signature in upper:
            self.look_at(signature)
        waiting = self.waiting_after(upper)
        deeper = needed_below(waiting, signatures)
        for signature, needed in deeper.items():
            self.look_below(signature, needed)
        self.settle_upper(upper, deeper)
        self.settle_below(waiting, deeper)
        for district, rows in self.rows.items():
            self.covers[district] = cover_of(rows)

    def own(self, signature: Names, key: Key, entry: Entry) -> None:
        """Notes that a pattern matches an address."""
        owners = self.owners.setdefault(signature, {})
        owner = owners.get(key)
        if owner is None:
            owners[key] = Owner(entry)
        else:
            owner.add(entry)

    def look_at(self, signature: Names) -> None:
        """Notes whose the patterns of these elements are, which have no house number."""
        order = order_of(signature)
        for names, entries in self.shapes.items():
            if signature <= names:
                for entry in entries:
                    self.own(signature, tuple([entry.folded[name] for name in order]), entry)

    def right_ones(self, item: Item, signatures: Iterable[Names]) -> List[Candidate]:
        """The patterns that match an address and none of another district: only those that no other one is a part of."""
        right: List[Candidate] = []
        for signature in signatures:
            if any(candidate.names < signature for candidate in right):
                continue
            key = key_of(item, signature)
            owner = self.owners.get(signature, {}).get(key)
            if owner is not None and owner.other is None:
                right.append(Candidate(signature, key))
        return right

    def take(self, item: Item, candidates: List[Candidate]) -> None:
        """Notes that an address needs one of these patterns."""
        self.rows.setdefault(item.entry.district, {}).setdefault(frozenset(candidates), item)

    def waiting_after(self, upper: Set[Names]) -> Dict[Names, List[Entry]]:
        """The entries that no pattern without a house number serves, by their elements."""
        waiting: Dict[Names, List[Entry]] = {}
        for names, entries in self.shapes.items():
            signatures = within(upper, names)
            left = [entry for entry in entries if not self.right_ones(Item(entry, None), signatures)]
            if left:
                waiting[names] = left
        return waiting

    def settle_upper(self, upper: Set[Names], deeper: Dict[Names, Set[Key]]) -> None:
        """Takes the entries that a pattern without a house number serves. One with a single house may also share a pattern
        with a house number that others need."""
        for names, entries in self.shapes.items():
            above, below = within(upper, names), within(deeper, names)
            for entry in entries:
                item = Item(entry, None)
                right = self.right_ones(item, above)
                shared = [] if entry.numbers else [one for one in below if key_without_number(entry, one) in deeper[one]]
                if right:
                    self.take(item, self.right_ones(item, above + shared) if shared else right)

    def look_below(self, signature: Names, needed: Set[Key]) -> None:
        """Notes whose the patterns of these elements are, where they are needed."""
        for names, entries in self.shapes.items():
            if signature <= names:
                for entry in entries:
                    if key_without_number(entry, signature) in needed:
                        for item in items_of(entry):
                            self.own(signature, key_of(item, signature), entry)

    def settle_below(self, waiting: Dict[Names, List[Entry]], deeper: Dict[Names, Set[Key]]) -> None:
        """Takes each house of the entries that wait; what no pattern serves is a clash."""
        for names, entries in waiting.items():
            signatures = within(deeper, names)
            for entry in entries:
                for item in items_of(entry):
                    right = self.right_ones(item, signatures)
                    if right:
                        self.take(item, right)
                    else:
                        self.clashes.append(Clash(entry, item.number, self.rival(item, names)))

    def rival(self, item: Item, names: Names) -> Entry:
        """An entry of another district that each pattern for an address matches too."""
        signature = signatures_of(names, self.whole)[-1]
        owner = self.owners[signature][key_of(item, signature)]
        return owner.first if owner.first.district != item.entry.district else owner.other or owner.first


def within(signatures: Iterable[Names], names: Names) -> List[Names]:
    """The signatures that an address of these elements has; the fewest elements first."""
    return sorted((signature for signature in signatures if signature <= names), key=lambda one: (len(one), order_of(one)))


def needed_below(waiting: Dict[Names, List[Entry]], signatures: Dict[Names, List[Names]]) -> Dict[Names, Set[Key]]:
    """The patterns with a house number for the entries that wait, by their elements, without the number."""
    needed: Dict[Names, Set[Key]] = {}
    for names, entries in waiting.items():
        for signature in signatures[names]:
            if HNO in signature:
                keys = needed.setdefault(signature, set())
                keys.update(key_without_number(entry, signature) for entry in entries)
    return needed


def items_of(entry: Entry) -> Iterator[Item]:
    """The addresses of an entry."""
    return (Item(entry, number) for number in entry.numbers.texts()) if entry.numbers else iter((Item(entry, None),))


@functools.lru_cache(maxsize=None)
def order_of(signature: Names) -> Tuple[str, ...]:
    """The names of a signature in order."""
    return tuple(sorted(signature))


def key_of(item: Item, signature: Names) -> Key:
    """The comparison texts of an address, in the order of the names."""
    texts, number = item.entry.folded, item.number
    if number is None:
        return tuple([texts[name] for name in order_of(signature)])
    return tuple([folded(number) if name == HNO else texts[name] for name in order_of(signature)])


def key_without_number(entry: Entry, signature: Names) -> Key:
    """The comparison texts of an entry but for the house number."""
    return tuple([entry.folded[name] for name in order_of(signature) if name != HNO])


def spelled(candidate: Candidate, item: Item) -> Dict[str, str]:
    """A pattern with the values of an address that it matches."""
    elements = item.entry.elements if item.number is None else {**item.entry.elements, HNO: item.number}
    return {name: elements[name] for name in elements if name in candidate.names}


def in_order(candidate: Candidate) -> Tuple[int, Key, List[str]]:
    """Patterns in order: the fewest elements first."""
    return len(candidate.names), candidate.key, sorted(candidate.names)


def cover_of(rows: Dict[FrozenSet[Candidate], Item]) -> Cover:
    """The fewest patterns for the addresses of a district, given which serve each."""
    ranked = sorted({candidate for row in rows for candidate in row}, key=in_order)
    number_of = {candidate: number for number, candidate in enumerate(ranked)}
    numbered = {frozenset(number_of[candidate] for candidate in row): item for row, item in rows.items()}
    chosen = fewest(numbered)
    groups: List[Set[int]] = []
    spelling: Dict[int, Dict[str, str]] = {}
    for row, item in numbered.items():
        serving = row & chosen
        for number in serving - set(spelling):
            spelling[number] = spelled(ranked[number], item)
        if len(serving) > 1:
            groups.append(set(serving))
    return Cover([[spelling[number] for number in sorted(group)] for group in joined_groups(chosen, groups)])


def joined_groups(chosen: Set[int], pairs: List[Set[int]]) -> List[Set[int]]:
    """What is chosen, in groups that have addresses in common."""
    group_of = {number: {number} for number in chosen}
    for pair in pairs:
        whole = set().union(*(group_of[number] for number in pair))
        group_of.update({number: whole for number in whole})
    return [group_of[number] for number in sorted(chosen) if min(group_of[number]) == number]
