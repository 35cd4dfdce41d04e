"""Addresses and tokens for which two mappings of a service answer, and patterns that decide nothing."""
from __future__ import annotations

from collections import defaultdict
from typing import Dict, Iterator, List, NamedTuple, Sequence, Set, Tuple

from maptools.checking.findings import ERROR, WARNING, Finding
from maptools.checking.subjects import Subject, names_of
from maptools.texts import lowered

WHITE = "\t\n\v\f\r "

Names = Tuple[str, ...]
Values = Tuple[str, ...]


class Place(NamedTuple):
    """A pattern of a mapping: whose, and its number there."""

    owner: int
    number: int


def comparison_text(value: str) -> str:
    """What of a value counts: no case, no white space at its ends, one space for each run of it."""
    for white in WHITE:
        value = value.replace(white, " ")
    return lowered(" ".join(part for part in value.split(" ") if part))


def shown(pattern: Dict[str, str]) -> str:
    """A pattern as an address that people read."""
    return ", ".join(f"{name} {value}" for name, value in pattern.items())


class Patterns:
    """The patterns of a service's mappings, found by what they name."""

    def __init__(self, subjects: Sequence[Subject]) -> None:
        self.subjects = subjects
        self.index: Dict[Names, Dict[Values, List[Place]]] = defaultdict(lambda: defaultdict(list))
        for owner, subject in enumerate(subjects):
            for number, pattern in enumerate(subject.patterns, 1):
                names = tuple(sorted(pattern))
                self.index[names][tuple(comparison_text(pattern[name]) for name in names)].append(Place(owner, number))

    def matching(self, address: Dict[str, str]) -> Iterator[Place]:
        """The patterns that match an address."""
        texts = {name: comparison_text(value) for name, value in address.items()}
        for names, places in self.index.items():
            if all(name in texts for name in names):
                yield from places.get(tuple(texts[name] for name in names), ())


def redundant_finding(subject: Subject, number: int, others: List[int]) -> Finding:
    """A pattern whose addresses another one of its mapping matches, too."""
    same = [other for other in others if len(subject.patterns[other - 1]) == len(subject.patterns[number - 1])]
    pattern = shown(subject.patterns[number - 1])
    if same:
        text = f"pattern {number} of {subject.name} ({pattern}) is pattern {same[0]} again"
    else:
        text = f"pattern {number} of {subject.name} ({pattern}) decides nothing: pattern {others[0]} matches all that it matches"
    return Finding("pattern-double" if same else "pattern-unreachable", WARNING, subject.service, (subject.identity,), text)


def is_first(subject: Subject, number: int, other: int) -> bool:
    """Whether of two patterns that match the same the other one is to stay: the shorter one, then the first."""
    lengths = len(subject.patterns[other - 1]), len(subject.patterns[number - 1])
    return lengths[0] < lengths[1] or (lengths[0] == lengths[1] and other < number)


def pattern_findings(service: str, subjects: Sequence[Subject]) -> Iterator[Finding]:
    """Patterns that decide nothing, and addresses in patterns for which two mappings answer: each set of mappings once."""
    patterns = Patterns(subjects)
    shared: Dict[Tuple[int, ...], List[Dict[str, str]]] = {}
    for owner, subject in enumerate(subjects):
        for number, pattern in enumerate(subject.patterns, 1):
            places = list(patterns.matching(pattern))
            own = [place.number for place in places if place.owner == owner and place.number != number]
            first = [other for other in own if is_first(subject, number, other)]
            if first:
                yield redundant_finding(subject, number, first)
            owners = tuple(sorted({place.owner for place in places}))
            if len(owners) > 1:
                shared.setdefault(owners, []).append(pattern)
    for owners, addresses in sorted(shared.items()):
        identities = tuple(subjects[owner].identity for owner in owners)
        more = f" and for {len(addresses) - 1} more" if len(addresses) > 1 else ""
        text = f"{names_of(identities)} all answer for the address {shown(addresses[0])}{more}"
        yield Finding("address-overlap", ERROR, service, identities, text, address=addresses[0])


def token_findings(service: str, subjects: Sequence[Subject]) -> Iterator[Finding]:
    """Tokens for which two mappings answer: each set of mappings once."""
    owners: Dict[str, Set[int]] = defaultdict(set)
    for owner, subject in enumerate(subjects):
        for token in (token for tokens in subject.token_sets for token in tokens):
            owners[token].add(owner)
    shared: Dict[Tuple[int, ...], List[str]] = defaultdict(list)
    for token, having in owners.items():
        if len(having) > 1:
            shared[tuple(sorted(having))].append(token)
    for having, tokens in sorted(shared.items()):
        identities = tuple(subjects[owner].identity for owner in having)
        more = f" and for {len(tokens) - 1} more" if len(tokens) > 1 else ""
        text = f"{names_of(identities)} all answer for the token {tokens[0]!r}{more}"
        yield Finding("token-overlap", ERROR, service, identities, text, token=tokens[0])
