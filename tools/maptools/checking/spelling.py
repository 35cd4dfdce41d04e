"""Texts that are nearly the same: one letter off, or but for case and white space."""
from __future__ import annotations

from collections import defaultdict
from typing import Dict, Iterable, Iterator, List, Set, Tuple

from maptools.texts import SERVICE_PREFIX

# The services of RFC 5031, and those that RFC 6881 and RFC 8147 add.
REGISTERED = frozenset(
    SERVICE_PREFIX + name
    for name in (
        "sos sos.ambulance sos.animal-control sos.fire sos.gas sos.marine sos.mountain sos.physician sos.poison sos.police "
        "counseling counseling.children counseling.mental-health counseling.suicide "
        "test.sos sos.ecall sos.ecall.automatic sos.ecall.manual"
    ).split()
)
# Schemes by which centres are reached.
KNOWN_SCHEMES = frozenset("sip sips tel xmpp im pres mailto http https h323 sms".split())


def without_one(text: str) -> Iterator[str]:
    """A text without each of its letters in turn."""
    return (text[:place] + text[place + 1 :] for place in range(len(text)))


def is_one_off(one: str, other: str) -> bool:
    """Whether one letter too many, too few, or for another, or two letters in the other order, make one text the other."""
    if one == other or abs(len(one) - len(other)) > 1:
        return False
    begin = next((place for place, (a, b) in enumerate(zip(one, other)) if a != b), min(len(one), len(other)))
    a, b = one[begin:], other[begin:]
    return a[1:] == b or a == b[1:] or a[1:] == b[1:] or (a[1:2] + a[:1] == b[:2] and a[2:] == b[2:])


def differ_in_digits(one: str, other: str) -> bool:
    """Whether two texts are the same but for their digits, as numbered ones are."""
    return one.translate(NO_DIGITS) == other.translate(NO_DIGITS)


NO_DIGITS = {ord(digit): None for digit in "0123456789"}


def one_off_pairs(texts: Iterable[str]) -> List[Tuple[str, str]]:
    """The pairs of texts that are one letter off, in order."""
    by_rest: Dict[str, Set[str]] = defaultdict(set)
    for text in texts:
        for rest in (text, *without_one(text)):
            by_rest[rest].add(text)
    near = {(one, other) for group in by_rest.values() for one in group for other in group if one < other}
    return sorted(pair for pair in near if is_one_off(*pair) and not differ_in_digits(*pair))


def folded(text: str) -> str:
    """A text without case and white space."""
    return "".join(text.split()).casefold()


def alike(texts: Iterable[str]) -> List[List[str]]:
    """The groups of different texts that differ only in case or white space."""
    groups: Dict[str, Set[str]] = defaultdict(set)
    for text in texts:
        groups[folded(text)].add(text)
    return sorted(sorted(group) for group in groups.values() if len(group) > 1)
