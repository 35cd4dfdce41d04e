"""The mappings of a map as a check looks at them: the members, and the boundary in a form that takes little memory."""
from __future__ import annotations

import hashlib
from typing import Any, Dict, Iterable, List, NamedTuple, Tuple

import numpy

from maptools.desk_rules import CIVIC, GEODETIC, MEMBERS, TOKEN, Identity, contents_of, identity_of, mapping_fault
from maptools.outlines import digest_of
from maptools.texts import service_of

# A closed ring: rows of latitude and longitude, in whole units. Both fit into 32 bits.
Ring = Any


class Subject(NamedTuple):
    """A mapping. `members` has all but its boundary."""

    identity: Identity
    service: str
    members: Dict[str, Any]
    rings: List[Ring]
    patterns: List[Dict[str, str]]
    token_sets: List[List[str]]

    @property
    def name(self) -> str:
        """Source and sourceId, as texts name the mapping."""
        return " ".join(self.identity)

    def is_default(self) -> bool:
        """Whether it stands in where no mapping holds the place."""
        return self.members.get("default") is True


class BadMapping(ValueError):
    """A mapping that no server takes."""


def ring_of(positions: Iterable[Any]) -> Ring:
    """Positions in pairs as an array."""
    return numpy.array(list(positions), dtype=numpy.int32).reshape(-1, 2)


def subject_of(value: Dict[str, Any], rings: List[Ring]) -> Subject:
    """The mapping of a value that codes 1 to 12 let through, with its polygons."""
    members = {name: member for name, member in value.items() if name != "serviceBoundary"}
    patterns, token_sets = contents_of(value, CIVIC), contents_of(value, TOKEN)
    return Subject(identity_of(value), str(service_of(value["service"])), members, rings, patterns, token_sets)


def subjects_of(mappings: Iterable[Dict[str, Any]]) -> List[Subject]:
    """The mappings of values; BadMapping where one is none."""
    result = []
    for value in mappings:
        fault = mapping_fault(value)
        if fault:
            raise BadMapping(fault.what)
        result.append(subject_of(value, list(map(ring_of, contents_of(value, GEODETIC)))))
    return result


def entry_of(subject: Subject) -> Dict[str, Any]:
    """What stands for a mapping in a book: what the book's rules look at, with digests of its regions."""
    rings = [hashlib.blake2b(ring.tobytes(), digest_size=16).hexdigest() for ring in subject.rings]
    digests = {GEODETIC: "".join(rings), CIVIC: digest_of(subject.patterns), TOKEN: digest_of(subject.token_sets)}
    boundary = [{"profile": profile, member: digests[profile]} for profile, member in MEMBERS.items()]
    return {**subject.members, "serviceBoundary": boundary}


def by_service(subjects: Iterable[Subject]) -> List[Tuple[str, List[Subject]]]:
    """The mappings of each service, in the order of the services."""
    groups: Dict[str, List[Subject]] = {}
    for subject in subjects:
        groups.setdefault(subject.service, []).append(subject)
    return sorted(groups.items())


def names_of(identities: Iterable[Identity], most: int = 4) -> str:
    """Some identities as text, and how many there are beyond them."""
    names = [" ".join(identity) for identity in identities]
    if len(names) > most:
        return f"{', '.join(names[: most - 1])} and {len(names) - most + 1} others"
    return " and ".join(filter(None, (", ".join(names[:-1]), *names[-1:])))
