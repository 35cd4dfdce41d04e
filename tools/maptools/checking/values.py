"""Mistakes in what mappings say: services, URIs, names, keys, times and defaults."""
from __future__ import annotations

import datetime
from collections import defaultdict
from typing import Any, Callable, Dict, Iterable, Iterator, List, Optional, Sequence, Tuple

from maptools.checking.findings import ERROR, NOTE, WARNING, Finding
from maptools.checking.spelling import KNOWN_SCHEMES, REGISTERED, alike, is_one_off, one_off_pairs
from maptools.checking.subjects import Subject, names_of
from maptools.places import candidates
from maptools.texts import WITHOUT_END, Moment, moment_of, scheme_of

# With fewer mappings a scheme that only one has is nothing odd.
FEWEST = 3

Groups = Dict[Any, List[Subject]]


def grouped(subjects: Iterable[Subject], texts_of: Callable[[Subject], Iterable[Any]]) -> Groups:
    """The mappings that have each text."""
    groups: Groups = defaultdict(list)
    for subject in subjects:
        for text in dict.fromkeys(texts_of(subject)):
            groups[text].append(subject)
    return groups


def about(kind: str, severity: str, subjects: Sequence[Subject], text: str) -> Finding:
    """A finding about mappings; its service is the one that they have in common."""
    services = {subject.service for subject in subjects}
    service = services.pop() if len(services) == 1 else None
    return Finding(kind, severity, service, tuple(subject.identity for subject in subjects), text)


def service_findings(subjects: Sequence[Subject]) -> Iterator[Finding]:
    """Services that are one letter off."""
    groups = grouped(subjects, lambda subject: [subject.service])
    for service, having in sorted(groups.items()):
        meant = next((known for known in sorted(REGISTERED) if is_one_off(service, known)), None)
        if meant and service not in REGISTERED:
            text = f"{names_of_all(having)}: is {service} a misspelt {meant}?"
            yield about("service-spelling", ERROR, having, text)._replace(asked=meant)
    own = [service for service in groups if service not in REGISTERED and not any(is_one_off(service, known) for known in REGISTERED)]
    for one, other in one_off_pairs(own):
        rare, usual = sorted((one, other), key=lambda service: (len(groups[service]), service))
        text = f"{names_of_all(groups[rare])}: is {rare} a misspelt {usual}? They are one letter apart"
        yield about("service-spelling", WARNING, groups[rare], text)._replace(asked=usual)


def names_of_all(subjects: Iterable[Subject]) -> str:
    """The names of mappings as text."""
    return names_of(subject.identity for subject in subjects)


def schemes_of(subject: Subject) -> Iterator[str]:
    """The schemes of a mapping's URIs."""
    return (str(scheme_of(uri)) for uri in subject.members["uri"])


def scheme_findings(subjects: Sequence[Subject]) -> Iterator[Finding]:
    """Schemes of URIs that only one mapping has, or that are one letter off."""
    groups = grouped(subjects, schemes_of)
    for scheme, having in sorted(groups.items()):
        meant = meant_scheme(scheme, groups)
        if meant:
            yield about("uri-scheme", ERROR, having, f"{names_of_all(having)}: is the scheme {scheme}: of a URI a misspelt {meant}:?")
        elif len(having) == 1 and len(subjects) >= FEWEST:
            severity = NOTE if scheme in KNOWN_SCHEMES else WARNING
            yield about("uri-scheme", severity, having, f"{having[0].name} is the only mapping with a URI of the scheme {scheme}:")


def meant_scheme(scheme: str, groups: Groups) -> Optional[str]:
    """The scheme that is rather meant than one which is not known; None where no other one is near."""
    usual = sorted(groups, key=lambda other: (-len(groups[other]), other))
    near = [other for other in (*usual, *sorted(KNOWN_SCHEMES)) if is_one_off(scheme, other) and is_more(other, scheme, groups)]
    return near[0] if near and scheme not in KNOWN_SCHEMES else None


def is_more(other: str, scheme: str, groups: Groups) -> bool:
    """Whether one scheme is rather what is meant than another one."""
    return other in KNOWN_SCHEMES or len(groups[other]) > len(groups[scheme])


def alike_findings(kind: str, what: str, groups: Groups) -> Iterator[Finding]:
    """Texts that differ only in case or white space."""
    for texts in alike(groups):
        having = {(subject.identity, subject.service) for text in texts for subject in groups[text]}
        services = {service for _, service in having}
        identities = tuple(sorted({identity for identity, _ in having}))
        shown = " and ".join(repr(text) for text in texts[:4])
        text = f"the {what} {shown} differ only in case or white space: {names_of(identities)}"
        yield Finding(kind, WARNING, services.pop() if len(services) == 1 else None, identities, text)


def identifier_findings(subjects: Sequence[Subject]) -> Iterator[Finding]:
    """SourceIds of one source, keys and tokens that are nearly the same."""
    for _, of_source in sorted(grouped(subjects, lambda subject: [subject.identity[0]]).items()):
        yield from alike_findings("source-id-alike", "sourceIds", grouped(of_source, lambda subject: [subject.identity[1]]))
    yield from alike_findings("key-alike", "keys", grouped(subjects, lambda subject: filter(None, [subject.members.get("key")])))
    tokens = grouped(subjects, lambda subject: [token for tokens in subject.token_sets for token in tokens])
    yield from alike_findings("token-alike", "tokens", tokens)


def names_to_show(subject: Subject) -> List[Tuple[str, str]]:
    """The display names of a mapping, each with its language; a default has none that tell it from a district."""
    names = [] if subject.is_default() else subject.members.get("displayName") or []
    return [(name["lang"], name["text"]) for name in names if name["text"].strip()]


def display_findings(subjects: Sequence[Subject]) -> Iterator[Finding]:
    """Display names of a service's mappings that are empty, or the same for two."""
    for subject in subjects:
        empty = [name["lang"] for name in subject.members.get("displayName") or [] if not name["text"].strip()]
        if empty:
            yield about("display-name-empty", WARNING, [subject], f"{subject.name} has an empty display name ({', '.join(empty)})")
    for (language, text), having in sorted(grouped(subjects, names_to_show).items()):
        if len(having) > 1:
            yield about("display-name-same", WARNING, having, f"{names_of_all(having)} have the same display name, {text!r} ({language})")


def until(stamp: str) -> Optional[Moment]:
    """When a mapping expires; None for never."""
    return None if stamp in WITHOUT_END else moment_of(stamp)


def time_findings(subjects: Sequence[Subject], now: Moment, within: datetime.timedelta) -> Iterator[Finding]:
    """Stamps in the future, and mappings that have expired or will soon."""
    soon = (min(now[0], datetime.datetime.max - within) + within, now[1])
    for subject in subjects:
        updated, end = subject.members["lastUpdated"], until(subject.members["expires"])
        if moment_of(updated) > now:
            yield about("future-stamp", WARNING, [subject], f"the lastUpdated of {subject.name}, {updated}, is in the future")
        if end is not None and end <= now:
            text = f"{subject.name} expired at {subject.members['expires']}: it takes part in no answer"
            yield about("expired", ERROR, [subject], text)
        elif end is not None and end <= soon:
            yield about("expiring", WARNING, [subject], f"{subject.name} expires soon, at {subject.members['expires']}")


def default_findings(live: Sequence[Subject]) -> Iterator[Finding]:
    """Services where nothing stands in where no mapping holds the place; told once for each."""
    having = {subject.service for subject in live if subject.is_default()}
    for service in sorted({subject.service for subject in live}):
        if not having.intersection(candidates(service)):
            yield Finding("no-default", NOTE, service, (), f"{service} has no default: where no mapping holds the place, nothing is found")


def value_findings(subjects: Sequence[Subject], live: Sequence[Subject], now: Moment, within: datetime.timedelta) -> Iterator[Finding]:
    """All of them."""
    yield from service_findings(subjects)
    yield from scheme_findings(subjects)
    yield from identifier_findings(subjects)
    for _, of_service in sorted(grouped(subjects, lambda subject: [subject.service]).items()):
        yield from display_findings(of_service)
    yield from time_findings(subjects, now, within)
    yield from default_findings(live)
