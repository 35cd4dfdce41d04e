"""Mistakes of a command line that no feature can mend: each is said once, before the input is read."""
from __future__ import annotations

import argparse
from typing import Callable, Iterator, List, Optional, Tuple

from maptools.desk_rules import MOST_NAMES
from maptools.mapping_words import constant_text, is_constant
from maptools.nena import service_named
from maptools.templates import Template, fill
from maptools.texts import WITHOUT_END, is_id, is_number, is_source, scheme_of, service_of, size
from maptools.times import lacks_offset, utc_stamp

MOST_URIS, LONGEST_NAME = 16, 1024


def stamp_mistake(text: str) -> str:
    """What is wrong with a time; empty where it is right."""
    if utc_stamp(text) is not None:
        return ""
    if lacks_offset(text):
        return f"{text!r} has no offset: write a time in UTC, such as 2026-11-23T00:00:00Z, or add an offset such as -05:00"
    return f"{text!r} is not a time, such as 2026-11-23T00:00:00Z or 2026-11-23T00:00:00-05:00"


def expires_mistake(text: str) -> str:
    """What is wrong with an expiry; empty where it is right."""
    wrong = "" if text in WITHOUT_END else stamp_mistake(text)
    return f"{wrong}, nor NO-CACHE or NO-EXPIRATION" if wrong else ""


def unless(is_right: Callable[[str], object], cause: str) -> Callable[[str], str]:
    """A check of a text that says what is wrong with it."""
    return lambda text: "" if is_right(text) else f"{text!r} {cause}"


def name_mistake(text: str) -> str:
    """What is wrong with a name to show, or its language."""
    return f"it has {size(text):,} bytes, and at most {LONGEST_NAME:,} are allowed" if size(text) > LONGEST_NAME else ""


def sample(template: Template) -> Optional[str]:
    """A URI of a template whose scheme is given, with a letter for each property; None where no scheme is given."""
    is_name, piece = template[0] if template else (False, "")
    if is_constant(template):
        return constant_text(template)
    if is_name or ":" not in piece:
        return None
    names = {piece: "a" for is_name, piece in template if is_name}
    return fill(template, names, for_uri=True)


def uri_mistakes(templates: List[Template]) -> Iterator[str]:
    """What is wrong with the URIs, whatever the properties are."""
    if len(templates) > MOST_URIS:
        yield f"--uri: there are {len(templates)}, and at most {MOST_URIS} are allowed"
    schemes: List[str] = []
    for template in templates:
        uri = sample(template)
        scheme = None if uri is None else scheme_of(uri)
        if uri is not None and scheme is None:
            yield f"--uri: {uri!r} is not a URI: write a scheme, a colon, and no spaces, such as sip:a@psap.example"
        is_required = not any(is_name and piece.endswith("?") for is_name, piece in template)
        if scheme is not None and is_required and scheme in schemes:
            yield f"--uri: two URIs have the scheme {scheme}: a mapping has one for each"
        schemes += [scheme] if scheme is not None and is_required else []


def single_checks(options: argparse.Namespace) -> List[Tuple[str, Template, Callable[[str], str]]]:
    """The options with one template, and the check of each."""
    service = unless(lambda text: service_of(service_named(text) if options.nena else text), "is not a service URN, such as urn:service:sos.police")
    checks = [
        ("--source", options.source, unless(is_source, "is not a source: write labels joined by dots, such as map.example")),
        ("--source-id", options.source_id, unless(is_id, "is not a sourceId: it has 1 to 128 bytes, and no control byte")),
        ("--service", options.service, service),
        ("--updated", options.updated, stamp_mistake),
        ("--expires", options.expires, expires_mistake),
        ("--key", options.key, unless(is_id, "is not a key: it has 1 to 128 bytes, and no control byte")),
    ]
    number = options.service_number
    return checks + ([("--service-number", number, unless(is_number, "is not a number of 1 to 64 digits, * and #"))] if number else [])


def mistakes_of(options: argparse.Namespace) -> List[str]:
    """What is wrong with a command line, whatever the input has."""
    found = []
    for option, template, check in single_checks(options):
        wrong = check(constant_text(template)) if is_constant(template) else ""
        found += [f"{option}: {wrong}"] if wrong else []
    found += uri_mistakes(options.uri)
    if len(options.display) > MOST_NAMES:
        found.append(f"--display: there are {len(options.display)}, and at most {MOST_NAMES} are allowed")
    for language, template in options.display:
        wrong = name_mistake(language) or (name_mistake(constant_text(template)) if is_constant(template) else "")
        found += [f"--display: {wrong}"] if wrong else []
    return found
