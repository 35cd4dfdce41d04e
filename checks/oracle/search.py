"""What is found in a book: mappings for a place, the services below a service, and the mapping of a key."""
from typing import NamedTuple

from mappings import holds, is_live
from places import CIVIC
from strict_json import in_byte_order
from texts import service_text


class Found(NamedTuple):
    """The service that answers and its mappings, which are all defaults or none is."""

    service: tuple
    mappings: list
    are_defaults: bool


def chain(service):
    """A service, then the service without its last label, and so on down to one label."""
    return [service[:length] for length in range(len(service), 0, -1)]


def living(book, moment):
    """The live mappings, defaults too, in list order."""
    return [mapping for mapping in book.mappings if is_live(mapping, moment)]


def holding(book, moment, place):
    """The live mappings that are no defaults and hold the place, in list order."""
    return [mapping for mapping in living(book, moment) if not mapping.is_default and holds(mapping, place)]


def holders(book, moment, place, service):
    """The mappings of a service that are live, are no defaults and hold the place, in list order."""
    return [mapping for mapping in holding(book, moment, place) if mapping.service == service]


def defaults(book, moment, service):
    """The live defaults of a service, in list order."""
    return [mapping for mapping in living(book, moment) if mapping.is_default and mapping.service == service]


def found(book, moment, place, service):
    """The first of the chain with holders, with all of them; else the first with live defaults; else None."""
    for at in chain(service):
        if here := holders(book, moment, place, at):
            return Found(at, here, False)
    for at in chain(service):
        if standing_by := defaults(book, moment, at):
            return Found(at, standing_by, True)
    return None


def is_implemented(book, moment, service):
    """Some live mapping, default or not, has a service of the chain."""
    return any(mapping.service in chain(service) for mapping in living(book, moment))


def warnings_of(result, request, place):
    """The warnings of what was found, in their order."""
    warnings = []
    if result.service != request.service:
        warnings.append("serviceSubstitution")
    if result.are_defaults:
        warnings.append("defaultMappingReturned")
    if result.are_defaults and place.profile == CIVIC and request.validate:
        warnings.append("locationValidationUnavailable")
    return warnings


def is_above(service, other):
    """The labels of the service are a proper prefix of those of the other; no labels are above every service."""
    return len(service) < len(other) and other[: len(service)] == service


def children(mappings, service):
    """The first labels, one more than the service has, of what is below it: ascending texts, each once."""
    below = {mapping.service[: len(service) + 1] for mapping in mappings if is_above(service, mapping.service)}
    return in_byte_order(map(service_text, below))


def services(book, moment, place, service):
    """The services below a service, one label longer, of the mappings that hold the place."""
    return children(holding(book, moment, place), service)


def all_services(book, moment, service):
    """The services below a service, one label longer, of all live mappings."""
    return children(living(book, moment), service)


def by_key(book, moment, key):
    """The live mapping that has the key; None where there is none."""
    return next((mapping for mapping in living(book, moment) if mapping.key == key), None)
