"""The replies to requests, found from scratch over the mappings of a book."""
from places import CIVIC, GEODETIC, TOKEN, Place, is_address, is_point, is_token
from request_lines import BOUNDARY, FIND, SERVICES
from search import all_services, by_key, found, is_implemented, services, warnings_of
from texts import same_ignoring_case, service_text
from validation import validation


class Failed(Exception):
    """A request is answered with an error, which has a name."""

    def __init__(self, name):
        super().__init__(name)
        self.name = name


def answer(book, name, moment, request):
    """The reply to a request: the members of its kind, the edition and the path, or the first error that applies."""
    try:
        if is_loop(request.path, name):
            raise Failed("loop")
        reply, members = answer_by_kind(book, moment, request)
    except Failed as failed:
        return {"errors": {"edition": book.edits, "error": failed.name}}
    return {reply: {"edition": book.edits, "path": [*request.path, name], **members}}


def is_loop(path, name):
    """The path has the server's own name, ignoring ASCII case."""
    return any(same_ignoring_case(passed, name) for passed in path)


def answer_by_kind(book, moment, request):
    """The name of the reply, and its members but for the edition and the path."""
    if request.kind == BOUNDARY:
        return "getServiceBoundaryResponse", boundary(book, moment, request)
    if request.kind == SERVICES:
        return "listServicesResponse", {"serviceList": all_services(book, moment, request.service)}
    location = location_used(request.locations)
    place = place_of(location)
    if request.kind == FIND:
        return "findServiceResponse", {"locationUsed": location.id, **find(book, moment, request, place)}
    service_list = services(book, moment, place, request.service)
    return "listServicesByLocationResponse", {"locationUsed": location.id, "serviceList": service_list}


def location_used(locations):
    """The location used is the first whose profile is recognised."""
    for location in locations:
        if location.profile in (GEODETIC, CIVIC, TOKEN):
            return location
    raise Failed("locationProfileUnrecognized")


def place_of(location):
    """The place of the location used; for a point the reference system is looked at first."""
    if location.profile == GEODETIC and not location.is_system_known:
        raise Failed("SRSInvalid")
    is_right = {GEODETIC: is_point, CIVIC: is_address, TOKEN: is_token}
    if location.body is None or not is_right[location.profile](location.body):
        raise Failed("locationInvalid")
    return Place(location.profile, location.body)


def find(book, moment, request, place):
    """What is found for a service at a place, with its validation and its warnings where there are any."""
    result = found(book, moment, place, request.service)
    if result is None:
        raise Failed("notFound" if is_implemented(book, moment, request.service) else "serviceNotImplemented")
    members = {"mapping": [mapping_shown(mapping, request, place) for mapping in result.mappings]}
    if request.validate and place.profile == CIVIC and not result.are_defaults:
        members["locationValidation"] = validation(book, moment, result, place.content)
    if warnings := warnings_of(result, request, place):
        members["warnings"] = warnings
    return members


def boundary(book, moment, request):
    """The regions of the live mapping that has the key: its polygons, then its patterns, then its token sets."""
    mapping = by_key(book, moment, request.key)
    if mapping is None:
        raise Failed("notFound")
    return {"serviceBoundary": [region for profile in (GEODETIC, CIVIC, TOKEN) for region in regions_shown(mapping, profile)]}


def regions_shown(mapping, profile):
    """The regions of a profile that a mapping has, in the order given."""
    if profile == GEODETIC:
        return [{"polygon": ring, "profile": GEODETIC} for ring in mapping.polygons]
    if profile == CIVIC:
        return [{"pattern": pattern, "profile": CIVIC} for pattern in mapping.patterns]
    return [{"profile": TOKEN, "tokens": tokens} for tokens in mapping.token_sets]


def boundary_shown(mapping, request, place):
    """By value the regions of the profile used, by reference the key and the source, and neither for a default."""
    if mapping.is_default:
        return {}
    if request.by_value:
        return {"serviceBoundary": regions_shown(mapping, place.profile)}
    return {"serviceBoundaryReference": {"key": mapping.key, "source": mapping.identity[0]}}


def mapping_shown(mapping, request, place):
    """A mapping in a reply; display names and a service number stand there where it has any."""
    source, source_id = mapping.identity
    shown = {
        "expires": mapping.expires,
        "lastUpdated": mapping.last_updated,
        "service": service_text(mapping.service),
        "source": source,
        "sourceId": source_id,
        "uri": mapping.uris,
        **boundary_shown(mapping, request, place),
    }
    if mapping.display_names:
        shown["displayName"] = [{"lang": lang, "text": text} for lang, text in mapping.display_names]
    if mapping.number is not None:
        shown["serviceNumber"] = mapping.number
    return shown
