"""A mapping from the properties of a feature, and the regions that were made of it."""
from __future__ import annotations

import argparse
import hashlib
from typing import Any, Dict, List, Optional

from maptools.desk_rules import CIVIC, GEODETIC, TOKEN, Identity
from maptools.feature_stream import NotJson
from maptools.geojson import polygons_of
from maptools.lines import line_of
from maptools.mapping_words import NO_EXPIRATION
from maptools.meridian import Ring, Unfit
from maptools.nena import service_named, with_new_names
from maptools.templates import Template, fill
from maptools.texts import lowered
from maptools.times import lacks_offset, utc_stamp
from maptools.tokens import tokens_of
from maptools.units import text_of

Properties = Dict[str, Any]
Region = Dict[str, Any]


def polygon_regions(rings: List[Ring]) -> List[Region]:
    """The regions of polygons."""
    return [{"polygon": [list(position) for position in ring], "profile": GEODETIC} for ring in rings]


def pattern_regions(patterns: List[Dict[str, str]]) -> List[Region]:
    """The regions of civic patterns."""
    return [{"pattern": pattern, "profile": CIVIC} for pattern in patterns]


def in_degrees(region: Region) -> Region:
    """The same region, each position as text."""
    return {**region, "polygon": [text_of(position) for position in region["polygon"]]} if "polygon" in region else region


def digits_of(source: str, source_id: str, regions: List[Region]) -> str:
    """16 digits that change with the regions, and differ between mappings."""
    return hashlib.sha256(line_of([source.lower(), source_id, regions]).encode()).hexdigest()[:16]


def properties_of(feature: Any, number: int) -> Properties:
    """What stands for names in templates."""
    if isinstance(feature, NotJson):
        raise Unfit(feature.cause)
    if not isinstance(feature, dict) or feature.get("type") != "Feature":
        raise Unfit("is not a Feature")
    given = feature.get("properties")
    return {**(given if isinstance(given, dict) else {}), "@number": number, "@id": feature.get("id")}


def stamp_of(template: Template, properties: Properties) -> Optional[str]:
    """A time as a stamp in UTC; a text that is none stays as it is. None where a property that is marked with ? has no value."""
    text = fill(template, properties)
    if text is not None and lacks_offset(text):
        raise Unfit(f"has a time without an offset, {text!r}: it may be that of any place")
    return text if text is None else utc_stamp(text) or text


def head_of(options: argparse.Namespace, properties: Properties) -> Dict[str, Any]:
    """The members of a mapping but for its boundary and key; None for those that are left out."""
    uris = [fill(template, properties, for_uri=True) for template in options.uri]
    names = [(language, fill(template, properties)) for language, template in options.display]
    service = fill(options.service, properties)
    return {
        "source": fill(options.source, properties),
        "sourceId": fill(options.source_id, properties),
        "lastUpdated": stamp_of(options.updated, properties),
        "expires": stamp_of(options.expires, properties) or NO_EXPIRATION,
        "service": service_named(service) if options.nena and service else service,
        "uri": [uri for uri in uris if uri is not None],
        "serviceNumber": fill(options.service_number, properties) if options.service_number else None,
        "displayName": [{"lang": language, "text": text} for language, text in names if text is not None] or None,
    }


def key_of(options: argparse.Namespace, properties: Properties, head: Dict[str, Any], regions: List[Region]) -> Optional[str]:
    """The key of a mapping with these regions."""
    digits = digits_of(head["source"] or "", head["sourceId"] or "", regions)
    return fill(options.key, {**properties, "@source-id": head["sourceId"], "@regions": digits})


def whole_mapping(members: Dict[str, Any]) -> Dict[str, Any]:
    """A mapping without the members that are left out."""
    return {name: value for name, value in members.items() if value is not None}


def boundary_of(options: argparse.Namespace, feature: Dict[str, Any], properties: Properties, head: Dict[str, Any]) -> Dict[str, Any]:
    """The members of the boundary and the key, or the mark of a default."""
    tokens = tokens_of(options.tokens, properties.get(options.tokens)) if options.tokens else []
    if options.default and properties.get(options.default) is True:
        if feature.get("geometry") is not None:
            raise Unfit("is a default, and has a geometry that is not null")
        if tokens:
            raise Unfit("is a default, and has tokens")
        return {"default": True}
    regions = polygon_regions(polygons_of(feature.get("geometry"), options.flat))
    if tokens:
        regions.append({"profile": TOKEN, "tokens": tokens})
    key = key_of(options, properties, head, regions)
    return {"serviceBoundary": list(map(in_degrees, regions)) if options.decimal else regions, "key": key}


def mapping_of_feature(options: argparse.Namespace, feature: Any, properties: Properties) -> Dict[str, Any]:
    """The mapping of a feature with these properties."""
    head = head_of(options, properties)
    return whole_mapping({**head, **boundary_of(options, feature, properties, head)})


def named_properties(options: argparse.Namespace, feature: Any, number: int) -> Properties:
    """What stands for names in templates, with NENA's fields under their names of today where that is asked for."""
    properties = properties_of(feature, number)
    return with_new_names(properties) if options.nena else properties


def identity_if_known(options: argparse.Namespace, properties: Properties) -> Optional[Identity]:
    """The source and the sourceId of a feature that may be faulty in all else; None where it has none."""
    try:
        source, source_id = fill(options.source, properties), fill(options.source_id, properties)
    except Unfit:
        return None
    return (lowered(source), source_id) if source and source_id else None
