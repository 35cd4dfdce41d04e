"""Mappings as features of GeoJSON, and back: the same mappings, as far as nobody changed the features."""
from __future__ import annotations

import argparse
import json
from typing import Any, Dict, List, Optional, Tuple

from maptools.desk_rules import CIVIC, GEODETIC, TOKEN, contents_of
from maptools.geojson import keyhole, lies_within, polygons_of
from maptools.lines import line_of
from maptools.mapping_making import (
    Properties, Region, digits_of, head_of, in_degrees, key_of, pattern_regions, polygon_regions, whole_mapping,
)  # fmt: skip
from maptools.meridian import Ring, Unfit
from maptools.units import degrees_of

# The templates by which the properties are read again.
TEMPLATES = {
    "source": "{source}",
    "source_id": "{sourceId}",
    "service": "{service}",
    "updated": "{lastUpdated}",
    "expires": "{expires?}",
    "service_number": "{serviceNumber?}",
}


def hole_after(rest: Ring, first: Tuple[int, int]) -> Optional[Ring]:
    """The ring of a hole that a list of positions begins with, before the first position of its outer ring."""
    for end in range(3, len(rest) - 1):
        if rest[end] == rest[0]:
            return rest[: end + 1] if rest[end + 1] == first else None
    return None


def rings_of(polygon: Ring) -> List[Ring]:
    """A polygon as an outer ring and the holes that are joined to it; as one ring where it is not so made."""
    first = polygon[0]
    end = next((place for place in range(3, len(polygon)) if polygon[place] == first), 0)
    rings, rest = [polygon[: end + 1]], polygon[end + 1 :]
    while end and rest:
        hole = hole_after(rest, first)
        if hole is None or not lies_within(hole, rings[0]):
            return [polygon]
        rings.append(hole)
        rest = rest[len(hole) + 1 :]
    return rings if end and keyhole(rings) == polygon else [polygon]


def ring_text(ring: Ring) -> str:
    """A ring as GeoJSON has it, longitude first, in degrees."""
    return f"[{','.join(f'[{degrees_of(longitude)},{degrees_of(latitude)}]' for latitude, longitude in ring)}]"


def geometry_text(mapping: Dict[str, Any]) -> str:
    """The polygons of a mapping as one geometry; null where there are none."""
    polygons = [[tuple(position) for position in ring] for ring in contents_of(mapping, GEODETIC)]
    if not polygons:
        return "null"
    texts = [f"[{','.join(map(ring_text, rings_of(polygon)))}]" for polygon in polygons]
    return f'{{"type":"MultiPolygon","coordinates":[{",".join(texts)}]}}'


def regions_in_order(mapping: Dict[str, Any]) -> List[Region]:
    """The regions of a mapping by kind, with positions in pairs: those that keys are made of."""
    polygons = polygon_regions(contents_of(mapping, GEODETIC))
    sets = [{"profile": TOKEN, "tokens": tokens} for tokens in contents_of(mapping, TOKEN)]
    return [*polygons, *pattern_regions(contents_of(mapping, CIVIC)), *sets]


def properties_to_show(mapping: Dict[str, Any]) -> Properties:
    """The members of a mapping as properties; what is not there is null, so that each feature has each.

    Several URIs are the JSON text of a list, since many formats have no lists of texts.
    """
    regions = regions_in_order(mapping)
    return {
        **{name: mapping[name] for name in ("source", "sourceId", "service", "lastUpdated", "expires")},
        "uri": mapping["uri"][0] if len(mapping["uri"]) == 1 else line_of(mapping["uri"]),
        "default": mapping.get("default") is True,
        "serviceNumber": mapping.get("serviceNumber"),
        "displayName": mapping.get("displayName") or None,
        "patterns": contents_of(mapping, CIVIC) or None,
        "tokens": contents_of(mapping, TOKEN) or None,
        "key": mapping.get("key"),
        "regions": digits_of(mapping["source"], mapping["sourceId"], regions) if regions else None,
    }


def feature_text(mapping: Dict[str, Any]) -> str:
    """A mapping as a feature, in one line."""
    properties = "{" + ",".join(f'"{name}":{line_of(value)}' for name, value in properties_to_show(mapping).items()) + "}"
    return f'{{"type":"Feature","geometry":{geometry_text(mapping)},"properties":{properties}}}'


def list_of(properties: Properties, name: str) -> List[Any]:
    """A property that is a list, or the JSON text of one, as tools write it whose fields have no lists."""
    value = properties.get(name)
    if value in (None, ""):
        return []
    try:
        value = json.loads(value) if isinstance(value, str) and value.lstrip().startswith("[") else value
    except ValueError:
        raise Unfit(f"has a property {name!r} that is not a list") from None
    if isinstance(value, str):
        return [value]
    if not isinstance(value, list):
        raise Unfit(f"has a property {name!r} that is not a list")
    return value


def desk_regions(feature: Dict[str, Any], properties: Properties) -> List[Region]:
    """The regions of a feature."""
    geometry = feature.get("geometry")
    polygons = [] if geometry is None else polygons_of(geometry, is_flat=True)
    sets = [{"profile": TOKEN, "tokens": tokens} for tokens in list_of(properties, "tokens")]
    return [*polygon_regions(polygons), *pattern_regions(list_of(properties, "patterns")), *sets]


def desk_key(options: argparse.Namespace, properties: Properties, head: Dict[str, Any], regions: List[Region]) -> Any:
    """The key of the feature, if its regions are those that it had; else one made of them."""
    is_as_before = digits_of(head["source"] or "", head["sourceId"] or "", regions) == properties.get("regions")
    return properties["key"] if is_as_before and properties.get("key") else key_of(options, properties, head, regions)


def mapping_of_desk_feature(options: argparse.Namespace, feature: Dict[str, Any], properties: Properties) -> Dict[str, Any]:
    """The mapping of a feature that was made of one."""
    head = head_of(options, properties)
    head["uri"] = head["uri"] or list_of(properties, "uri")
    head["displayName"] = head["displayName"] or list_of(properties, "displayName") or None
    regions = desk_regions(feature, properties)
    if properties.get("default") is True:
        if regions:
            raise Unfit("is a default, and has a geometry, patterns or tokens")
        return whole_mapping({**head, "default": True})
    shown = list(map(in_degrees, regions)) if options.decimal else regions
    return whole_mapping({**head, "serviceBoundary": shown, "key": desk_key(options, properties, head, regions)})
