"""Lays a reply out for reading."""
from __future__ import annotations

from typing import Any, Dict, List

from maptools.refusals import ERRORS, WARNINGS
from maptools.units import degrees_of

EXPIRY = {"NO-EXPIRATION": "never", "NO-CACHE": "ask each time: do not keep it"}


def position_text(position: List[int]) -> str:
    """A position in degrees."""
    return f"{degrees_of(position[0])}, {degrees_of(position[1])}"


def region_lines(region: Dict[str, Any]) -> List[str]:
    """A polygon, a pattern or a token set."""
    if "polygon" in region:
        ring = region["polygon"]
        return [f"polygon of {len(ring)} positions, in degrees:", *("  " + position_text(position) for position in ring)]
    if "tokens" in region:
        return ["tokens", *("  " + token for token in region["tokens"])]
    return ["addresses with " + ", ".join(f"{name} {value}" for name, value in region.get("pattern", {}).items())]


def boundary_lines(mapping: Dict[str, Any]) -> List[str]:
    """The boundary of a mapping, by reference or by value."""
    reference = mapping.get("serviceBoundaryReference")
    if reference:
        return [f"boundary  key {reference['key']}"]
    regions = mapping.get("serviceBoundary")
    if not regions:
        return ["boundary  none: it is a default"]
    return ["boundary", *("  " + line for region in regions for line in region_lines(region))]


def mapping_lines(mapping: Dict[str, Any]) -> List[str]:
    """One mapping that was found."""
    lines = [f"{name['text']} ({name['lang']})" for name in mapping.get("displayName", [])]
    head = f"{mapping['source']} {mapping['sourceId']}" + (": " + ", ".join(lines) if lines else "")
    number = [f"dial      {mapping['serviceNumber']}"] if "serviceNumber" in mapping else []
    details = [
        *(f"call      {uri}" for uri in mapping["uri"]),
        *number,
        f"service   {mapping['service']}",
        *boundary_lines(mapping),
        f"expires   {EXPIRY.get(mapping['expires'], mapping['expires'])}",
        f"updated   {mapping['lastUpdated']}",
    ]
    return [head, *("  " + detail for detail in details)]


def validation_lines(validation: Dict[str, List[str]]) -> List[str]:
    """How the elements of an address were validated."""
    return [f"{name}: {', '.join(validation[name]) or 'none'}" for name in ("valid", "invalid", "unchecked") if name in validation]


def found_lines(reply: Dict[str, Any]) -> List[str]:
    """What findService found."""
    lines = [line for mapping in reply["mapping"] for line in mapping_lines(mapping)]
    lines += validation_lines(reply.get("locationValidation", {}))
    return lines + [f"warning: {name}: {WARNINGS.get(name, 'unknown')}" for name in reply.get("warnings", [])]


def reply_lines(name: str, reply: Dict[str, Any]) -> List[str]:
    """A reply that is no error, and which server gave it at which edition."""
    if name == "findServiceResponse":
        lines = found_lines(reply)
    elif name == "getServiceBoundaryResponse":
        lines = [line for region in reply["serviceBoundary"] for line in region_lines(region)]
    else:
        lines = list(reply["serviceList"]) or ["no service"]
    return [*lines, f"from {' by way of '.join(reversed(reply['path']))}, edition {reply['edition']}"]


def error_text(reply: Dict[str, Any]) -> str:
    """An error as a sentence."""
    name = str(reply.get("error"))
    edition = f" (edition {reply['edition']})" if "edition" in reply else ""
    return f"{name}{edition}: {ERRORS.get(name, 'an error that this client does not know')}"
