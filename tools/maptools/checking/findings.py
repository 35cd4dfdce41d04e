"""What a check of a map finds."""
from __future__ import annotations

from typing import Any, Dict, List, NamedTuple, Optional, Tuple

from maptools.desk_rules import Identity
from maptools.texts import Point

ERROR, WARNING, NOTE = "error", "warning", "note"
# The severities, the worst first.
SEVERITIES = (ERROR, WARNING, NOTE)
# The kinds, with what each one is.
KINDS = {
    "refused": "the server would refuse the line, or the feature makes none",
    "gap": "an area that nobody serves, with areas around it or inside the outline",
    "overlap": "an area that two mappings serve",
    "overhang": "an area beyond the outline",
    "sliver": "a gap or an overlap less than 10 m wide, and long; or a polygon of that form",
    "crack": "a gap or an overlap of 1e-7 degrees, where neighbours give their edge by different end points",
    "same-area": "two mappings of one area",
    "own-overlap": "two polygons of one mapping that overlap",
    "far-away": "a mapping far from all others, perhaps with latitude and longitude swapped",
    "self-crossing": "a ring that crosses itself",
    "ring-twice": "a ring that is drawn twice, which cancels it",
    "no-area": "a polygon that holds nothing",
    "spike": "a ring that runs out and back",
    "repeated-position": "a ring that repeats a position at once",
    "service-spelling": "a service one letter from a registered one (RFC 5031), or from another one of the map",
    "uri-scheme": "a URI scheme one letter from another one, or one that no other mapping has",
    "source-id-alike": "sourceIds that differ only in case or white space",
    "key-alike": "the same of keys",
    "token-alike": "the same of tokens",
    "display-name-empty": "a display name without a letter",
    "display-name-same": "two mappings of a service with the same display name",
    "future-stamp": "a lastUpdated in the future",
    "expired": "a mapping that has expired",
    "expiring": "a mapping that expires soon",
    "no-default": "a service without a default, told once",
    "pattern-double": "a pattern that a mapping has twice",
    "pattern-unreachable": "a pattern that decides nothing, since a shorter one of its mapping matches all that it matches",
    "address-overlap": "an address of the map for which two mappings answer",
    "token-overlap": "a token for which two mappings answer",
}


class Finding(NamedTuple):
    """One mistake, or what may be one.

    `kind` is a word of KINDS. `identities` are the mappings that it is about, for a gap those around it. `point`, in whole
    units, `address` or `token` is a place to ask for, and `answer` what findService of `asked` answers there, or of `service`
    where that is the one to ask for. `geometry` is
    the faulty area or point as a GeoJSON geometry, in degrees. `area_m2` is the area in square metres, and `width_m` the
    diameter of the greatest circle in it in metres.
    """

    kind: str
    severity: str
    service: Optional[str]
    identities: Tuple[Identity, ...]
    text: str
    point: Optional[Point] = None
    answer: Optional[str] = None
    area_m2: Optional[float] = None
    width_m: Optional[float] = None
    geometry: Optional[Dict[str, Any]] = None
    address: Optional[Dict[str, str]] = None
    token: Optional[str] = None
    asked: Optional[str] = None

    def as_object(self) -> Dict[str, Any]:
        """The finding as --json prints it, without its geometry."""
        more = (("address", self.address), ("token", self.token), ("asked", self.asked))
        places = {name: value for name, value in more if value is not None}
        return {
            "kind": self.kind,
            "severity": self.severity,
            "service": self.service,
            "identities": [{"source": source, "sourceId": source_id} for source, source_id in self.identities],
            "point": None if self.point is None else [self.point[0] / 1e7, self.point[1] / 1e7],
            "answer": self.answer,
            "text": self.text,
            "area_m2": self.area_m2,
            "width_m": self.width_m,
            **places,
        }


def counts_of(findings: List[Finding]) -> Dict[str, int]:
    """How many findings have each severity."""
    return {severity: sum(finding.severity == severity for finding in findings) for severity in SEVERITIES}
