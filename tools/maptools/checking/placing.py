"""Where a caller meets a finding about what mappings say: a point in the area of the first of them that has one."""
from __future__ import annotations

from typing import Dict, Iterable, List, Optional

from maptools.checking.areas import polygons_in, simple_area, untangled
from maptools.checking.findings import Finding
from maptools.checking.rule import holds, whole_point
from maptools.checking.subjects import Ring, Subject
from maptools.desk_rules import Identity
from maptools.texts import Point

# So many findings get a place: a map in which each mapping has one is not measured for minutes.
MOST_PLACED = 10_000


def point_in(ring: Ring) -> Optional[Point]:
    """A whole point that a ring holds; None where it holds none."""
    area = simple_area(ring[:-1])
    parts = polygons_in(untangled(ring[:-1]).area if area is None else area)
    return next(filter(None, (whole_point(part, lambda point: holds(ring, point)) for part in parts)), None)


def point_of(subjects: Iterable[Subject]) -> Optional[Point]:
    """A point in the area of the first mapping that has one."""
    return next(filter(None, (point_in(ring) for subject in subjects for ring in subject.rings)), None)


def lacks_place(finding: Finding) -> bool:
    """Whether a finding about mappings has no place to ask for."""
    return bool(finding.identities) and finding.point is finding.address is finding.token is None


def placed(findings: Iterable[Finding], held: Dict[Identity, Subject]) -> List[Finding]:
    """The findings, those about what mappings say with a place; about mappings of several services it is asked for the first one's."""
    result, count = [], 0
    for finding in findings:
        about = [held[identity] for identity in finding.identities if identity in held] if lacks_place(finding) else []
        if about and count < MOST_PLACED:
            count += 1
            asked = finding.asked or (about[0].service if finding.service is None else None)
            finding = finding._replace(point=point_of(about), asked=asked)
        result.append(finding)
    return result
