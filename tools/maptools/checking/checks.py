"""All that is looked for in a map, and what a caller gets there."""
from __future__ import annotations

import datetime
import tempfile
from typing import Any, Dict, Iterable, Iterator, List, NamedTuple, Optional, Set, Tuple

from maptools.checking.answers import Answer, NoAnswer, answers_at
from maptools.checking.boundaries import Boundaries, same_area
from maptools.checking.far import far_findings
from maptools.checking.findings import ERROR, SEVERITIES, WARNING, Finding
from maptools.checking.layers import Layer, Piece
from maptools.checking.maps import Checked, map_of
from maptools.checking.options import Options
from maptools.checking.patterns import pattern_findings, token_findings
from maptools.checking.placing import placed
from maptools.checking.rings import all_ring_findings
from maptools.checking.rule import holds, whole_point
from maptools.checking.subjects import Subject, by_service, subjects_of
from maptools.checking.values import value_findings
from maptools.texts import Moment, moment_of


class Result(NamedTuple):
    """The findings, the worst first; how many gaps and overlaps are within the tolerance; and why nothing was asked, if so."""

    findings: List[Finding]
    within_tolerance: int
    complaint: str


def stamp_now() -> str:
    """The time of the clock as a stamp."""
    return datetime.datetime.now(datetime.timezone.utc).strftime("%Y-%m-%dT%H:%M:%SZ")


def is_live(subject: Subject, now: Moment) -> bool:
    """Whether a mapping has not expired."""
    end = moment_of(subject.members["expires"])
    return end is None or end > now


def signatures_of(layer: Layer) -> Dict[Tuple[int, ...], List[List[Piece]]]:
    """The pieces of each mapping whose polygons are all simple, by what is the same for the same polygons."""
    pieces: Dict[int, List[Piece]] = {}
    for piece in layer.pieces:
        pieces.setdefault(piece.owner, []).append(piece)
    groups: Dict[Tuple[int, ...], List[List[Piece]]] = {}
    for own in pieces.values():
        courses = [piece.course for piece in own]
        if None not in courses:
            groups.setdefault(tuple(sorted(course.signature for course in courses)), []).append(own)
    return groups


def doubles(layer: Layer) -> Iterator[Tuple[Finding, Set[int]]]:
    """The mappings of the very same polygons, each group once, and the pieces that need not be looked at again."""
    numbers = {id(piece): number for number, piece in enumerate(layer.pieces)}
    for groups in signatures_of(layer).values():
        if len(groups) < 2:
            continue
        first = groups[0]
        point = next(filter(None, (whole_point(piece.area, lambda place: holds(piece.ring, place)) for piece in first)), None)
        identities = tuple(layer.subjects[group[0].owner].identity for group in groups)
        again = {numbers[id(piece)] for group in groups[1:] for piece in group}
        yield same_area(layer.service, identities, point, [piece.area for piece in first]), again


def layer_findings(service: str, subjects: List[Subject], outline: Any, options: Options) -> Tuple[List[Finding], int]:
    """What is found in the boundaries of a service, and how much of it is within the tolerance."""
    layer = Layer(service, [subject for subject in subjects if subject.rings], options.progress)
    findings, again = [], set()
    for finding, pieces in doubles(layer):
        findings.append(finding)
        again |= pieces
    boundaries = Boundaries(layer, outline, options.tolerance, options.progress)
    findings += [*all_ring_findings(layer, options.tolerance), *far_findings(layer), *boundaries.findings(again)]
    return findings, boundaries.narrow


def findings_of(checked: Checked, options: Options, now: Moment) -> Tuple[List[Finding], int]:
    """All findings, without answers."""
    live = [subject for subject in checked.subjects if is_live(subject, now)]
    within = datetime.timedelta(days=options.within_days)
    held = {subject.identity: subject for subject in checked.subjects}
    findings = [*checked.refused, *placed(value_findings(checked.subjects, live, now, within), held)]
    narrow = 0
    for service, subjects in by_service(live):
        found, count = layer_findings(service, subjects, options.outline, options)
        findings += found
        narrow += count
        findings += pattern_findings(service, subjects)
        findings += token_findings(service, subjects)
    return findings, narrow


def with_answer(finding: Finding, answer: Optional[Answer]) -> Finding:
    """A finding with what is answered at its place. A gap where something is found after all is no error."""
    if answer is None:
        return finding
    text, _ = answer
    is_filled = finding.kind == "gap" and text not in ("notFound", "serviceNotImplemented")
    return finding._replace(answer=text, severity=WARNING if is_filled and finding.severity == ERROR else finding.severity)


def check_map(checked: Checked, options: Options) -> Result:
    """Looks at a map."""
    now = options.now or stamp_now()
    findings, narrow = findings_of(checked, options, moment_of(now))
    complaint = ""
    if options.lostd is not None:
        options.progress.tell("answers", 0, 0)
        try:
            findings = list(map(with_answer, findings, answers_at(options.lostd, now, checked.feed, findings)))
        except (NoAnswer, OSError) as error:
            complaint = f"the program lostd was not asked: {error}"
    options.progress.end()
    return Result(sorted(findings, key=lambda finding: SEVERITIES.index(finding.severity)), narrow, complaint)


def check_mappings(mappings: Iterable[Dict[str, Any]], options: Options = Options()) -> List[Finding]:
    """The findings about mappings, each as the value of a publish line; the worst first. BadMapping where one is none."""
    values = list(mappings)
    with tempfile.TemporaryDirectory() as folder:
        return check_map(map_of(subjects_of(values), values, folder), options).findings
