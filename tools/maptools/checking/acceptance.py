"""Findings that are known and accepted: JSON lines, each a finding as --json prints it, with a reason and a date."""
from __future__ import annotations

import datetime
import json
from typing import Any, Dict, List, NamedTuple, Tuple

from shapely.geometry import Point as Dot
from shapely.geometry import shape

from maptools.checking.findings import KINDS, Finding

# How much an accepted area may grow before it is told of again, and how far its point may be from it, in degrees.
GROWTH, NEAR = 1.1, 1e-6


class BadEntry(ValueError):
    """What is wrong with a file of accepted findings."""


class Entry(NamedTuple):
    """An accepted finding, and the number of its line."""

    number: int
    value: Dict[str, Any]

    def is_about(self, finding: Finding) -> bool:
        """Whether it is about a finding: the same kind, service and mappings, at the same place, and not much larger."""
        given = finding.as_object()
        if any(self.value.get(name) != given[name] for name in ("kind", "service")):
            return False
        if identities_of(self.value) != identities_of(given):
            return False
        if any(self.value.get(name) != given.get(name) for name in ("address", "token")):
            return False
        return self.is_at(finding) and self.is_as_large(finding)

    def is_at(self, finding: Finding) -> bool:
        """Whether its point is in the finding's area."""
        point = self.value.get("point")
        if point is None or finding.geometry is None:
            return True
        return shape(finding.geometry).distance(Dot(point[1], point[0])) <= NEAR

    def is_as_large(self, finding: Finding) -> bool:
        """Whether the finding has not grown beyond it."""
        area = self.value.get("area_m2")
        return area is None or finding.area_m2 is None or finding.area_m2 <= area * GROWTH


def identities_of(value: Dict[str, Any]) -> List[Tuple[str, str]]:
    """The mappings of a finding, in order."""
    return sorted((identity["source"], identity["sourceId"]) for identity in value["identities"])


def is_number(value: Any) -> bool:
    """A number, and no truth value."""
    return isinstance(value, (int, float)) and not isinstance(value, bool)


def is_identity(value: Any) -> bool:
    """An object with the texts source and sourceId."""
    return isinstance(value, dict) and all(isinstance(value.get(part), str) for part in ("source", "sourceId"))


def entry_fault(value: Any) -> str:
    """What is wrong with an entry; empty where nothing is."""
    if not isinstance(value, dict) or value.get("kind") not in KINDS:
        return "this is no finding: its kind is missing or not known"
    identities, point = value.get("identities"), value.get("point")
    if not isinstance(identities, list) or not all(map(is_identity, identities)):
        return "identities is not a list of objects with source and sourceId"
    if point is not None and not (isinstance(point, list) and len(point) == 2 and all(map(is_number, point))):
        return "point is not two numbers"
    if value.get("area_m2") is not None and not is_number(value["area_m2"]):
        return "area_m2 is not a number"
    if not isinstance(value.get("reason"), str) or not value["reason"].strip():
        return "there is no reason"
    try:
        datetime.date.fromisoformat(value["date"])
    except (KeyError, TypeError, ValueError):
        return "there is no date, such as 2026-11-30"
    return ""


def entries_in(path: str) -> List[Entry]:
    """The entries of a file; BadEntry where one is none."""
    entries = []
    with open(path, encoding="utf-8-sig") as file:
        for number, line in enumerate(file, 1):
            if not line.strip():
                continue
            try:
                value = json.loads(line)
            except ValueError as error:
                raise BadEntry(f"{path}, line {number}: this is not JSON: {error}") from None
            fault = entry_fault(value)
            if fault:
                raise BadEntry(f"{path}, line {number}: {fault}")
            entries.append(Entry(number, value))
    return entries


def accepted(findings: List[Finding], entries: List[Entry]) -> Tuple[List[Finding], List[Entry]]:
    """The findings that no entry accepts, and the entries that accept none."""
    used = set()
    left = []
    for finding in findings:
        fitting = [entry for entry in entries if entry.value["kind"] == finding.kind and entry.is_about(finding)]
        used.update(entry.number for entry in fitting)
        if not fitting:
            left.append(finding)
    return left, [entry for entry in entries if entry.number not in used]
