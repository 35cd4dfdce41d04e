"""The findings of map-check for the page of map-page."""
from __future__ import annotations

import json
import os
import subprocess
import tempfile
from typing import Any, Dict, List, NamedTuple, Optional

TOOL = os.path.join(os.path.dirname(os.path.dirname(os.path.realpath(__file__))), "map-check")
# The statuses of map-check with findings: none is so severe, and some are.
WITH_FINDINGS = (0, 3)
WORDS = ("error", "warning", "note")


class Unchecked(Exception):
    """Why there are no findings."""


class Findings(NamedTuple):
    """Findings as the page lists them, None where the map was not checked; and what the page says of them."""

    found: Optional[List[Dict[str, Any]]]
    note: str


def read_findings(text: str) -> List[Dict[str, Any]]:
    """What map-check printed as JSON; Unchecked where it is something else."""
    try:
        found = json.loads(text)["findings"]
        names = ("severity", "text", "point", "identities", "service", "answer")
        return [{**{name: finding[name] for name in names}, "asked": finding.get("asked")} for finding in found]
    except (ValueError, KeyError, TypeError):
        raise Unchecked("this is not what map-check --json prints") from None


def with_shapes(found: List[Dict[str, Any]], path: str) -> List[Dict[str, Any]]:
    """The findings with their faulty areas: map-check wrote the features of those that have one in the order of the findings."""
    try:
        with open(path, encoding="utf-8") as file:
            features = [(feature["properties"]["text"], feature["geometry"]) for feature in json.load(file)["features"]]
    except (OSError, ValueError, KeyError, TypeError):
        raise Unchecked("what map-check --geojson wrote cannot be read") from None
    shaped, next_one = [], 0
    for finding in found:
        has_shape = next_one < len(features) and features[next_one][0] == finding["text"]
        shaped.append({**finding, "geometry": features[next_one][1] if has_shape else None})
        next_one += has_shape
    return shaped


def checked(path: str) -> List[Dict[str, Any]]:
    """The findings about a file of desk lines; Unchecked where map-check does not give them."""
    with tempfile.TemporaryDirectory() as folder:
        areas = f"{folder}/areas.geojson"
        try:
            ran = subprocess.run([TOOL, path, "--json", "--geojson", areas], capture_output=True, text=True, check=False)
        except OSError as error:
            raise Unchecked(f"map-check does not run: {error.strerror}") from None
        if ran.returncode not in WITH_FINDINGS:
            raise Unchecked((ran.stderr.strip().splitlines() or [f"map-check ended with status {ran.returncode}"])[-1])
        return with_shapes(read_findings(ran.stdout), areas)


def note_of(found: List[Dict[str, Any]]) -> str:
    """How many findings there are of each severity."""
    counts = [(sum(finding["severity"] == word for finding in found), word) for word in WORDS]
    parts = [f"{count:,} {word}{'' if count == 1 else 's'}" for count, word in counts if count]
    return ", ".join(parts) + "." if parts else "None."
