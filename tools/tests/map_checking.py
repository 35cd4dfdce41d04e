"""Checks maps in tests: by the call, in a process of Debian's Python, which has the package; and by the command."""
from __future__ import annotations

import json
import os
import subprocess
from typing import Any, Dict, List, Optional, Sequence, Tuple

from tests.running import TOOLS, lostd

PYTHON = "/usr/bin/python3"
NOW = "2026-06-01T00:00:00Z"
POLICE, FIRE = "urn:service:sos.police", "urn:service:sos.fire"

# What map-check says where there is no program to ask.
NO_PROGRAM = "map-check: no program lostd is at hand, so nothing is asked: ./build makes it, and --lostd names another one\n"

# Answers each line, a map and how it is checked, with a line of findings.
SERVER = """
import json, sys
sys.dont_write_bytecode = True
sys.path.insert(0, sys.argv[1])
from maptools.checking import Options, check
for line in sys.stdin:
    mappings, options = json.loads(line)
    found = [{**one.as_object(), "geometry": one.geometry} for one in check(mappings, Options(**options))]
    print(json.dumps(found), flush=True)
"""


def has_shapely() -> bool:
    """Whether Debian's Python has what the check needs."""
    return os.access(PYTHON, os.X_OK) and subprocess.run([PYTHON, "-c", "import shapely"], capture_output=True).returncode == 0


class Checker:
    """A process that checks one map after another."""

    def __init__(self) -> None:
        words = [PYTHON, "-c", SERVER, TOOLS]
        self.process = subprocess.Popen(words, stdin=subprocess.PIPE, stdout=subprocess.PIPE, text=True)

    def check(self, mappings: Sequence[Dict[str, Any]], **options: Any) -> List[Dict[str, Any]]:
        """The findings about mappings."""
        self.process.stdin.write(json.dumps([list(mappings), {"now": NOW, "lostd": lostd(), **options}]) + "\n")
        self.process.stdin.flush()
        return json.loads(self.process.stdout.readline())

    def close(self) -> None:
        """Ends it."""
        self.process.stdin.close()
        self.process.wait()
        self.process.stdout.close()


def ring_of(*corners: Tuple[int, int]) -> List[List[int]]:
    """A closed ring of corners."""
    return [list(corner) for corner in [*corners, corners[0]]]


def square(south: int, west: int, north: int, east: int) -> List[List[int]]:
    """A ring of four corners."""
    return ring_of((south, west), (south, east), (north, east), (north, west))


def mapping(name: str, *rings: List[List[int]], regions: Sequence[Dict[str, Any]] = (), **more: Any) -> Dict[str, Any]:
    """A mapping of rings, and of other regions."""
    boundary = [{"profile": "geodetic-2d", "polygon": ring} for ring in rings] + list(regions)
    return {
        "source": "map.example", "sourceId": name, "key": f"key of {name}", "service": POLICE, "lastUpdated": "2026-01-01T00:00:00Z",
        "expires": "NO-EXPIRATION", "uri": [f"sip:{len(name)}@map.example"], "serviceBoundary": boundary, **more,
    }  # fmt: skip


def default(name: str, service: str = POLICE) -> Dict[str, Any]:
    """A default."""
    return {
        "source": "map.example", "sourceId": name, "default": True, "service": service, "lastUpdated": "2026-01-01T00:00:00Z",
        "expires": "NO-EXPIRATION", "uri": ["sip:default@map.example"],
    }  # fmt: skip


def grid(rows: int, columns: int, size: int = 10_000) -> List[Dict[str, Any]]:
    """Squares side by side, named by row and column."""
    places = [(row, column) for row in range(rows) for column in range(columns)]
    return [mapping(f"{row}.{column}", square(row * size, column * size, (row + 1) * size, (column + 1) * size)) for row, column in places]


def desk_lines(mappings: Sequence[Dict[str, Any]]) -> str:
    """Mappings as a file of desk lines."""
    return "".join(json.dumps({"publish": one}) + "\n" for one in mappings) + '{"commit":{}}\n'


def run_check(words: Sequence[str], given: str = "", without_program: bool = False) -> Tuple[int, str, str]:
    """The status of tools/map-check, its output and what it says, but for the line that there is no program where there is none."""
    program: Optional[str] = lostd()
    asked = ["--lostd", program] if program and not without_program else []
    ran = subprocess.run([f"{TOOLS}/map-check", "--now", NOW, *asked, *words], input=given.encode(), capture_output=True, timeout=300)
    said = ran.stderr.decode()
    return ran.returncode, ran.stdout.decode(), said if program else said.replace(NO_PROGRAM, "", 1)


def kinds_of(findings: Sequence[Dict[str, Any]]) -> List[Tuple[str, str, Tuple[str, ...]]]:
    """Kind, severity and sourceIds of each finding, but that a service has no default."""
    return sorted((one["kind"], one["severity"], tuple(name["sourceId"] for name in one["identities"])) for one in findings if one["kind"] != "no-default")
