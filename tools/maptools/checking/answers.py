"""What findService answers at the places of findings: asked of the program lostd, in one run over the map."""
from __future__ import annotations

import json
import os
import subprocess
import threading
from typing import Any, BinaryIO, Callable, Dict, Iterable, Iterator, List, Optional, Tuple

from maptools.desk_rules import CIVIC, GEODETIC, TOKEN
from maptools.checking.findings import Finding
from maptools.lines import line_of

NAME = "map-check.example"
# How many lines a run may have at most.
MOST_LINES = 4_294_967_295
MOST_SHOWN = 4

# What a reply says: the text of it, and whether mappings that hold the place were found.
Answer = Tuple[str, bool]
# Writes the lines of a map into a file, a commit last, and gives their number.
Feed = Callable[[BinaryIO], int]


class NoAnswer(Exception):
    """Why the program gave none."""


def question_of(finding: Finding) -> Optional[bytes]:
    """The request that asks at the place of a finding; None where it has none."""
    service = finding.asked or finding.service
    if service is None:
        return None
    if finding.point is not None:
        place: Dict[str, Any] = {"profile": GEODETIC, "pos": list(finding.point)}
    elif finding.address is not None:
        place = {"profile": CIVIC, "address": finding.address}
    elif finding.token is not None:
        place = {"profile": TOKEN, "token": finding.token}
    else:
        return None
    return line_of({"findService": {"service": service, "location": [{"id": "p", **place}]}}).encode()


def answer_of(reply: bytes) -> Answer:
    """What a reply to findService says."""
    ((name, value),) = json.loads(reply).items()
    if name != "findServiceResponse":
        return str(value.get("error", name)), False
    mappings, warnings = value["mapping"], value.get("warnings", [])
    names = [f"{mapping['source']} {mapping['sourceId']}" for mapping in mappings[:MOST_SHOWN]]
    more = [f"{len(mappings) - MOST_SHOWN} others"] if len(mappings) > MOST_SHOWN else []
    notes = [f"of {mappings[0]['service']}"] if "serviceSubstitution" in warnings else []
    notes += ["a default"] if "defaultMappingReturned" in warnings else []
    return " and ".join(names + more) + (f" ({', '.join(notes)})" if notes else ""), not notes


def replies_of(lostd: str, now: str, feed: Feed, questions: List[bytes]) -> Iterator[bytes]:
    """The replies to questions over a map; NoAnswer where the program fails."""
    words = [lostd, "replay", "--name", NAME, "--now", now, "--lines", str(MOST_LINES)]
    with subprocess.Popen(words, stdin=subprocess.PIPE, stdout=subprocess.PIPE, stderr=subprocess.PIPE) as process:
        fed = Feeding(process.stdin, feed, questions)
        replies = [line for line in process.stdout if not line.startswith((b'{"staged"', b'{"refused"', b'{"committed"'))]
        complaint = process.stderr.read().decode(errors="replace").strip()
        fed.join()
        if process.wait() != 0 or len(replies) < len(questions):
            raise NoAnswer(complaint or fed.trouble or f"{lostd} gave {len(replies)} replies to {len(questions)} questions")
    return iter(replies[-len(questions) :] if questions else [])


class Feeding(threading.Thread):
    """Writes a map and questions to the program while its replies are read."""

    def __init__(self, target: Any, feed: Feed, questions: List[bytes]) -> None:
        super().__init__(daemon=True)
        self.target, self.feed, self.questions, self.trouble = target, feed, questions, ""
        self.start()

    def run(self) -> None:
        try:
            with self.target:
                self.feed(self.target)
                self.target.writelines(question + b"\n" for question in self.questions)
        except (OSError, ValueError) as error:
            self.trouble = str(error)


def answers_at(lostd: str, now: str, feed: Feed, findings: Iterable[Finding]) -> List[Optional[Answer]]:
    """What the program answers at the place of each finding; None where a finding has none."""
    questions = [question_of(finding) for finding in findings]
    asked = [question for question in questions if question is not None]
    if not asked:
        return [None for _ in questions]
    if not os.access(lostd, os.X_OK):
        raise NoAnswer(f"{lostd} is no program")
    replies = replies_of(lostd, now, feed, asked)
    return [None if question is None else answer_of(next(replies)) for question in questions]
