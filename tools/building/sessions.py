"""The sessions of examples/, each with the replies that a program must give."""
from __future__ import annotations

import os
import subprocess
from typing import Iterator, List, Tuple

from building.faults import Fault

FOLDER = "examples"
WORDS = ("replay", "--name", "lost.example", "--now", "2026-01-01T00:00:00Z")


def sessions_of(top: str) -> Iterator[Tuple[str, bytes, bytes]]:
    """The name, the lines and the replies of each session."""
    for file in sorted(os.listdir(f"{top}/{FOLDER}")):
        name, ending = os.path.splitext(file)
        if ending == ".jsonl":
            texts = []
            for other in (".jsonl", ".expected"):
                with open(f"{top}/{FOLDER}/{name}{other}", "rb") as text:
                    texts.append(text.read())
            yield name, texts[0], texts[1]


def differing(top: str, program: str) -> Tuple[List[str], int]:
    """The sessions that a program answers otherwise than stored, and how many there are; a fault where it cannot be run."""
    names, count = [], 0
    for name, lines, replies in sessions_of(top):
        count += 1
        try:
            ran = subprocess.run([program, *WORDS], input=lines, stdout=subprocess.PIPE, stderr=subprocess.DEVNULL, timeout=60)
        except (OSError, subprocess.TimeoutExpired) as error:
            raise Fault(f"{program} cannot answer the session {name} ({error}): it needs x86-64 Linux with glibc") from None
        names += [name] if ran.stdout != replies else []
    return names, count
