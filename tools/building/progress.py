"""What a build says: one line of where it is, and a log of all else."""
from __future__ import annotations

import os
import re
import shutil
import sys
import time
from typing import Dict, List

# How often the line changes on a terminal, and how often it is written where there is none.
QUICKLY, SELDOM = 1.0, 60.0
SO_FAR = re.compile(r"so far: (\d+) of \d+ functions checked")


def span(seconds: float) -> str:
    """A time in minutes and seconds."""
    return f"{int(seconds) // 60}:{int(seconds) % 60:02}"


class Log:
    """The file that has every line of rt, with its crate."""

    def __init__(self, path: str) -> None:
        self.path, self.begun = path, time.monotonic()
        os.makedirs(os.path.dirname(path), exist_ok=True)
        # (it lasts as long as the build)
        self.file = open(path, "w", encoding="utf-8", errors="replace", buffering=1)

    def write(self, name: str, text: str) -> None:
        """Adds a line."""
        self.file.write(f"{span(time.monotonic() - self.begun):>7} {name}: {text.rstrip()}\n")

    def last_of(self, name: str, count: int = 30) -> List[str]:
        """The last lines of a crate."""
        with open(self.path, encoding="utf-8", errors="replace") as file:
            said = [line.split(f" {name}: ", 1)[1] for line in file if f" {name}: " in line[:80]]
        return said[-count:]


class Line:
    """The line on standard error."""

    def __init__(self, functions: Dict[str, int]) -> None:
        self.functions, self.is_terminal, self.next = functions, sys.stderr.isatty(), 0.0

    def text(self, done: List[str], running: Dict[str, float], proved: Dict[str, int], left: float) -> str:
        """How far it is."""
        count = sum(self.functions[name] for name in done) + sum(min(proved[name], self.functions[name]) for name in running)
        now = ", ".join(f"{name} {span(spent)}" for name, spent in running.items())
        minutes = max(round(left / 60), 1)
        so_far = f"{len(done)} of {len(self.functions)} crates, {count:,} of about {sum(self.functions.values()):,} functions"
        return f"build: {so_far}; about {minutes} minute{'s' * (minutes > 1)} left; now at {now}"

    def is_due(self) -> bool:
        """Whether it is time to say it again."""
        return time.monotonic() >= self.next

    def say(self, text: str) -> None:
        """Puts the line in the place of the last one on a terminal, and else below it."""
        self.next = time.monotonic() + (QUICKLY if self.is_terminal else SELDOM)
        if self.is_terminal:
            width = shutil.get_terminal_size().columns - 1
            print(f"\r\x1b[K{text[:width]}", end="", file=sys.stderr, flush=True)
        else:
            print(text, file=sys.stderr, flush=True)

    def end(self) -> None:
        """Leaves the line."""
        if self.is_terminal:
            print("\r\x1b[K", end="", file=sys.stderr, flush=True)
