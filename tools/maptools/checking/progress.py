"""What a long check says of how far it is, on a terminal alone."""
from __future__ import annotations

import sys
import time

# Seconds between two reports.
PAUSE = 0.5


class Progress:
    """Shows nothing."""

    def tell(self, what: str, done: int, total: int) -> None:
        """So much of something is done; a total of 0 is not known."""

    def end(self) -> None:
        """Nothing more comes."""


class OnTerminal(Progress):
    """Shows one line on standard error, which is written over again and again."""

    def __init__(self) -> None:
        self.shown, self.is_dirty = time.monotonic(), False

    def tell(self, what: str, done: int, total: int) -> None:
        if time.monotonic() < self.shown + PAUSE:
            return
        self.shown, self.is_dirty = time.monotonic(), True
        share = f"{done:,} of {total:,}" if total else f"{done:,}"
        print(f"\r\x1b[K{what}: {share}", end="", file=sys.stderr, flush=True)

    def end(self) -> None:
        if self.is_dirty:
            print("\r\x1b[K", end="", file=sys.stderr, flush=True)
            self.is_dirty = False
