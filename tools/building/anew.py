"""Builds the program for its use in the checkout."""
from __future__ import annotations

import sys
from typing import Optional

from building.build import build, stop_on_signals
from building.faults import Fault
from building.kit import find_kit
from building.machine import quickest
from building.package import package_of
from building.programs import keep_built


def build_for_use(top: str, jobs: Optional[int], processor: str) -> str:
    """Builds the program into its place, and gives its path."""
    made = build(top, jobs, processor)
    return keep_built(top, made.program, made.sources, processor)


def build_anew(top: str) -> str:
    """Builds the program, and says why; a fault where it cannot be built."""
    why = "the sources have changed since the packaged program was made" if package_of(top) else "there is no packaged program"
    try:
        find_kit()
    except Fault as fault:
        raise Fault(f"{why}, and {fault}") from None
    print(f"lostd: {why}: proving and building it from the sources, up to half an hour, as ./build does", file=sys.stderr)
    stop_on_signals()
    return build_for_use(top, None, quickest())
