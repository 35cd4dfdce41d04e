"""The programs that are at hand: what a build made, and the package."""
from __future__ import annotations

import json
import os
import sys
from typing import NoReturn, Optional, Sequence

from building.faults import Fault
from building.files import sum_of_bytes, sum_of_file, write_file
from building.machine import PORTABLE, quickest
from building.package import package_of
from building.sources import PROGRAM, sum_of_program

BUILT = f"crates/{PROGRAM}/out/{PROGRAM}"
RECORD = f"{BUILT}.json"


def keep_built(top: str, program: bytes, sources: str, processor: str) -> str:
    """Puts a program that was built into its place, with a record of what it was built from, and gives its path."""
    path = f"{top}/{BUILT}"
    record = {"sources": sources, "processor": processor, "sha256": sum_of_bytes(program)}
    write_file(path, program)
    write_file(f"{top}/{RECORD}", json.dumps(record).encode(), 0o644)
    return path


def built(top: str, *processors: str) -> Optional[str]:
    """The program that a build made of the sources as they stand, for one of these processors."""
    path = f"{top}/{BUILT}"
    try:
        with open(f"{top}/{RECORD}", encoding="utf-8") as file:
            record = json.load(file)
        fits = record["processor"] in processors and record["sha256"] == sum_of_file(path)
        return path if fits and record["sources"] == sum_of_program(top) else None
    except (OSError, ValueError, KeyError, TypeError):
        return None


def built_here(top: str) -> Optional[str]:
    """The program that a build made of the sources as they stand, where this processor can run it."""
    return built(top, PORTABLE, quickest())


def at_hand(top: str) -> Optional[str]:
    """The program of the sources as they stand that needs no build: one that was built, or else the packaged one."""
    path = built_here(top)
    if path is not None:
        return path
    package = package_of(top)
    return package.unpack() if package is not None and package.fits() else None


def execute(path: str, words: Sequence[str]) -> NoReturn:
    """Becomes the program; a fault where the machine cannot run it."""
    sys.stderr.flush()
    try:
        os.execv(path, [path, *words])
    except OSError as error:
        raise Fault(f"{path} cannot be run ({error.strerror}): it needs x86-64 Linux with glibc") from None
