"""Proves and builds lostd from the sources."""
from __future__ import annotations

import os
import signal
import sys
from typing import NamedTuple, NoReturn, Optional

from building.copies import Copies, locked, settle, working_folder
from building.kit import find_kit
from building.machine import DISK, free_disk, free_memory, processors, see_disk, see_memory
from building.progress import Line, Log
from building.proving import Proving
from building.schedule import Schedule
from building.sources import PROGRAM, crates_below, functions_of, lines_of, rows_of, sum_of, uses_of

LOG = "out/build.log"
RUNNING = "another build of this checkout is running: wait for it"


class Built(NamedTuple):
    """A program, the sum of the sources that it was built from, and the kit that did."""

    program: bytes
    sources: str
    kit: str


def stop_on_signals() -> None:
    """Has a signal that ends the process stop a build as Ctrl-C does."""

    def stop(*_: object) -> NoReturn:
        raise KeyboardInterrupt

    for number in (signal.SIGTERM, signal.SIGHUP):
        signal.signal(number, stop)


def build(top: str, jobs: Optional[int], processor: str) -> Built:
    """Proves all crates that lostd stands on and builds it; a fault where that fails. What was proved stays for the next one."""
    kit, place = find_kit(), working_folder(top)
    os.makedirs(os.path.dirname(place), exist_ok=True)
    with locked(os.path.dirname(place), RUNNING):
        settle(top, place)
        free, disk = free_memory(), free_disk(place)
        uses = uses_of(rows_of(top))
        names = crates_below(uses, PROGRAM)
        schedule = Schedule(uses, {name: lines_of(top, name) for name in names}, jobs or processors(), free)
        see_memory(free, round(max(schedule.needs.values())))
        see_disk(disk, place)
        try:
            copies = Copies(top, place, names, min(schedule.processors, len(names)))
            line, log = Line({name: functions_of(top, name) for name in names}), Log(f"{top}/{LOG}")
            room = f"it takes up to {DISK:,} MB of disk, and {disk:,} are free"
            print(f"build: {len(names)} crates, up to {schedule.processors} at a time; {room}; its log is {LOG}", file=sys.stderr)
            sources = sum_of(copies.folders[0], names)
            folder = Proving(kit, copies, schedule, line, log).run(processor)
            with open(f"{folder}/crates/{PROGRAM}/out/{PROGRAM}", "rb") as file:
                return Built(file.read(), sources, kit.identity)
        finally:
            settle(top, place)
