"""What the machine has: processors, memory, disk."""
from __future__ import annotations

import os
import re
from typing import Optional

from building.faults import Fault

# The megabytes of disk that a build may take; with fewer than the second left, a proof that failed did so for want of them.
DISK = 12_000
LEAST_DISK = 100

PORTABLE, QUICKER = "x86-64-v2", "x86-64-v3"
QUICKER_FLAGS = {"avx", "avx2", "bmi1", "bmi2", "f16c", "fma", "abm", "movbe", "xsave"}
CGROUPS = (
    ("/sys/fs/cgroup/memory.max", "/sys/fs/cgroup/memory.stat", r"^anon (\d+)"),
    ("/sys/fs/cgroup/memory/memory.limit_in_bytes", "/sys/fs/cgroup/memory/memory.stat", r"^total_rss (\d+)"),
)


def number_in(path: str, pattern: str) -> Optional[int]:
    """The number that a pattern finds in a file, if it does."""
    try:
        with open(path, encoding="utf-8") as file:
            found = re.search(pattern, file.read(), re.M)
    except OSError:
        return None
    return int(found[1]) if found else None


def processors() -> int:
    """How many processors there are to use, by the quota of the control group too."""
    count = len(os.sched_getaffinity(0))
    quota, period = (number_in("/sys/fs/cgroup/cpu.max", pattern) for pattern in (r"^(\d+) ", r" (\d+)"))
    return max(min(count, quota // period), 1) if quota and period else count


def free_memory() -> int:
    """How many megabytes of memory are free, by the limit of the control group too."""
    free = (number_in("/proc/meminfo", r"^MemAvailable:\s+(\d+)") or 0) // 1024
    for limit_file, held_file, pattern in CGROUPS:
        limit, held = number_in(limit_file, r"^(\d+)"), number_in(held_file, pattern)
        if limit is not None and held is not None:
            free = min(free, (limit - held) >> 20)
    return free


def free_disk(folder: str) -> int:
    """How many megabytes of disk are free at a folder, or at the nearest one above it that is there."""
    while not os.path.isdir(folder):
        folder = os.path.dirname(folder)
    found = os.statvfs(folder)
    return found.f_bavail * found.f_frsize >> 20


def quickest() -> str:
    """The processor that code is compiled for here: the code for x86-64-v3 is quicker where all that it names is there."""
    flags = set()
    try:
        with open("/proc/cpuinfo", encoding="utf-8") as file:
            flags = set(next((line for line in file if line.startswith("flags")), "").split())
    except OSError:
        pass
    return QUICKER if QUICKER_FLAGS <= flags else PORTABLE


def see_memory(free: int, needed: int) -> None:
    """A fault where less memory is free than the largest proof takes."""
    if free < needed:
        raise Fault(f"{free:,} MB of memory are free, but a proof takes up to {needed:,}: end other programs, or use a larger machine")


def see_disk(free: int, folder: str) -> None:
    """A fault where less disk is free than a build may take."""
    if free < DISK:
        raise Fault(f"{free:,} MB of disk are free at {folder}, but a build takes up to {DISK:,}: free some, or clone onto a larger disk")
