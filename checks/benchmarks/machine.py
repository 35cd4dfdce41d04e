"""What is measured on, and of which sources."""
import os
import re
import subprocess

from building.machine import number_in, processors

BUSY = 1.0


def machine():
    """The machine in words: cores, processor and memory."""
    with open("/proc/cpuinfo", encoding="utf-8") as file:
        found = re.search(r"^model name\s*:\s*(.+)$", file.read(), re.MULTILINE)
    model = " ".join(re.sub(r"\(R\)|\(TM\)", "", found[1]).split()) if found else "an unknown processor"
    memory = (number_in("/proc/meminfo", r"^MemTotal:\s+(\d+)") or 0) / 1e6
    return f"{processors()} cores of {model}, {memory:.0f} GB of memory"


def load():
    """How many processes wanted to run in the last minute."""
    return os.getloadavg()[0]


def git(top, *words):
    """What a command of git prints."""
    return subprocess.run(["git", "-C", top, *words], capture_output=True, text=True, check=True).stdout.strip()


def commit(top):
    """The commit that is checked out, and whether crates or checks were changed since."""
    changed = git(top, "status", "--porcelain", "--", "crates", "crates.txt", "checks")
    return git(top, "rev-parse", "--short", "HEAD") + (" with changes" if changed else "")


def is_older(top, path):
    """Whether a program is older than the last commit that changed the crates: then it is of other sources."""
    return os.path.getmtime(path) < int(git(top, "log", "-1", "--format=%ct", "--", "crates", "crates.txt") or 0)
