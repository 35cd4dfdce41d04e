"""The kit that proves and builds."""
from __future__ import annotations

import os
import re
import shutil
import subprocess
from typing import NamedTuple

from building.faults import Fault

# The logic that these sources are proved in.
LOGIC = "dac8208d650f15bf"
PLACE = "/opt/rattle/bin/rt"


class Kit(NamedTuple):
    """The path of the command rt, and the kit's line about itself."""

    rt: str
    identity: str

    @property
    def logic(self) -> str:
        """The logic of the kit."""
        found = re.search(r"\blogic (\w+)", self.identity)
        return found[1] if found else "none"


def find_kit(place: str = PLACE) -> Kit:
    """The kit whose rt is on the PATH, or else the one at its usual place; a fault where it proves in another logic."""
    path = shutil.which("rt") or (place if os.access(place, os.X_OK) else None)
    if path is None:
        root = os.path.dirname(os.path.dirname(place))
        raise Fault(f"there is no kit to build with: put one of logic {LOGIC} at {root}, or its rt on the PATH")
    try:
        ran = subprocess.run([path, "version"], stdin=subprocess.DEVNULL, capture_output=True, text=True, timeout=60, check=True)
    except (OSError, subprocess.SubprocessError):
        raise Fault(f"{path} version does not run: put a kit of logic {LOGIC} there") from None
    kit = Kit(path, ran.stdout.strip())
    if kit.logic != LOGIC:
        raise Fault(f"the kit of {path} is {kit.identity!r}, but these sources are proved in logic {LOGIC}: use a kit of that logic")
    return kit
