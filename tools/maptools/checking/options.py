"""How a map is checked."""
from __future__ import annotations

from typing import Any, NamedTuple, Optional

from maptools.checking.progress import Progress


class Options(NamedTuple):
    """How a map is checked.

    `now` is a stamp; None for the clock. `within_days` is how soon a mapping that expires is told of. `tolerance` is in metres:
    gaps and overlaps that are not wider are left out. `outline` is that of the whole map, from maptools.checking.outline.
    `lostd` is the path of the program that is asked for answers; None leaves them out.
    """

    now: Optional[str] = None
    within_days: float = 30
    tolerance: float = 0
    outline: Any = None
    lostd: Optional[str] = None
    progress: Progress = Progress()
