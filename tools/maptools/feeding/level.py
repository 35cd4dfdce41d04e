"""How far a server is, for all who ask: the balancer, Prometheus, and the follower itself."""
from __future__ import annotations

import time
from typing import Dict, List, Optional

from maptools.addresses import Server
from maptools.connection import Broken
from maptools.feeding.log import Commit
from maptools.feeding.standing import EMPTY, Standing, standing_of

# So many editions are remembered with their digests, and so long a server may take to say where it stands.
MOST_KNOWN, SECONDS = 2_000, 1.0
# A follower asks the log more often than this.
LATELY = 5.0


class Level:
    """What a follower knows of the log and of its server. One thread writes it, others read it."""

    def __init__(self, status: Server, most_behind: float, most_apart: Optional[float]) -> None:
        self.status, self.most_behind, self.most_apart = status, most_behind, most_apart
        self.known: Dict[int, str] = {}
        self.position: Optional[Standing] = None
        self.log_edition, self.commits_behind = 0, 0
        self.waiting_since: Optional[float] = None
        self.contact_at = time.monotonic()
        self.has_reached_end, self.fault = False, ""
        self.commits = self.edits = self.bursts = self.looks = 0
        self.forget(EMPTY)

    def forget(self, standing: Standing) -> None:
        """Forgets all that the log had, but for this and the empty map: after a new connection it may be another one."""
        self.known = {EMPTY.edition: EMPTY.map, standing.edition: standing.map}

    def know(self, standing: Standing) -> None:
        """Remembers an edition of the log."""
        self.known[standing.edition] = standing.map
        while len(self.known) > MOST_KNOWN:
            self.known.pop(next(iter(self.known)))

    def stand(self, standing: Standing) -> None:
        """Notes where the server stands, which the log has too. One that fell back has to catch up before it serves again."""
        self.looks += 1
        self.has_reached_end = self.has_reached_end and self.position is not None and standing.edition >= self.position.edition
        self.position = standing
        self.know(standing)

    def wait_for(self, commits: List[Commit], count: int) -> None:
        """Notes that the server lacks these commits, and so many in all."""
        self.log_edition, self.commits_behind = commits[-1].edition, count
        self.waiting_since = time.monotonic() - commits[0].age

    def reach_end(self) -> None:
        """Notes that the server lacks nothing."""
        self.has_reached_end, self.waiting_since, self.commits_behind = True, None, 0
        self.log_edition = self.position.edition if self.position else 0

    def seconds_behind(self) -> float:
        """For how long the log has had what the server lacks."""
        since = self.waiting_since
        return 0.0 if since is None else max(0.0, time.monotonic() - since)

    def note_contact(self) -> None:
        """Notes that the log answered."""
        self.contact_at = time.monotonic()

    def seconds_apart(self) -> float:
        """For how long the log has not answered; 0 where it answered lately."""
        passed = time.monotonic() - self.contact_at
        return passed if passed > LATELY else 0.0

    def cause_in(self, standing: Standing) -> str:
        """Why a server that stands there must not be asked; empty where it may."""
        if self.known.get(standing.edition) != standing.map:
            return f"the server holds {standing.text()}, which the log is not known to have"
        if self.position is None or standing.edition < self.position.edition or not self.has_reached_end:
            return f"the server is at edition {standing.edition}, and has not reached the end of the log since it started"
        if self.seconds_behind() > self.most_behind:
            return f"the server is {self.seconds_behind():.0f} seconds behind the log"
        if self.most_apart is not None and self.seconds_apart() > self.most_apart:
            return f"the log has not been reached for {self.seconds_apart():.0f} seconds"
        return ""

    def cause(self) -> str:
        """Why the server must not be asked now; empty where it may. The server itself is asked where it stands."""
        if self.fault:
            return self.fault
        try:
            return self.cause_in(standing_of(self.status, SECONDS))
        except Broken as error:
            return str(error)
