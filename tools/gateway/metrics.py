"""What is counted, for Prometheus."""
from __future__ import annotations

from bisect import bisect_left
from typing import Any, Dict, List, Tuple

SECONDS = (0.0005, 0.001, 0.0025, 0.005, 0.01, 0.025, 0.05, 0.1, 0.25, 0.5, 1, 2, 4)
# Each process keeps its counts in files of this folder; it must be set before the library is loaded.
FOLDER = "PROMETHEUS_MULTIPROC_DIR"


class Times:
    """How many requests took at most so many seconds each, and the seconds of all of them."""

    def __init__(self) -> None:
        self.counts: List[int] = [0] * (len(SECONDS) + 1)
        self.sum = 0.0

    def add(self, seconds: float) -> None:
        """One more request."""
        self.counts[bisect_left(SECONDS, seconds)] += 1
        self.sum += seconds

    def tell(self, histogram: Any) -> None:
        """Adds them to a histogram of the library, which itself takes them one by one, and so long that clients would wait."""
        # pylint: disable=protected-access
        for bucket, count in zip(histogram._buckets, self.counts):
            if count:
                bucket.inc(count)
        histogram._sum.inc(self.sum)


class Metrics:
    """Requests by kind and outcome, the seconds that they took, and which servers are up; of all processes together."""

    def __init__(self) -> None:
        import prometheus_client
        from prometheus_client import multiprocess

        self.library = prometheus_client
        self.registry = prometheus_client.CollectorRegistry()
        multiprocess.MultiProcessCollector(self.registry)
        shared: Dict[str, Any] = {"registry": None}
        self.requests = prometheus_client.Counter("lost_requests", "Requests by kind and outcome.", ["kind", "outcome"], **shared)
        self.seconds = prometheus_client.Histogram("lost_request_seconds", "Seconds a request took.", buckets=SECONDS, **shared)
        shared["multiprocess_mode"] = "livemin"
        self.up = prometheus_client.Gauge("lost_server_up", "Whether the server answers each process.", ["server"], **shared)
        self.counts: Dict[Tuple[str, str], int] = {}
        self.times = Times()

    def count(self, kind: str, outcome: str, seconds: float) -> None:
        """One more request. It is told to the library with others: that takes as long as to answer it."""
        key = (kind, outcome)
        self.counts[key] = self.counts.get(key, 0) + 1
        self.times.add(seconds)

    def tell(self, states: List[Tuple[str, bool]]) -> None:
        """Tells the library what was counted, and which servers answer."""
        counts, self.counts = self.counts, {}
        times, self.times = self.times, Times()
        for (kind, outcome), count in counts.items():
            self.requests.labels(kind, outcome).inc(count)
        times.tell(self.seconds)
        for server, is_up in states:
            self.up.labels(server).set(is_up)

    def text(self) -> bytes:
        """All counts, as Prometheus reads them."""
        return self.library.generate_latest(self.registry)

    def media_type(self) -> str:
        """The type of that text."""
        return self.library.CONTENT_TYPE_LATEST
