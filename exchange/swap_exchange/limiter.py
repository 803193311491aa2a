"""How much anybody may ask of the service."""
from __future__ import annotations

import time
from collections import Counter
from collections.abc import Callable

# The most bytes of a body, requests of a user in a second and at once, and streams of events of all and
# of one user
BODY = 65_536
RATE, BURST = 50.0, 200.0
STREAMS, STREAMS_OF_ONE = 200, 4


class Bucket:
    """It has room for a request where so many a second were let in, and at most so many at once."""

    def __init__(self, rate: float, burst: float) -> None:
        self.rate, self.burst, self.left, self.last = rate, burst, burst, -1.0

    def has_room(self, present: float) -> bool:
        self.left = min(self.burst, self.left + self.rate * max(0.0, present - self.last))
        self.last = present
        if self.left < 1:
            return False
        self.left -= 1
        return True


class Limiter:
    """A bucket for each user. Who has no token is refused without any work."""

    def __init__(self, clock: Callable[[], float] = time.monotonic) -> None:
        self.clock = clock
        self.buckets: dict[str, Bucket] = {}
        self.streams: Counter[str] = Counter()

    def has_room(self, name: str) -> bool:
        return self.buckets.setdefault(name, Bucket(RATE, BURST)).has_room(self.clock())

    def may_follow(self, name: str) -> bool:
        """Whether a user may have one more stream of events."""
        return self.streams[name] < STREAMS_OF_ONE and self.streams.total() < STREAMS
