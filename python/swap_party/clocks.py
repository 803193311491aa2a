"""What delta has to hold (rule 6), in heights: how far a swap's clocks run apart, how long a call waits
to be final and a wallet to ask, how long its machine may be down, and how long a call takes to
land."""
from __future__ import annotations

from collections.abc import Mapping
from dataclasses import dataclass, fields, replace


@dataclass(frozen=True)
class Clock:
    """The five parts of delta. A wallet is on time where their sum is at most delta."""

    skew: int = 0
    finality: int = 0
    pace: int = 0
    down: int = 0
    landing: int = 0

    @property
    def needs(self) -> int:
        return self.skew + self.finality + self.pace + self.down + self.landing

    def fits(self, delta: int) -> bool:
        return self.needs <= delta

    def at_least(self, other: Clock) -> Clock:
        """The greater of each part."""
        return Clock(**{it.name: max(getattr(self, it.name), getattr(other, it.name)) for it in fields(self)})

    def __str__(self) -> str:
        return " + ".join(f"{it.name} {getattr(self, it.name)}" for it in fields(self))


@dataclass(frozen=True)
class Slow:
    """A warning: the parts, as they were planned or measured, are more than delta. It stands beside
    what is due."""

    clock: Clock
    delta: int

    def __str__(self) -> str:
        return f"slow {self.clock} is {self.clock.needs}, and delta is {self.delta}"


class Stopwatch:
    """Measures the parts by the heights that a wallet reads. What was planned counts where it is
    more."""

    def __init__(self, planned: Clock, delta: int) -> None:
        self.clock, self.delta = planned, delta
        self._asked: dict[int, int] = {}
        self._presented: dict[tuple[int, str], int] = {}

    def woke(self, seen: Mapping[int, int], heights: Mapping[int, int]) -> None:
        """The wallet starts again: by how much its ledgers rose since it saw them last."""
        self._grow(Clock(down=max((height - seen[arc] for arc, height in heights.items() if arc in seen), default=0)))

    def asks(self, heights: Mapping[int, int], tips: Mapping[int, int]) -> None:
        """The wallet asks over these final heights, while its chains stand at these."""
        apart = max(tips.values()) - min(tips.values())
        waits = max(tips[arc] - heights[arc] for arc in tips)
        pace = max((tips[arc] - self._asked[arc] for arc in tips if arc in self._asked), default=0)
        self._grow(Clock(skew=apart, finality=max(0, waits), pace=max(0, pace)))
        self._asked = dict(tips)

    @property
    def waiting(self) -> list[tuple[int, str]]:
        """The calls that were presented, and weren't seen to stand."""
        return list(self._presented)

    def presents(self, arc: int, call: str, tip: int) -> None:
        self._presented.setdefault((arc, call), tip)

    def lands(self, arc: int, call: str, height: int) -> None:
        """A call of its own stands on its ledger, at that height."""
        since = self._presented.pop((arc, call), None)
        if since is not None:
            self._grow(Clock(landing=max(0, height - since)))

    def _grow(self, other: Clock) -> None:
        self.clock = self.clock.at_least(other)

    def warning(self) -> Slow | None:
        return None if self.clock.fits(self.delta) else Slow(replace(self.clock), self.delta)
