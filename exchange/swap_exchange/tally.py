"""How many numbers of a campaign ended how, and which ones."""
from __future__ import annotations

from collections import Counter
from collections.abc import Iterable, Mapping
from dataclasses import dataclass, field
from typing import Any

NOTHING, FINDINGS = "nothing found", "findings"
# How many names are kept of each status and reason
NAMES = 100


@dataclass
class Tally:
    """By status and reason: how many, and the least numbers; and the sums of what runs told."""

    counts: Counter[tuple[int, str]] = field(default_factory=Counter)
    names: dict[tuple[int, str], list[int]] = field(default_factory=dict)
    sums: Counter[str] = field(default_factory=Counter)

    def add(self, number: int, status: int, reason: str, sums: Mapping[str, int]) -> None:
        self.merge(Tally(Counter({(status, reason): 1}), {(status, reason): [number]} if status else {}, Counter(sums)))

    def merge(self, other: Tally) -> None:
        self.counts += other.counts
        for key, names in other.names.items():
            self.names[key] = sorted([*self.names.get(key, []), *names])[:NAMES]
        for word, number in other.sums.items():
            self.sums[word] += number

    def rows(self) -> list[dict[str, Any]]:
        return [
            {"status": status, "reason": reason, "count": count, "names": self.names.get((status, reason), [])}
            for (status, reason), count in sorted(self.counts.items())
        ]

    def told(self) -> dict[str, Any]:
        return {"tally": self.rows(), "sums": dict(sorted(self.sums.items()))}

    @classmethod
    def read(cls, told: Mapping[str, Any]) -> Tally:
        rows = [((int(it["status"]), str(it["reason"])), it) for it in told["tally"]]
        names = {key: list(it["names"]) for key, it in rows if it["names"]}
        return cls(Counter({key: int(it["count"]) for key, it in rows}), names, Counter(told["sums"]))

    @classmethod
    def of(cls, tallies: Iterable[Tally]) -> Tally:
        whole = cls()
        for it in tallies:
            whole.merge(it)
        return whole
