"""What a cut is, and the words in which a day tells its rule and why it drops a wish."""
from __future__ import annotations

from collections.abc import Mapping
from dataclasses import dataclass

from .limits import ARCS, ASSETS, LEADERS, PARTIES

RULE = (
    f"a part above {PARTIES} parties, {ARCS} arcs, {LEADERS} leaders or {ASSETS} assets is thinned: cycles of a circulation of nearly the greatest value, "
    "then of what is left, most value first, each by the shortest way back; then wishes that join these cycles, most value first"
)
NO_CYCLE = "no cycle"
NO_PLACE = "no place within the limits beside wishes of more value"
NOT_COVERED = "its payer's units don't cover it"


@dataclass(frozen=True)
class Cut:
    """The groups, as numbers of wishes, and why each other wish is dropped."""

    groups: tuple[tuple[int, ...], ...]
    dropped: Mapping[int, str]
