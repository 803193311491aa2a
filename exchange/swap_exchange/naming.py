"""Names inside swaps: those of customers that aren't names as `swap` knows them get one."""
from __future__ import annotations

from collections.abc import Iterable

from swap_party.lines import NAME


def inside(names: Iterable[str]) -> dict[str, str]:
    """For each customer's name the one that stands in swaps: its own, or `_1`, `_2` and so on, in the
    order of the names, past those that are in use."""
    found = sorted(set(names))
    used = {it for it in found if NAME.fullmatch(it)}
    fresh = (name for number in range(1, len(found) + len(used) + 1) if (name := f"_{number}") not in used)
    return {it: it if it in used else next(fresh) for it in found}
