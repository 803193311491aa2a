"""The leaders that `swap clear` gives a group, so that a group is cut to what the program takes."""
from __future__ import annotations

from collections import Counter
from collections.abc import Sequence

Ends = tuple[int, int]


def masks(arcs: Sequence[Ends], places: dict[int, int]) -> tuple[list[int], list[int]]:
    """For each party the parties that it pays, and those that pay it, as bits."""
    pays, paid = [0] * len(places), [0] * len(places)
    for payer, payee in arcs:
        pays[places[payer]] |= 1 << places[payee]
        paid[places[payee]] |= 1 << places[payer]
    return pays, paid


class Followers:
    """Parties without a cycle among them, and what each of them reaches, as bits."""

    def __init__(self) -> None:
        self.reach: dict[int, int] = {}

    def add(self, place: int, pays: int, paid: int) -> bool:
        """Adds the party unless that closes a cycle."""
        reached = 1 << place
        for other, bits in self.reach.items():
            if pays >> other & 1:
                reached |= bits
        members = sum(1 << other for other in self.reach)
        if reached & paid & members:
            return False
        for other, bits in self.reach.items():
            if bits & paid:
                self.reach[other] = bits | reached
        self.reach[place] = reached
        return True


def leaders(arcs: Sequence[Ends]) -> list[int]:
    """Those that remain where parties are dropped as long as no cycle is left among the dropped:
    first those that the fewest arcs touch, ties by their numbers."""
    touched = Counter(end for arc in arcs for end in arc)
    order = sorted(touched, key=lambda it: (touched[it], it))
    places = {party: place for place, party in enumerate(order)}
    pays, paid = masks(arcs, places)
    followers = Followers()
    return sorted(it for it in order if not followers.add(places[it], pays[places[it]], paid[places[it]]))
