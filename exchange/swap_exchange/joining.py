"""Wishes that lie on no cycle of their own join groups: the second half of the rule that thins a
part."""
from __future__ import annotations

from collections import defaultdict
from collections.abc import Sequence
from dataclasses import dataclass

from .left import Left
from .limits import ARCS, PARTIES, Fits

# The most wishes of a way that joins a group
EAR = 6


@dataclass(frozen=True)
class Move:
    """A group takes wishes and, where `merged` tells one, all those of another group."""

    group: int
    wishes: tuple[int, ...]
    merged: int | None = None


class Groups:
    """Groups by their numbers, and the groups of each user."""

    def __init__(self, left: Left, moves: Sequence[Move], fits: Fits) -> None:
        self.left, self.fits = left, fits
        self.wishes: dict[int, list[int]] = {}
        self.parties: dict[int, set[int]] = {}
        self.of: defaultdict[int, set[int]] = defaultdict(set)
        for move in moves:
            self.follow(move)

    def follow(self, move: Move) -> Move:
        """Does what a move tells."""
        wishes = [*self.wishes.get(move.group, [])]
        if move.merged is not None:
            for user in self.parties.pop(move.merged):
                self.of[user].discard(move.merged)
            wishes += self.wishes.pop(move.merged)
        self.wishes[move.group] = [*wishes, *move.wishes]
        self.parties[move.group] = {end for wish in self.wishes[move.group] for end in self.left.edges[wish].ends}
        for user in self.parties[move.group]:
            self.of[user].add(move.group)
        return move

    def fit(self, wishes: Sequence[int]) -> bool:
        return len(wishes) <= ARCS and self.fits([self.left.edges[it] for it in wishes])

    def add(self, number: int, wishes: Sequence[int]) -> Move | None:
        """Has a group take wishes that are left, where the limits hold."""
        if not self.fit([*self.wishes[number], *wishes]):
            return None
        self.left.take(wishes)
        return self.follow(Move(number, tuple(wishes)))

    def join(self, wish: int) -> Move | None:
        """Finds a place for a wish, if there is one: in a group of both its users; in one of its
        payer, with a way back through further wishes; between two groups that share a user."""
        return self.as_chord(wish) or self.as_ear(wish) or self.as_bridge(wish)

    def as_chord(self, wish: int) -> Move | None:
        payer, payee = self.left.edges[wish].ends
        return next((move for it in sorted(self.of[payer] & self.of[payee]) if (move := self.add(it, [wish]))), None)

    def as_ear(self, wish: int) -> Move | None:
        return next((move for it in sorted(self.of[self.left.edges[wish].payer]) if (move := self.ear(wish, it))), None)

    def ear(self, wish: int, number: int) -> Move | None:
        parties, payee = self.parties[number], self.left.edges[wish].payee
        most = min(EAR - 1, PARTIES - len(parties))
        way = None if payee in parties else self.left.way_to_any(payee, parties, most)
        return None if way is None else self.add(number, [wish, *way])

    def as_bridge(self, wish: int) -> Move | None:
        payer, payee = self.left.edges[wish].ends
        pairs = ((one, other) for one in sorted(self.of[payer]) for other in sorted(self.of[payee]))
        return next((move for one, other in pairs if (move := self.bridge(wish, one, other))), None)

    def bridge(self, wish: int, one: int, other: int) -> Move | None:
        """Makes one group of two, with the wish between them."""
        ours, theirs = self.parties[one], self.parties[other]
        if one == other or ours.isdisjoint(theirs) or len(ours | theirs) > PARTIES:
            return None
        if not self.fit([*self.wishes[one], *self.wishes[other], wish]):
            return None
        self.left.take([wish])
        return self.follow(Move(one, (wish,), other))
