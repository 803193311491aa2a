"""A part that is too large is thinned, move by move. Each second tells the moves that were made, so
that a part goes on behind the moves that were kept."""
from __future__ import annotations

import time
from collections.abc import Iterator, Mapping, Sequence
from dataclasses import dataclass

from .circulation import STEPS, Circulation
from .joining import Groups, Move
from .left import Left
from .limits import PARTIES, Edge, Fits

# How often it is told how far a part is, in seconds
EVERY = 1.0


@dataclass(frozen=True)
class Told:
    """How far a part is: `at` counts steps among `whole`. `state` is the circulation's as it stands
    until that is over, and `moves` are what was done since the last time."""

    at: int
    whole: int
    state: bytes
    moves: tuple[Move, ...]


@dataclass(frozen=True)
class Kept:
    """What was kept of a part: the last that was told, with all moves."""

    at: int = 0
    state: bytes = b""
    moves: tuple[Move, ...] = ()


class Thinning:
    """The cut of one part, from what was kept on.

    The order of the wishes is that of their value. `at` counts the steps of the circulation, the
    wishes of the circulation, then all wishes twice: once as those that begin cycles, and once as
    those that join groups.
    """

    def __init__(self, edges: Mapping[int, Edge], fits: Fits, kept: Kept) -> None:
        self.edges, self.fits, self.at = edges, fits, kept.at
        self.order = sorted(edges, key=lambda it: (-edges[it].value, it))
        self.circulation = Circulation([edges[it] for it in self.order], kept.state)
        self.first: list[int] = []
        self.moves, self.told = list(kept.moves), len(kept.moves)
        self.last = time.monotonic()

    @property
    def whole(self) -> int:
        return STEPS + (len(self.first) or len(self.order)) + 2 * len(self.order)

    def is_time(self) -> bool:
        return time.monotonic() - self.last >= EVERY

    def tell(self) -> Told:
        """What is new since the last time."""
        self.last = time.monotonic()
        state = self.circulation.kept() if self.circulation.done <= STEPS and self.at <= STEPS else b""
        told, self.told = Told(self.at, self.whole, state, tuple(self.moves[self.told :])), len(self.moves)
        return told

    def run(self) -> Iterator[Told]:
        """Goes on to the end, and tells each second how far it is."""
        while self.circulation.done < STEPS:
            self.circulation.step()
            self.at = self.circulation.done
            if self.is_time() or self.circulation.done == STEPS:
                yield self.tell()
        self.first = [wish for wish, is_first in zip(self.order, self.circulation.chosen()) if is_first]
        begun = STEPS
        for order in (self.first, self.order):
            yield from self.cycles(order, begun)
            begun += len(order)
        yield from self.joins(begun)
        yield self.tell()

    def left(self, order: Sequence[int], taken: Sequence[Move], looked: int = 0) -> Left:
        """The wishes of an order that no move took, without those that were looked at."""
        gone = {wish for move in taken for wish in move.wishes}
        return Left(self.edges, (it for place, it in enumerate(order) if place >= looked and it not in gone))

    def cycles(self, order: Sequence[int], begun: int) -> Iterator[Told]:
        """Cycles that share no wish, each of at most as many wishes as a swap has parties."""
        if self.at >= begun + len(order):
            return
        # (a wish that was looked at was taken, or lies on no cycle of what is left)
        left = self.left(order, self.moves, self.at - begun)
        left.trim(left.leaving)
        for wish in order[self.at - begun :]:
            self.at += 1
            if left.has(wish):
                self.cycle(left, wish)
            if self.is_time():
                yield self.tell()

    def cycle(self, left: Left, wish: int) -> None:
        payer, payee = left.edges[wish].ends
        way = left.way(payee, payer, PARTIES - 1)
        cycle = [wish, *(way or [])]
        left.take(cycle)
        left.trim({end for it in cycle for end in left.edges[it].ends})
        if way is not None:
            self.moves.append(Move(len(self.moves), tuple(cycle)))

    def joins(self, begun: int) -> Iterator[Told]:
        """The other wishes join the cycles where the limits hold."""
        groups = Groups(self.left(self.order, self.moves), self.moves, self.fits)
        for wish in self.order[self.at - begun :]:
            self.at += 1
            if groups.left.has(wish) and (move := groups.join(wish)):
                self.moves.append(move)
            if self.is_time():
                yield self.tell()


def groups_of(moves: Sequence[Move]) -> list[list[int]]:
    """The groups that moves make."""
    found: dict[int, list[int]] = {}
    for move in moves:
        merged = found.pop(move.merged) if move.merged is not None else []
        found[move.group] = [*found.get(move.group, []), *merged, *move.wishes]
    return [sorted(it) for it in found.values()]
