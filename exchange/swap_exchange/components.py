"""The strongly connected parts of a graph, by Tarjan's algorithm without recursion."""
from __future__ import annotations

from collections.abc import Iterable, Iterator, Mapping, Sequence

Ends = tuple[int, int]


def components(ends: Iterable[Ends]) -> dict[int, int]:
    """For each user the number of its part: two users reach each other just if they have the same."""
    pays: dict[int, list[int]] = {}
    for payer, payee in ends:
        pays.setdefault(payer, []).append(payee)
        pays.setdefault(payee, [])
    search = Search(pays)
    for user in pays:
        if user not in search.index:
            search.visit(user)
    return search.part


class Search:
    """How far the search is: when a user was met, the first one met that it reaches, and those whose
    part isn't known yet."""

    def __init__(self, pays: Mapping[int, Sequence[int]]) -> None:
        self.pays = pays
        self.index: dict[int, int] = {}
        self.least: dict[int, int] = {}
        self.part: dict[int, int] = {}
        self.open: list[int] = []

    def enter(self, user: int) -> tuple[int, Iterator[int]]:
        self.index[user] = self.least[user] = len(self.index)
        self.open.append(user)
        return user, iter(self.pays[user])

    def visit(self, first: int) -> None:
        """Goes through all that a user reaches."""
        path = [self.enter(first)]
        while path:
            user, others = path[-1]
            other = next(others, None)
            if other is None:
                path.pop()
                self.leave(user, path[-1][0] if path else None)
            elif other not in self.index:
                path.append(self.enter(other))
            elif other not in self.part:
                self.least[user] = min(self.least[user], self.index[other])

    def leave(self, user: int, before: int | None) -> None:
        if self.least[user] == self.index[user]:
            number, member = len(self.part), None
            while member != user:
                member = self.open.pop()
                self.part[member] = number
        if before is not None:
            self.least[before] = min(self.least[before], self.least[user])
