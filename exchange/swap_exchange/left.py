"""The wishes of a part that no group has taken, and shortest ways through them."""
from __future__ import annotations

from collections.abc import Collection, Iterable, Mapping

from .limits import Edge

# How many wishes a search for a cycle, and one for a way into a group, look at before they give up
LOOKS, EAR_LOOKS = 8000, 300


class Left:
    """Wishes by who pays and by who is paid, in the order of their value."""

    def __init__(self, edges: Mapping[int, Edge], order: Iterable[int]) -> None:
        self.edges = edges
        self.leaving: dict[int, dict[int, int]] = {}
        self.entering: dict[int, dict[int, int]] = {}
        for wish in order:
            edge = edges[wish]
            self.leaving.setdefault(edge.payer, {})[wish] = edge.payee
            self.entering.setdefault(edge.payee, {})[wish] = edge.payer
            self.leaving.setdefault(edge.payee, {})
            self.entering.setdefault(edge.payer, {})

    def has(self, wish: int) -> bool:
        return wish in self.leaving.get(self.edges[wish].payer, ())

    def take(self, wishes: Iterable[int]) -> None:
        for wish in wishes:
            del self.leaving[self.edges[wish].payer][wish]
            del self.entering[self.edges[wish].payee][wish]

    def trim(self, users: Iterable[int]) -> None:
        """Takes out the wishes of users who pay nobody or whom nobody pays, from these users on:
        they are on no cycle."""
        waiting = list(users)
        while waiting:
            user = waiting.pop()
            leaving, entering = self.leaving[user], self.entering[user]
            if leaving and entering:
                continue
            waiting += [*leaving.values(), *entering.values()]
            self.take([*leaving, *entering])

    def way(self, begin: int, end: int, most: int) -> list[int] | None:
        """A shortest way of at most so many wishes, searched from both ends, unless the search looks
        at too many."""
        ahead, behind = {begin: -1}, {end: -1}
        front, back = [begin], [end]
        for _ in range(most):
            if len(front) <= len(back):
                front, met = step(front, self.leaving, ahead, behind)
            else:
                back, met = step(back, self.entering, behind, ahead)
            if met is not None:
                return self.way_ahead(met, ahead) + self.way_behind(met, behind)
            if not front or not back or len(ahead) + len(behind) > LOOKS:
                break
        return None

    def way_ahead(self, user: int, ahead: Mapping[int, int]) -> list[int]:
        """The wishes that led to a user."""
        way = []
        while ahead[user] >= 0:
            way.append(ahead[user])
            user = self.edges[way[-1]].payer
        return way[::-1]

    def way_behind(self, user: int, behind: Mapping[int, int]) -> list[int]:
        way = []
        while behind[user] >= 0:
            way.append(behind[user])
            user = self.edges[way[-1]].payee
        return way

    def way_to_any(self, begin: int, goal: Collection[int], most: int) -> list[int] | None:
        """A shortest way of at most so many wishes to one of the goal, if the search finds one
        before it has looked at too many."""
        ahead, front, looks = {begin: -1}, [begin], 0
        for _ in range(most):
            before, front = front, []
            for user in before:
                for wish, payee in self.leaving.get(user, {}).items():
                    looks += 1
                    if payee in goal:
                        return [*self.way_ahead(user, ahead), wish]
                    if payee not in ahead:
                        ahead[payee] = wish
                        front.append(payee)
            if not front or looks > EAR_LOOKS:
                break
        return None


def step(front: list[int], ways: Mapping[int, Mapping[int, int]], seen: dict[int, int], goal: Mapping[int, int]) -> tuple[list[int], int | None]:
    """The users one wish further, and one of them that the other side has seen."""
    further: list[int] = []
    for at in front:
        for wish, user in ways[at].items():
            if user in seen:
                continue
            seen[user] = wish
            if user in goal:
                return further, user
            further.append(user)
    return further, None
