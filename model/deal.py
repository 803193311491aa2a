"""The digraph, the times and the deal. docs/DEFINITIONS.md, 'The digraph', 'Times' and 'An accepted
deal'."""
from __future__ import annotations

from functools import cached_property
from typing import Optional

from .hashes import tagged

KEYED, TIMED = "hashkeys", "timelocks"


# ---- the digraph: `ends` is a list of pairs, an arc's party and its counterparty

def reached(ends: list[tuple[int, int]], first: int) -> set[int]:
    """The parties that paths lead to from this one, itself among them."""
    found, left = {first}, [first]
    while left:
        party = left.pop()
        for at, to in ends:
            if at == party and to not in found:
                found.add(to)
                left.append(to)
    return found


def closed_set(parties: int, ends: list[tuple[int, int]]) -> Optional[list[int]]:
    """A set that no arc leaves, or None where the digraph is strongly connected."""
    forward = reached(ends, 0)
    if len(forward) < parties:
        return sorted(forward)
    backward = reached([(to, at) for at, to in ends], 0)
    if len(backward) < parties:
        return sorted(set(range(parties)) - backward)
    return None


def cycle_through(ends: list[tuple[int, int]], party: int, allowed: set[int]) -> Optional[list[int]]:
    """A shortest cycle from a party along allowed ones, by least numbers, or None."""
    before: dict[int, int] = {}
    level = [party]
    while level:
        following = []
        for at in level:
            for to in sorted(to for start, to in ends if start == at and to in allowed):
                if to == party:
                    cycle = [at]
                    while cycle[-1] != party:
                        cycle.append(before[cycle[-1]])
                    return cycle[::-1]
                if to not in before:
                    before[to] = at
                    following.append(to)
        level = following
    return None


def follower_cycle(parties: int, ends: list[tuple[int, int]], leaders: list[int]) -> Optional[list[int]]:
    """A cycle of followers, or None where the leaders are a feedback vertex set."""
    followers = set(range(parties)) - set(leaders)
    for party in sorted(followers):
        cycle = cycle_through(ends, party, followers)
        if cycle:
            return cycle
    return None


def longest(ends: list[tuple[int, int]], party: int, allowed: set[int], last: Optional[int] = None) -> int:
    """The most arcs on a path from a party over allowed ones (to the last, where one is named,
    which it reaches).

    The allowed parties have no cycle.
    """
    known: dict[int, Optional[int]] = {}

    def most(at: int) -> Optional[int]:
        if at == last:
            return 0
        if at not in known:
            ways = [most(to) for start, to in ends if start == at and (to in allowed or to == last)]
            lengths = [way + 1 for way in ways if way is not None]
            known[at] = max(lengths, default=0 if last is None else None)
        return known[at]

    found = most(party)
    assert found is not None
    return found


def height(parties: int, ends: list[tuple[int, int]], leaders: list[int]) -> int:
    """`h`, the most parties on a path of followers alone."""
    followers = set(range(parties)) - set(leaders)
    return max((longest(ends, party, followers) + 1 for party in followers), default=0)


def distance(parties: int, ends: list[tuple[int, int]], party: int, leader: int) -> int:
    """`dist`, the greatest number of arcs on a path from a party to the leader, whose followers
    have no cycle."""
    return longest(ends, party, set(range(parties)) - {leader}, leader)


def need(parties: int, ends: list[tuple[int, int]], leaders: list[int]) -> int:
    """The least bound that is allowed."""
    return min(parties - 1, len(leaders) * (height(parties, ends, leaders) + 1) - 1)


# ---- the deal

# by version: the most parties, arcs and parties of a hashkey's path
MOST_PARTIES, MOST_ARCS, PATH_LIMIT = {1: 24, 2: 32}, {1: 96, 2: 128}, {1: 24, 2: 32}


class Deal:
    """What the parties agree on. Parties, arcs and locks are numbered from 0."""

    def __init__(
        self, version: int, mode: str, names: list[str], ends: list[tuple[int, int]], amounts: list[int], leaders: list[int], times: tuple[int, int, int]
    ) -> None:
        self.version, self.mode, self.names, self.ends = version, mode, names, ends
        self.amounts, self.leaders = amounts, leaders
        self.start, self.delta, self.bound = start, delta, bound = times
        self.open_by, self.last_expiry = start + bound * delta, start + (2 * bound + 1) * delta
        self.horizon = start + (2 * bound + 2) * delta
        self.is_keyed = mode == KEYED
        self.timelocks = [0] * len(ends)
        self.hashlocks: list[bytes] = []
        self.keys: list[list[bytes]] = []
        self.parties, self.arcs, self.locks = range(len(names)), range(len(ends)), range(len(leaders))
        self.leaving = [[arc for arc in self.arcs if ends[arc][0] == party] for party in self.parties]
        self.entering = [[arc for arc in self.arcs if ends[arc][1] == party] for party in self.parties]
        self.touching = [[arc for arc in self.arcs if party in ends[arc]] for party in self.parties]

    @cached_property
    def need(self) -> int:
        return need(len(self.names), self.ends, self.leaders)

    def timelock_of(self, arc: int) -> int:
        """The timelock of an arc, which goes by the distance of its counterparty from the one
        leader."""
        steps = distance(len(self.names), self.ends, self.ends[arc][1], self.leaders[0])
        return self.start + (self.bound + 1 + steps) * self.delta

    @cached_property
    def id(self) -> bytes:
        """The id of a deal: the digest of what it says."""
        return tagged(6, self.deal_bytes())

    def deal_bytes(self) -> bytes:
        """FORMATS, 'The deal bytes'."""
        said = bytearray([self.version, int(self.is_keyed), len(self.names), len(self.ends)])
        for (party, counterparty), amount, timelock in zip(self.ends, self.amounts, self.timelocks):
            said += bytes([party, counterparty]) + amount.to_bytes(8, "big") + timelock.to_bytes(4, "big")
        said += bytes([len(self.leaders), *self.leaders])
        for time in (self.start, self.delta, self.bound):
            said += time.to_bytes(4, "big")
        said += b"".join(self.hashlocks)
        if self.is_keyed:
            said += b"".join(b"".join(row) for row in self.keys)
        return bytes(said)
