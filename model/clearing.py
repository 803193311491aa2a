"""Clearing: which swaps can be made of transfers that are wished for, and which transfers can't be
in one.

docs/FORMATS.md, 'Wishes', and docs/DEFINITIONS.md, 'Clearing'. Here `parties` is how many there
are, and `ends` the two ends of each arc, as in deal.py.
"""
from __future__ import annotations

from typing import Any

from .deal import KEYED, cycle_through, follower_cycle, need, reached
from .offer import MOST_UNITS, NAME, Table, examine_fields, examine_known, examine_range, lines_of, parsed, refuse
from .offer import list_of, number, object_of, one_of, text
from .texts import compact, joined

MOST_LEADERS = 8


# ---- what can't be swapped


def is_cyclic(ends: list[tuple[int, int]], arc: int) -> bool:
    """An arc is cyclic where its counterparty reaches its party."""
    party, counterparty = ends[arc]
    return party in reached(ends, counterparty)


def left_out(ends: list[tuple[int, int]]) -> list[tuple[int, list[int]]]:
    """Arcs that aren't cyclic, ascending, each with the parties that its counterparty reaches: no
    arc leaves them, and its party isn't there."""
    return [(arc, sorted(reached(ends, ends[arc][1]))) for arc in range(len(ends)) if not is_cyclic(ends, arc)]


# ---- groups


def together(parties: int, ends: list[tuple[int, int]]) -> list[list[int]]:
    """Of each party those that are together with it: each of the two reaches the other, as each
    reaches itself."""
    reach = [reached(ends, party) for party in range(parties)]
    return [[other for other in range(parties) if other in reach[party] and party in reach[other]] for party in range(parties)]


class Group:
    """All parties that are together with one of them, with all arcs between them, and what a swap
    of them needs."""

    def __init__(self, parties: list[int], ends: list[tuple[int, int]]) -> None:
        self.parties = parties
        self.arcs = [arc for arc, (party, counterparty) in enumerate(ends) if party in parties and counterparty in parties]
        # (its own digraph numbers its parties by their places)
        own = [(parties.index(party), parties.index(counterparty)) for party, counterparty in (ends[arc] for arc in self.arcs)]
        leaders = leaders_of(len(parties), own)
        self.leaders = [parties[leader] for leader in leaders]
        self.cycles = [[parties[it] for it in leader_cycle(len(parties), own, leaders, leader)] for leader in leaders]
        self.bound = need(len(parties), own, leaders)


def groups_of(parties: int, ends: list[tuple[int, int]]) -> list[Group]:
    """The groups by their least party. Parties without arcs between them are none."""
    groups = [Group(found, ends) for party, found in enumerate(together(parties, ends)) if party == found[0]]
    return [group for group in groups if group.arcs]


# ---- leaders, within a group's own digraph


def leaders_of(parties: int, ends: list[tuple[int, int]]) -> list[int]:
    """What remains of all parties when they are dropped, one after the other, wherever the rest is
    still a feedback vertex set.

    Those that the fewest arcs touch are tried first, ties by number, so that a hub stays.
    """
    leaders = list(range(parties))
    for party in sorted(range(parties), key=lambda it: (sum(it in pair for pair in ends), it)):
        rest = [leader for leader in leaders if leader != party]
        if follower_cycle(parties, ends, rest) is None:
            leaders = rest
    return leaders


def leader_cycle(parties: int, ends: list[tuple[int, int]], leaders: list[int], leader: int) -> list[int]:
    """A shortest cycle that begins with the leader and holds no other.

    Where several are as short, each step goes to the least party from which the rest can still be
    closed.
    """
    cycle = cycle_through(ends, leader, {leader} | set(range(parties)) - set(leaders))
    assert cycle is not None
    return cycle


# ---- reading wishes

PROPOSED: Table = {"from": text, "to": text, "amount": number}
WISHES: Table = {"clear": one_of(1), "start": number, "delta": number, "parties": list_of(text), "arcs": list_of(object_of(PROPOSED))}


def examine_names(wishes: dict[str, Any], line: int) -> None:
    """A party's form and that it stands once, party by party; then the ends of each arc."""
    for place, name in enumerate(wishes["parties"]):
        if not NAME.fullmatch(name):
            refuse("BadName", line, name)
        if name in wishes["parties"][:place]:
            refuse("Duplicate", line, name)
    for arc in wishes["arcs"]:
        examine_known(arc["from"], line, wishes["parties"])
        examine_known(arc["to"], line, wishes["parties"])


def examine_limits(wishes: dict[str, Any], line: int) -> None:
    examine_range(wishes["start"], line, "start", 1, 1000)
    examine_range(wishes["delta"], line, "delta", 1, 100)
    examine_range(len(wishes["parties"]), line, "parties", 2, 32)
    examine_range(len(wishes["arcs"]), line, "arcs", 1, 128)
    for arc in wishes["arcs"]:
        examine_range(arc["amount"], line, "amount", 1, MOST_UNITS)


def wishes_of(line: bytes, count: int) -> dict[str, Any]:
    """The wishes of a line, or the first reason against it up to the start."""
    wishes = parsed(line, count)
    examine_fields(wishes, count, WISHES)
    examine_names(wishes, count)
    examine_limits(wishes, count)
    for arc, ends in enumerate(wishes["arcs"]):
        if ends["from"] == ends["to"]:
            refuse("SelfArc", arc)
    if wishes["start"] < wishes["delta"]:
        refuse("StartTooSoon", wishes["start"], wishes["delta"])
    return wishes


# ---- what is written


def plain(wishes: dict[str, Any], group: Group) -> str:
    """The group as a plain job without seeds: version 2, with hashkeys, the least bound, its
    parties and arcs in the order of the line."""
    names = wishes["parties"]
    arcs, leaders = [wishes["arcs"][arc] for arc in group.arcs], [{"party": names[leader]} for leader in group.leaders]
    job = {"swap": 2, "mode": KEYED, "start": wishes["start"], "delta": wishes["delta"], "bound": group.bound}
    return compact({**job, "parties": [{"name": names[party]} for party in group.parties], "arcs": arcs, "leaders": leaders})


def cleared(source: bytes) -> bytes:
    """The answer to a text of wishes. The last reasons against it: a group with too many leaders,
    the least such; a second line."""
    lines = lines_of(source)
    if not lines:
        refuse("NotJson", 1)
    wishes = wishes_of(lines[0][1], lines[0][0])
    names = wishes["parties"]
    ends = [(names.index(arc["from"]), names.index(arc["to"])) for arc in wishes["arcs"]]
    groups = groups_of(len(names), ends)
    for count, group in enumerate(groups):
        if len(group.leaders) > MOST_LEADERS:
            refuse("TooManyLeaders", count, len(group.leaders))
    if len(lines) > 1:
        refuse("BadLine", lines[1][0])
    told = ["left out %d closed %s" % (arc, ",".join(names[it] for it in closed)) for arc, closed in left_out(ends)]
    for count, group in enumerate(groups):
        cycles = ["cycle " + ",".join(names[it] for it in cycle) for cycle in group.cycles]
        told += ["group %d" % count, *cycles, plain(wishes, group)]
    return joined(["swap cleared 1", *told])
