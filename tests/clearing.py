"""Tests of what is cleared of wishes, against the definitions, over all cycles of small digraphs;
each group that comes out is made and swapped."""
from __future__ import annotations

import itertools
import json
import random
import sys
from functools import partial
from typing import Any, Collection, Iterator, List, Tuple

sys.dont_write_bytecode = True
from making import done
from program import Program, Tests, must
from races import raced_ends
from texts import asked, is_wanted

# From whom to whom; and the parties of a group with the numbers of its arcs
Arc = Tuple[int, int]
Group = Tuple[List[int], List[int]]


class Wishes:
    """Proposed transfers between parties by their numbers, with the names and amounts of the
    line."""

    def __init__(self, count: int, arcs: list[Arc], start: int = 10, delta: int = 10) -> None:
        self.names = [f"p{place}" for place in range(count)]
        self.arcs, self.start, self.delta = arcs, start, delta
        self.reach = [self.reached(place) for place in range(count)]

    def line(self) -> str:
        arcs = [{"from": self.names[u], "to": self.names[v], "amount": 1 + place} for place, (u, v) in enumerate(self.arcs)]
        return json.dumps({"clear": 1, "start": self.start, "delta": self.delta, "parties": self.names, "arcs": arcs}) + "\n"

    def reached(self, first: int) -> set[int]:
        found, new = {first}, [first]
        while new:
            here = new.pop()
            more = {v for u, v in self.arcs if u == here} - found
            found |= more
            new += more
        return found

    def named(self, places: list[int]) -> str:
        return ",".join(self.names[place] for place in places)

    def groups(self) -> Iterator[Group]:
        """The parties of each group that has arcs, and the numbers of these."""
        for least in range(len(self.names)):
            parties = [v for v in range(len(self.names)) if v in self.reach[least] and least in self.reach[v]]
            arcs = [a for a, (u, v) in enumerate(self.arcs) if u in parties and v in parties]
            if parties[0] == least and arcs:
                yield parties, arcs


def breaks_all(arcs: list[Arc], leaders: Collection[int]) -> bool:
    """Whether no cycle lies beside the leaders: what nothing enters goes, until nothing is left."""
    left = [(u, v) for u, v in arcs if u not in leaders and v not in leaders]
    while left:
        rest = [(u, v) for u, v in left if any(u == w for _, w in left)]
        if rest == left:
            return False
        left = rest
    return True


def leaders_of(parties: list[int], arcs: list[Arc]) -> list[int]:
    """What remains of all parties when they are dropped, those first that the fewest arcs touch,
    wherever the rest breaks all cycles."""
    leaders = set(parties)
    for party in sorted(parties, key=lambda p: (sum(p in arc for arc in arcs), p)):
        if breaks_all(arcs, leaders - {party}):
            leaders.remove(party)
    return sorted(leaders)


def round_trip(arcs: list[Arc], leader: int, leaders: list[int]) -> int:
    """The length of a shortest cycle through the leader and no other."""
    others, found, count = set(leaders) - {leader}, {leader}, 0
    while True:
        found, count = {v for u, v in arcs if u in found and v not in others}, count + 1
        if leader in found:
            return count


def seeded(line: str) -> dict[str, Any]:
    """The plain job that a group's line is with a seed per party, and a fair finish."""
    job: dict[str, Any] = json.loads(line)
    for place, party in enumerate(job["parties"]):
        party["seed"] = f"{place:064x}"
    return job | {"finish": "fair"}


def is_swapped(program: Program, line: str) -> None:
    """The group is made, accepted, run and raced, and each party has its deal; no smaller bound
    would do."""
    plain = seeded(line)
    job = done(program, ["make"], json.dumps(plain))
    must(done(program, ["check"], job).startswith(f"swap accepted\nneed {plain['bound']}\n"), "another bound is needed")
    report = done(program, ["run"], job)
    must(report.count(" conforming: Deal\n") == len(plain["parties"]) and report.endswith("\nfindings 0\n"), f"not every deal:\n{report}")
    is_wanted(raced_ends(program, job), " ".join(len(plain["parties"]) * ["Deal"]))


def is_cycle(wishes: Wishes, arcs: list[Arc], cycle: str, leader: int, leaders: list[int]) -> None:
    """The cycle is a shortest one of distinct parties that begins with the leader and holds no
    other."""
    places = [wishes.names.index(name) for name in cycle.split(",")]
    must(places[0] == leader and len(set(places)) == len(places), f"the cycle {cycle}")
    must(all(step in arcs for step in zip(places, places[1:] + places[:1])), f"no arc along the cycle {cycle}")
    must(len(places) == round_trip(arcs, leader, leaders) and set(places) & set(leaders) == {leader}, f"not a shortest cycle: {cycle}")


def is_group(program: Program, wishes: Wishes, number: int, group: Group, lines: list[str], swapped: bool) -> None:
    parties, numbers = group
    arcs = [wishes.arcs[a] for a in numbers]
    leaders = leaders_of(parties, arcs)
    must(lines.pop(0) == f"group {number}", f"group {number}")
    for leader in leaders:
        is_cycle(wishes, arcs, lines.pop(0).removeprefix("cycle "), leader, leaders)
    line = lines.pop(0)
    said = json.loads(line)
    wanted = {
        "arcs": [{"amount": 1 + a, "from": wishes.names[wishes.arcs[a][0]], "to": wishes.names[wishes.arcs[a][1]]} for a in numbers],
        "bound": said["bound"], "delta": wishes.delta, "leaders": [{"party": wishes.names[v]} for v in leaders], "mode": "hashkeys",
        "parties": [{"name": wishes.names[v]} for v in parties], "start": wishes.start, "swap": 2,
    }  # fmt: skip
    is_wanted(line, json.dumps(wanted, separators=(",", ":")))
    if swapped:
        is_swapped(program, line)


def is_cleared(wishes: Wishes, swapped: bool, program: Program) -> None:
    """What is written of the wishes is what the definitions say of them."""
    groups = list(wishes.groups())
    counts = [len(leaders_of(parties, [wishes.arcs[a] for a in numbers])) for parties, numbers in groups]
    over = [(number, count) for number, count in enumerate(counts) if count > 8]
    if over:
        is_wanted(asked(program, ["clear"], wishes.line()), "swap: refused: TooManyLeaders %d %d\n" % over[0])
        return
    lines = done(program, ["clear"], wishes.line()).splitlines()
    must(lines.pop(0) == "swap cleared 1", "the first line")
    for number, (u, v) in enumerate(wishes.arcs):
        if u not in wishes.reach[v]:
            must(lines.pop(0) == f"left out {number} closed {wishes.named(sorted(wishes.reach[v]))}", f"arc {number} is left out")
    for number, group in enumerate(groups):
        is_group(program, wishes, number, group, lines, swapped)
    must(not lines, f"more lines: {lines}")


# ---- wishes


def complete(count: int, first: int = 0) -> list[Arc]:
    return [(first + u, first + v) for u in range(count) for v in range(count) if u != v]


def hub(count: int, at: int = 0) -> list[Arc]:
    return [arc for v in range(count) if v != at for arc in ((at, v), (v, at))]


def drawn(number: int) -> Wishes:
    """Wishes drawn from a number: up to 12 parties, and as many arcs as make groups of several
    sizes. Two rounds of a race fit in delta."""
    draw = random.Random(number)
    count = draw.randint(2, 12)
    ends = [draw.sample(range(count), 2) for _ in range(draw.randint(1, 2 * count))]
    arcs = [(payer, to) for payer, to in ends]
    return Wishes(count, arcs, draw.randint(10, 1000), draw.randint(2, 10))


def all_small() -> Iterator[Wishes]:
    """All digraphs of three parties, each with the arcs in their order."""
    every = complete(3)
    for size in range(1, len(every) + 1):
        for arcs in itertools.combinations(every, size):
            yield Wishes(3, list(arcs))


def small_are_cleared(program: Program) -> None:
    for wishes in all_small():
        is_cleared(wishes, False, program)


def drawn_are_cleared(first: int, program: Program) -> None:
    for number in range(first, first + 25):
        is_cleared(drawn(number), number % 5 == 0, program)


def lines_of(*wishes: Wishes) -> list[str]:
    return [json.dumps(json.loads(it.line()) | {"start": 1, "delta": 2}) + "\n" for it in wishes]


def is_refused(line: str, reason: str, program: Program) -> None:
    is_wanted(asked(program, ["clear"], line), f"swap: refused: {reason}\n")


NAMED = {
    "a hub that stands first": Wishes(10, hub(10)),
    "a hub that stands last": Wishes(10, hub(10, 9)),
    "a complete digraph of nine parties": Wishes(9, complete(9)),
    "a complete digraph of ten parties": Wishes(10, complete(10)),
    "a pair, and then ten parties in a complete digraph": Wishes(12, [(0, 1), (1, 0), *complete(10, 2)]),
    "a ring of 32 parties with each arc four times": Wishes(32, [(u, (u + 1) % 32) for u in range(32) for _ in range(4)]),
    "16 pairs": Wishes(32, [arc for u in range(16) for arc in ((u, 31 - u), (31 - u, u))]),
    "a chain of 32 parties": Wishes(32, [(u, u + 1) for u in range(31)]),
}
TOO_SOON = lines_of(Wishes(10, complete(10)))[0]


def tests() -> Tests:
    for name, wishes in NAMED.items():
        yield f"{name}, cleared and swapped", partial(is_cleared, wishes, True)
    yield "all digraphs of three parties are cleared", small_are_cleared
    for first in range(0, 200, 25):
        yield f"wishes drawn from the numbers from {first}", partial(drawn_are_cleared, first)
    yield "the start comes before the leaders", partial(is_refused, TOO_SOON, "StartTooSoon 1 2")
    yield "the leaders come before a second line", partial(is_refused, Wishes(10, complete(10)).line() + "x\n", "TooManyLeaders 0 9")
    yield "33 parties", partial(is_refused, Wishes(33, [(0, 1)]).line(), "OverLimit 1 parties 33")
    yield "129 arcs", partial(is_refused, Wishes(2, 129 * [(0, 1)]).line(), "OverLimit 1 arcs 129")
    yield "128 arcs", partial(is_cleared, Wishes(2, 64 * [(0, 1), (1, 0)]), True)
