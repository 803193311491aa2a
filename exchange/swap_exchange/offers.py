"""Random offers: the line that a number gives, which `make` takes or refuses."""
from __future__ import annotations

import random
from hashlib import sha256

from swap_party.header import compact

from .leaders import Ends, leaders

STRATEGIES = ("silent", "greedy", "replayer", "spoiler")


def offer(number: int) -> str:
    """A plain offer with seeds: now and then with an arc too few, a leader too few, a bound that is
    too small or an amount that is too large, and with parties that don't conform."""
    draw = random.Random(number)
    count = draw.choice((2, 3, 3, 4, 5, 6, 8, 12))
    arcs = digraph(draw, count)
    chosen = leaders(arcs) if draw.random() < 0.9 else draw.sample(range(count), 1)
    delta = draw.choice((1, 5, 10))
    return compact(
        {
            "swap": 2,
            "mode": "hashkeys",
            "start": delta + draw.choice((0, 1, 10)),
            "delta": delta,
            "bound": max(1, count - draw.choice((1, 1, 1, 2))),
            "parties": [party(draw, number, it) for it in range(count)],
            "arcs": [{"from": f"p{a}", "to": f"p{b}", "amount": draw.choice((1, 5, 10**12, 10**12 + (draw.random() < 0.02)))} for a, b in arcs],
            "leaders": [{"party": f"p{it}"} for it in chosen[:8] or [0]],
            "finish": "fair",
        }
    )


def digraph(draw: random.Random, count: int) -> list[Ends]:
    """A ring of all parties in any order, and some arcs more; sometimes the ring lacks an arc."""
    order = draw.sample(range(count), count)
    arcs = [(order[at], order[(at + 1) % count]) for at in range(count)]
    for _ in range(draw.choice((0, 1, 2, count))):
        payer, payee = draw.sample(range(count), 2)
        arcs.append((payer, payee))
    return arcs if draw.random() < 0.95 else arcs[1:] + arcs[1:2]


def party(draw: random.Random, number: int, place: int) -> dict[str, object]:
    fields: dict[str, object] = {"name": f"p{place}", "seed": sha256(b"offer %d party %d" % (number, place)).hexdigest()}
    if draw.random() < 0.1:
        fields["actor"] = {"strategy": draw.choice(STRATEGIES)}
    return fields
