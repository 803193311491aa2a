"""What a swap may have, and a wish as the cut sees it: numbers alone."""
from __future__ import annotations

from collections.abc import Callable, Sequence
from dataclasses import dataclass

from .leaders import Ends, leaders

PARTIES, ARCS, LEADERS, ASSETS = 32, 128, 8, 32


@dataclass(frozen=True)
class Edge:
    """A wish for the cut. Users and assets are numbers."""

    payer: int
    payee: int
    asset: int
    value: int

    @property
    def ends(self) -> Ends:
        return self.payer, self.payee


Fits = Callable[[Sequence[Edge]], bool]


def fits(edges: Sequence[Edge]) -> bool:
    """Whether the program takes a strongly connected group of these."""
    return (
        len(edges) <= ARCS
        and len({end for it in edges for end in it.ends}) <= PARTIES
        and len({it.asset for it in edges}) <= ASSETS
        and len(leaders([it.ends for it in edges])) <= LEADERS
    )


# How many signatures a transcript has that `audit` takes: each is a text of 4,288 digits
SIGNATURES = 3000


def fits_audit(edges: Sequence[Edge]) -> bool:
    """Whether it fits, and the transcript of its wallets does too."""
    return fits(edges) and signatures([it.ends for it in edges]) <= SIGNATURES


def signatures(arcs: Sequence[Ends]) -> int:
    """How many signatures open all locks on all arcs, where every hashkey takes a shortest path."""
    payees = [payee for _, payee in arcs]
    return sum(1 + steps.get(payee, PARTIES) for steps in (steps_to(arcs, leader) for leader in leaders(arcs)) for payee in payees)


def steps_to(arcs: Sequence[Ends], end: int) -> dict[int, int]:
    """How many arcs lead from each party to this one, at least."""
    found, front, before = {end: 0}, [end], 0
    while front:
        before += 1
        front = sorted({payer for payer, payee in arcs if payee in front and payer not in found})
        found.update(dict.fromkeys(front, before))
    return found
