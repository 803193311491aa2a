"""The strategies of the program: what each answers, by the deal, the party, its turn number and
what it knows.

Each answers an arc and a call, or None. 'Number t of a list' is counted round and round.
"""
from __future__ import annotations

from typing import Callable, Iterator, Optional, Sequence, Tuple, TypeVar, TYPE_CHECKING

from .ledger import CLAIM, PUBLISH, UNLOCK, Call

if TYPE_CHECKING:
    from .hashes import Hashkey
    from .rules import View

Member = TypeVar("Member")


def around(members: Sequence[Member], turn: int) -> Member:
    return members[turn % len(members)]


def silent(_view: View, _party: int, _turn: int) -> None:
    """Never a call."""
    return None


def greedy(view: View, party: int, turn: int) -> tuple[int, Call]:
    """A claim on entering arc number t."""
    return around(view.deal.entering[party], turn), Call(CLAIM)


def replayer(view: View, party: int, turn: int) -> Optional[tuple[int, Call]]:
    """An unlock on entering arc number t with hashkey number t of those of the accepted unlocks
    that it knows, by arc and entry."""
    known = list(known_hashkeys(view))
    return (around(view.deal.entering[party], turn), Call(UNLOCK, around(known, turn))) if known else None


def known_hashkeys(view: View) -> Iterator[Hashkey]:
    for ledger, end in zip(view.ledgers, view.ends):
        for opening in sorted(ledger.openings.values()):
            if opening.entry < end:
                yield opening.hashkey


def spoiler(view: View, party: int, turn: int) -> tuple[int, Call]:
    """A publish of the correct terms on leaving arc number t, but for a bound of 0, which is never
    correct."""
    arc = around(view.deal.leaving[party], turn)
    return arc, Call(PUBLISH, view.ledgers[arc].correct_terms._replace(bound=0))


# What a strategy answers to what a party knows, the party and its turn number
Strategy = Callable[["View", int, int], Optional[Tuple[int, Call]]]
STRATEGIES: dict[str, Strategy] = {"silent": silent, "greedy": greedy, "replayer": replayer, "spoiler": spoiler}
