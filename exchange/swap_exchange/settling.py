"""Batches are settled side by side, in any order: each wish that is settled is covered by what its payer
had when the day began, beside all its other wishes, so that no batch waits for what another one pays."""
from __future__ import annotations

import time
from collections import defaultdict
from collections.abc import Iterable, Mapping, Sequence

from swap_party.many import Account as ChainAccount
from swap_party.many import Chain

from .pool import Crew, whole
from .progress import Progress
from .state import State
from .wishes import Wish
from .work import Batch, Placed, Settled, Task

# How long answers wait to be kept, in seconds
KEPT_EACH = 0.5


class Settling:
    def __init__(
        self, state: State, crew: Crew, task: Task[Batch, Settled], wishes: Sequence[Wish], inside: Mapping[str, str], away: Iterable[str]
    ) -> None:
        self.state, self.crew, self.task, self.wishes = state, crew, task, wishes
        self.inside, self.away = inside, {inside[it] for it in away}
        self.groups: defaultdict[int, list[int]] = defaultdict(list)
        self.swaps: defaultdict[int, list[int]] = defaultdict(list)
        for wish, swap, batch in state.rows(
            "select wish.number, swap.number, batch.number from wish join swap on wish.day = swap.day and wish.swap = swap.number"
            " join batch on swap.day = batch.day and swap.batch = batch.number where wish.day = ? and is_settled = 0 order by wish.number"
        ):
            if swap not in self.groups:
                self.swaps[batch].append(swap)
            self.groups[swap].append(wish)
        for swaps in self.swaps.values():
            swaps.sort()

    def run(self, progress: Progress) -> None:
        (whole_day,) = self.state.rows("select count(*) from batch where day = ?")[0]
        progress.begin("batches settled", whole_day - len(self.swaps), whole_day)
        told: list[Settled] = []
        kept = time.monotonic()
        try:
            for it in self.crew.each(self.task, map(self.begun, sorted(self.swaps))):
                told.append(it)
                progress.step()
                if time.monotonic() - kept >= KEPT_EACH:
                    with whole():
                        kept, done, told = time.monotonic(), told, []
                        self.state.keep_settled(done)
        finally:
            if told:
                self.state.keep_settled(told)
        self.state.account_for_every_unit()

    def begun(self, batch: int) -> Batch:
        """A batch whose accounts have what is paid from them in it. What else they have stays beside."""
        units: defaultdict[str, dict[str, int]] = defaultdict(dict)
        for it in (self.wishes[wish] for swap in self.swaps[batch] for wish in self.groups[swap]):
            payer, payee = self.inside[it.payer], self.inside[it.payee]
            units[it.asset][payer] = units[it.asset].get(payer, 0) + it.units
            units[it.asset].setdefault(payee, 0)
        assets = sorted(units)
        chains = tuple(Chain(tuple(ChainAccount(*it) for it in sorted(units[asset].items()))) for asset in assets)
        return Batch(batch, chains, tuple(self.placed(it, assets) for it in self.swaps[batch]))

    def placed(self, swap: int, assets: list[str]) -> Placed:
        (header,) = self.state.rows("select header from swap where day = ? and number = ?", swap)[0]
        wishes = [self.wishes[it] for it in self.groups[swap]]
        away = sorted(self.away & {self.inside[end] for it in wishes for end in (it.payer, it.payee)})
        return Placed(swap, str(header), tuple(assets.index(it.asset) for it in wishes), tuple(away))
