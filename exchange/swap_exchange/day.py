"""A day of an exchange, step by step: cut wishes into groups, make swaps of them, pack these into
batches, settle the batches."""
from __future__ import annotations

import time
from collections import defaultdict
from collections.abc import Iterator, Mapping, Sequence
from dataclasses import dataclass
from hashlib import sha256

from swap_party.header import compact

from . import state as steps
from .limits import ASSETS, Edge
from .naming import inside
from .pool import Crew, whole
from .progress import Progress
from .rule import NOT_COVERED, Cut
from .settling import Settling
from .state import Key, State
from .wishes import MOST_UNITS, Account, Wish
from .work import Group, Prepared, RefusedError, Way

# The most accounts of a chain in a batch, and how long swaps that are made wait to be kept, in seconds
ACCOUNTS, KEPT_EACH = 64, 0.5
MOST_OF_ASSET = 9 * 10**18


@dataclass(frozen=True)
class Terms:
    """The times of every swap of the day, who doesn't turn up, and the way to settle."""

    start: int
    delta: int
    away: tuple[str, ...]
    way: str


def digest_of(*texts: object) -> str:
    return sha256(repr(texts).encode()).hexdigest()


def beginning(wishes: Sequence[Wish], told: Sequence[Account] | None) -> list[Account]:
    """What each account has when the day begins: what is told, or else what its wishes pay."""
    units: dict[Key, int] = {} if told is None else {(it.name, it.asset): it.units for it in told}
    for it in wishes:
        paid = it.units if told is None else 0
        units[it.payer, it.asset] = min(MOST_UNITS, units.get((it.payer, it.asset), 0) + paid)
        units.setdefault((it.payee, it.asset), 0)
    check_sums(units)
    return [Account(*key, had) for key, had in sorted(units.items())]


def check_sums(units: Mapping[Key, int]) -> None:
    """No asset has more units than a database can add up."""
    sums: defaultdict[str, int] = defaultdict(int)
    for (_, asset), had in sorted(units.items()):
        sums[asset] += had
        if sums[asset] > MOST_OF_ASSET:
            raise RefusedError(f"{asset} has more than {MOST_OF_ASSET} units in all accounts")


def uncovered(wishes: Sequence[Wish], accounts: Sequence[Account]) -> dict[int, str]:
    """The wishes that their payers can't cover beside those of more value."""
    left = {(it.name, it.asset): it.units for it in accounts}
    found: dict[int, str] = {}
    for number in sorted(range(len(wishes)), key=lambda it: (-wishes[it].value, it)):
        wish = wishes[number]
        if wish.units > left[wish.payer, wish.asset]:
            found[number] = NOT_COVERED
        else:
            left[wish.payer, wish.asset] -= wish.units
    return found


def names_of(wishes: Sequence[Wish], accounts: Sequence[Account]) -> dict[str, str]:
    """The name inside swaps of everybody who has a wish or an account."""
    return inside([*(it for wish in wishes for it in (wish.payer, wish.payee)), *(it.name for it in accounts)])


class Day:
    def __init__(self, state: State, crew: Crew, terms: Terms, way: Way, progress: Progress) -> None:
        self.state, self.crew, self.terms, self.way, self.progress = state, crew, terms, way, progress
        self.wishes: Sequence[Wish] = ()
        self.inside: dict[str, str] = {}

    def run(self, wishes: Sequence[Wish], accounts: Sequence[Account]) -> None:
        """Goes on from the step that is done."""
        self.make(wishes, accounts)
        Settling(self.state, self.crew, self.way.settle, wishes, self.inside, self.terms.away).run(self.progress)

    def make(self, wishes: Sequence[Wish], accounts: Sequence[Account]) -> None:
        """Goes on up to swaps that are made and packed."""
        self.wishes, self.inside = wishes, names_of(wishes, accounts)
        if self.state.done == steps.READ:
            self.cut(accounts)
        if self.state.done == steps.CUT:
            self.prepare()
        if self.state.done == steps.PREPARED:
            self.state.keep_batches(list(self.batches(self.groups())))

    def cut(self, accounts: Sequence[Account]) -> None:
        # (a day that is past this step, as most that go on, needs no solver)
        from .cut import Part, cut
        from .cutting import Cutting

        def thin(parts: list[Part]) -> list[list[list[int]]]:
            return Cutting(parts, self.way.fits, self.state.kept_of(), self.state.keep_told, self.progress).run(self.crew.workers.count)

        users = {name: place for place, name in enumerate(sorted({it for wish in self.wishes for it in (wish.payer, wish.payee)}))}
        assets = {name: place for place, name in enumerate(sorted({it.asset for it in self.wishes}))}
        dropped = uncovered(self.wishes, accounts)
        edges = {
            number: Edge(users[it.payer], users[it.payee], assets[it.asset], it.value)
            for number, it in enumerate(self.wishes)
            if number not in dropped
        }
        found = cut(edges, self.way.fits, thin)
        self.state.keep_cut(Cut(found.groups, {**found.dropped, **dropped}))

    def groups(self) -> dict[int, list[int]]:
        """The wishes of each swap."""
        found: defaultdict[int, list[int]] = defaultdict(list)
        for wish, swap in self.state.rows("select number, swap from wish where day = ? and swap is not null order by number"):
            found[swap].append(wish)
        return dict(found)

    def group(self, number: int, members: Sequence[int]) -> Group:
        wishes = [self.wishes[it] for it in members]
        ends = [(self.inside[it.payer], self.inside[it.payee]) for it in wishes]
        names = sorted({name for pair in ends for name in pair})
        arcs = [{"from": payer, "to": payee, "amount": it.units} for (payer, payee), it in zip(ends, wishes)]
        line = compact({"clear": 1, "start": self.terms.start, "delta": self.terms.delta, "parties": names, "arcs": arcs})
        away = {self.inside[it] for it in self.terms.away}
        return Group(number, line, tuple(it.asset for it in wishes), tuple(it for it in names if it in away))

    def prepare(self) -> None:
        made = {it for (it,) in self.state.rows("select number from swap where day = ? and refused is not null")}
        asked = [self.group(number, members) for number, members in self.groups().items() if number not in made]
        self.progress.begin("swaps made", len(made), len(made) + len(asked))
        told: list[Prepared] = []
        kept = time.monotonic()
        try:
            for it in self.crew.each(self.way.prepare, asked):
                told.append(it)
                self.progress.step()
                if time.monotonic() - kept >= KEPT_EACH:
                    with whole():
                        kept, done, told = time.monotonic(), told, []
                        self.state.keep_prepared(done)
        finally:
            self.state.keep_prepared(told)
        self.state.end_preparing()

    def batches(self, groups: dict[int, list[int]]) -> Iterator[list[int]]:
        """The swaps in their order, as many in a batch as one text of `many` takes."""
        batch: list[int] = []
        touched: defaultdict[str, set[str]] = defaultdict(set)
        for (swap,) in self.state.rows("select number from swap where day = ? and refused = '' order by number"):
            if batch and not self.has_room(len(batch), touched, groups[swap]):
                yield batch
                batch, touched = [], defaultdict(set)
            batch.append(swap)
            for wish in map(self.wishes.__getitem__, groups[swap]):
                touched[wish.asset] |= {wish.payer, wish.payee}
        if batch:
            yield batch

    def has_room(self, swaps: int, touched: dict[str, set[str]], members: Sequence[int]) -> bool:
        """Whether a batch takes one swap more."""
        both = {asset: set(names) for asset, names in touched.items()}
        for wish in map(self.wishes.__getitem__, members):
            both.setdefault(wish.asset, set()).update((wish.payer, wish.payee))
        return swaps < self.way.swaps_in_batch and len(both) <= ASSETS and max(map(len, both.values())) <= ACCOUNTS
