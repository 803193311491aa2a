"""Settling with seeds that are drawn here, by `swap many`."""
from __future__ import annotations

from collections.abc import Sequence
from functools import partial
from hashlib import sha256

from swap_party import Many, Reports
from swap_party.header import compact, json_object
from swap_party.many import Account, Swap
from swap_party.report import Report

from .limits import fits
from .work import HELD, PAID, Batch, FaultError, Group, Placed, Prepared, Programs, RefusedError, Settled, Way, ask_swap, cleared, end_of, ended


def simulated(seed: bytes) -> Way:
    """The way of settling that `--simulate` takes; the seed is what it draws the users' from."""
    return Way(fits, 8, partial(prepare, seed), settle)


def seed_of(day: bytes, group: int, party: str) -> bytes:
    """The seed that the simulator draws for a party in a swap."""
    return sha256(b"%s swap %d party %s" % (day, group, party.encode())).digest()


def prepare(seed: bytes, programs: Programs, group: Group) -> Prepared:
    """Makes a job of a group by `clear` and `make`."""
    try:
        plain = cleared(programs, group)
        seeds = {party: seed_of(seed, group.number, party) for party in plain.parties}
        actors: dict[str, object] = {it: {"strategy": "silent"} for it in group.away}
        header = json_object(ask_swap(programs, ["make"], plain.with_seeds(seeds, actors)))
        del header["finish"]
    except RefusedError as why:
        return Prepared(group.number, 0, "", f"refused: {why}")
    return Prepared(group.number, len(plain.leaders), compact(header))


def settle(programs: Programs, batch: Batch) -> Settled:
    """Runs a batch by `many`, and accounts for every unit of its chains."""
    text = str(Many(batch.chains, tuple(Swap(it.chains, it.header) for it in batch.swaps)))
    try:
        reports = Reports.parse(ask_swap(programs, ["many"], text))
    except RefusedError as why:
        raise FaultError(f"batch {batch.number} was refused: {why}") from None
    if [it.accounts for it in reports.chains] != expected(batch, reports.reports):
        raise FaultError(f"the accounts after batch {batch.number} aren't those that its reports give")
    return Settled(batch.number, tuple(ended(it, str(it)) for it in reports.reports))


def expected(batch: Batch, reports: Sequence[Report]) -> list[tuple[Account, ...]]:
    """The accounts before a batch, with what the reports say was paid."""
    units = [{it.name: it.units for it in chain.accounts} for chain in batch.chains]
    for swap, report in zip(batch.swaps, reports):
        move(units, swap, report)
    return [tuple(Account(*it) for it in chain.items()) for chain in units]


def move(units: list[dict[str, int]], swap: Placed, report: Report) -> None:
    for chain, ledger in zip(swap.chains, report.ledgers):
        end = end_of(ledger)
        units[chain][ledger.party] -= ledger.amount * (end in (PAID, HELD))
        units[chain][ledger.counterparty] += ledger.amount * (end == PAID)
