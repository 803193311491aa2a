"""Many swaps on shared chains: reading their lines, running them, and what is written.

A chain has one height and accounts with free units. Opening sets the amount of each arc aside from
its payer's account, for the arc's slot. A slot is a ledger as every other, but that it ticks with
its chain, and that it can be swept once its swap has ended: its balances then go to the accounts.
"""
from __future__ import annotations

import re
from typing import Any, Iterable, NoReturn, Optional, TYPE_CHECKING

from .ledger import ACCEPTED, CLOCK_FULL, MOST_HEIGHT, MOST_TICKS, TICK, TRANSFER, Call, Ledger
from .offer import JOB, MOST_EVENTS, MOST_NUMBER, NAME, event_of, examine_seeds, header_of, lines_of, refuse
from .play import World
from .texts import joined, report

if TYPE_CHECKING:
    from .ledger import Reply
    from .offer import Offer

MOST_CHAINS, MOST_SWAPS, MOST_UNITS = 32, 8, 10**15
SWEPT = ("Swept",)
NUMBER = re.compile("0|[1-9][0-9]{0,19}")


# ---- chains

class Slot(Ledger):
    """An arc's place on a chain. Its entries are the chain's ticks and the calls on it, but for
    those answered `Swept`."""

    is_swept = False

    def make(self, sender: Optional[int], call: Call) -> Reply:
        """On a swept slot a transfer is `Swept`, and where nothing was published every call is; no
        such call leaves an entry."""
        if self.is_swept and call.kind != TICK and (call.kind == TRANSFER or self.publish_entry is None):
            return SWEPT
        return super().make(sender, call)


class Chain:
    """A height, accounts with their free units by name, and the slots that stand on it."""

    def __init__(self, free: Iterable[tuple[str, int]]) -> None:
        self.free, self.ticks, self.height = dict(free), 0, 0
        self.slots: list[Slot] = []

    def tick(self, heights: int) -> Reply:
        if self.ticks == MOST_TICKS or self.height + heights > MOST_HEIGHT:
            return CLOCK_FULL
        self.ticks, self.height = self.ticks + 1, self.height + heights
        for slot in self.slots:
            slot.make(None, Call(TICK, heights))
        return ACCEPTED

    def pay(self, payer: str, to: str, units: int) -> Reply:
        """A payment moves free units; one to oneself moves nothing."""
        if self.free[payer] < units:
            return ("NoFunds", self.free[payer])
        self.free[payer] -= units
        self.free[to] += units
        return ACCEPTED


class Many:
    """The swaps' worlds on their chains. `places` are the chains of each swap's arcs."""

    def __init__(self, chains: list[Chain], offers: list[Offer], places: list[list[int]]) -> None:
        self.chains, self.offers, self.places = chains, offers, places
        self.slots = [[Slot(offer.deal, arc) for arc in offer.deal.arcs] for offer in offers]
        self.worlds = [World(offer, slots) for offer, slots in zip(offers, self.slots)]
        for world, slots, places_of in zip(self.worlds, self.slots, places):
            for slot, chain in zip(slots, places_of):
                self.chains[chain].slots.append(slot)
                self.chains[chain].free[world.deal.names[slot.party]] -= world.deal.amounts[slot.arc]

    def step(self, event: tuple[Any, ...]) -> None:
        """An event: of a chain, of an account, of a slot, or of one swap."""
        kind, *stated = event
        if kind == "tick":
            self.chains[stated[0]].tick(stated[1])
        elif kind == "pay":
            self.chains[stated[0]].pay(*stated[1:])
        elif kind == "sweep":
            self.sweep(*stated)
        else:
            self.worlds[stated[0]].step(stated[1])

    def sweep(self, swap: int, arc: int, is_final: bool = False) -> Reply:
        """The first reply that applies; where none does, the slot's balances go to its parties'
        accounts. The sweeps of a fair finish pass over `Unpublished`."""
        world = self.worlds[swap]
        slot, chain = self.slots[swap][arc], self.chains[self.places[swap][arc]]
        if chain.height <= world.deal.horizon:
            return ("NotEnded", world.deal.horizon + 1)
        if slot.is_swept:
            return SWEPT
        if slot.publish_entry is not None and slot.settle_entry is None:
            return ("StillHeld", slot.held)
        if slot.publish_entry is None and not is_final:
            return ("Unpublished",)
        slot.is_swept = True
        for party, units in slot.balances.items():
            chain.free[world.deal.names[party]] += units
        return ACCEPTED

    def finish(self) -> None:
        """Rounds until every chain is above every horizon: the swaps in order, each with its
        parties' turns, then a tick of every chain; then every slot is swept, in order."""
        horizon = max(offer.deal.horizon for offer in self.offers)
        while any(chain.height <= horizon for chain in self.chains):
            for world in self.worlds:
                for party in world.deal.parties:
                    world.turn(party)
            for chain in self.chains:
                chain.tick(1)
        for swap, world in enumerate(self.worlds):
            for arc in world.deal.arcs:
                self.sweep(swap, arc, True)

    def text(self) -> tuple[bytes, int]:
        """The swaps' reports, the chains with their accounts, and how many findings all reports
        have."""
        out, count = b"", 0
        for swap, world in enumerate(self.worlds):
            told, found = report(world.book(), world.offer.conforming)
            out, count = out + joined(["swap %d" % swap]) + told, count + found
        for number, chain in enumerate(self.chains):
            accounts = ["%s %d" % account for account in chain.free.items()]
            out += joined([" ".join(["chain %d height %d" % (number, chain.height), *accounts])])
        return out + joined(["findings %d" % count]), count


# ---- lines: those that aren't JSON have one spelling

def bad(line: int) -> NoReturn:
    refuse("BadLine", line)


def number_in(word: str, line: int, most: int, least: int = 0) -> int:
    """A number without leading zeros, in its range."""
    if not NUMBER.fullmatch(word) or not least <= int(word) <= most:
        bad(line)
    return int(word)


def words_of(text: bytes) -> list[str]:
    """The words of a line, parted by single spaces, a character for each byte."""
    return text.decode("latin-1").split(" ")


class Reader:
    """Goes from one line that isn't blank to the next."""

    def __init__(self, text: bytes) -> None:
        self.left = lines_of(text)[::-1]

    def next(self) -> tuple[int, bytes]:
        if not self.left:
            refuse("CutShort")
        return self.left.pop()


def chain_of(words: list[str], line: int) -> Chain:
    """A chain: 2 to 64 accounts, each a name of its own and its units."""
    names, units = words[1::2], words[2::2]
    if len(names) != len(units) or not 2 <= len(names) <= 64 or len(set(names)) < len(names) or not all(map(NAME.fullmatch, names)):
        bad(line)
    return Chain(zip(names, [number_in(it, line, MOST_UNITS) for it in units]))


def swap_of(words: list[str], line: int, chains: list[Chain], reader: Reader) -> tuple[Offer, list[int]]:
    """A swap: a chain per arc, and then its header line, without `finish`; what is against the
    header comes first."""
    places = [number_in(it, line, len(chains) - 1) for it in words[1:]]
    number, text = reader.next()
    offer = header_of(text, number, JOB)
    examine_seeds(offer, True)
    if "finish" in offer.header:
        bad(number)
    if len(places) != len(offer.deal.arcs):
        bad(line)
    return offer, places


def head_of(reader: Reader) -> tuple[list[Chain], list[tuple[Offer, list[int]]], bool]:
    """The lines up to `finish`: the chains, the swaps with their places, and whether the finish is
    fair."""
    line, text = reader.next()
    if text != b"swap many 1":
        bad(line)
    chains: list[Chain] = []
    swaps: list[tuple[Offer, list[int]]] = []
    while True:
        line, text = reader.next()
        words = words_of(text)
        if words[0] == "chain" and not swaps and len(chains) < MOST_CHAINS:
            chains.append(chain_of(words, line))
        elif words[0] == "swap" and len(swaps) < MOST_SWAPS:
            swaps.append(swap_of(words, line, chains, reader))
        elif words[0] == "finish" and swaps and words[1:] in (["stop"], ["fair"]):
            return chains, swaps, words[1] == "fair"
        else:
            bad(line)


def event_in(text: bytes, line: int, chains: list[Chain], swaps: list[tuple[Offer, list[int]]]) -> tuple[Any, ...]:
    """An event's line: `tick C K`, `pay C NAME NAME UNITS`, `sweep S A`, or a swap's number and an
    event that is neither a tick nor a crash."""
    words = words_of(text)
    if words[0] == "tick" and len(words) == 3:
        return "tick", number_in(words[1], line, len(chains) - 1), number_in(words[2], line, MOST_NUMBER, 1)
    if words[0] == "pay" and len(words) == 5:
        chain = number_in(words[1], line, len(chains) - 1)
        if not {words[2], words[3]} <= set(chains[chain].free):
            bad(line)
        return "pay", chain, words[2], words[3], number_in(words[4], line, MOST_UNITS)
    if words[0] == "sweep" and len(words) == 3:
        swap = number_in(words[1], line, len(swaps) - 1)
        return "sweep", swap, number_in(words[2], line, len(swaps[swap][0].deal.arcs) - 1)
    stated = text[len(words[0]) + 1 :]
    if not stated:
        bad(line)
    swap = number_in(words[0], line, len(swaps) - 1)
    event = event_of(stated, line, swaps[swap][0], True)
    if "tick" in event or "crash" in event:
        bad(line)
    return "in", swap, event


def examine_accounts(chains: list[Chain], swaps: list[tuple[Offer, list[int]]]) -> None:
    """Where no line has a fault: each arc's parties have accounts on its chain, and each account
    has the units of the arcs that it pays for."""
    for swap, (offer, places) in enumerate(swaps):
        for arc, chain in enumerate(places):
            if any(offer.deal.names[party] not in chains[chain].free for party in offer.deal.ends[arc]):
                refuse("NoAccount", swap, arc)
    for number, opened in enumerate(chains):
        for name, have in opened.free.items():
            arcs = [(offer.deal, arc) for offer, places in swaps for arc, at in enumerate(places) if at == number]
            wanted = sum(deal.amounts[arc] for deal, arc in arcs if deal.names[deal.ends[arc][0]] == name)
            if have < wanted:
                refuse("Overdrawn", number, name, have, wanted)


def many(text: bytes, _options: dict[Any, Any]) -> tuple[bytes, int]:
    """`many` runs swaps on shared chains."""
    reader = Reader(text)
    events: list[tuple[Any, ...]] = []
    chains, swaps, is_fair = head_of(reader)
    while reader.left:
        line, stated = reader.next()
        if len(events) == MOST_EVENTS:
            refuse("OverLimit", line, "events", MOST_EVENTS + 1)
        events.append(event_in(stated, line, chains, swaps))
    examine_accounts(chains, swaps)
    world = Many(chains, [offer for offer, _ in swaps], [places for _, places in swaps])
    for event in events:
        world.step(event)
    if is_fair:
        world.finish()
    return world.text()
