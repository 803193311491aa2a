"""A contract and its ledger. docs/DEFINITIONS.md, 'A contract and a ledger'."""
from __future__ import annotations

from typing import Any, NamedTuple, Optional, TYPE_CHECKING, Tuple, Union

from .hashes import are_signed, hashlock_of

if TYPE_CHECKING:
    from .deal import Deal
    from .hashes import Hashkey

MOST_ENTRIES = 32
MOST_TICKS = 20_000
MOST_HEIGHT = 1_000_000
PUBLISH, UNLOCK, CLAIM, REFUND, TRANSFER, TICK = "publish", "unlock", "claim", "refund", "transfer", "tick"

Reply = Tuple[Union[int, str], ...]
ACCEPTED: Reply = ("accepted",)
SENDER_FULL: Reply = ("SenderFull",)
CLOCK_FULL: Reply = ("ClockFull",)


class Terms(NamedTuple):
    """What a contract says. Its times come from its own terms, so wrong terms make a contract of
    their own."""

    start: int
    delta: int
    bound: int
    timelock: int
    amount: int
    locks: tuple[bytes, ...]


class Call(NamedTuple):
    """A call, or a tick: its kind, and what it states: terms, a hashkey, a payment `(to, units)` or
    a number of heights."""

    kind: str
    stated: Any = None


class Entry(NamedTuple):
    height: int
    sender: Optional[int]
    call: Call
    reply: Reply


class Opening(NamedTuple):
    """That a lock was opened: at which entry, at which height, by which hashkey."""

    entry: int
    height: int
    hashkey: Hashkey


def last_accepted(deal: Deal, terms: Terms, hashkey: Hashkey) -> int:
    """The last height at which a contract accepts a hashkey: `deadline k` for a path of `k` arcs,
    or the timelock."""
    if not deal.is_keyed:
        return terms.timelock
    return terms.start + (terms.bound + len(hashkey.path)) * terms.delta


def expiry(deal: Deal, arc: int, terms: Terms, lock: int) -> int:
    """The height above which a closed lock lets a contract be refunded."""
    if not deal.is_keyed:
        return terms.timelock
    is_own = deal.version == 2 and deal.ends[arc][1] == deal.leaders[lock]
    return terms.start + ((1 if is_own else 2) * terms.bound + 1) * terms.delta


def is_path(deal: Deal, path: tuple[int, ...]) -> bool:
    """A path is a nonempty list of distinct parties, each with an arc to the next."""
    return bool(path) and len(set(path)) == len(path) and all(pair in deal.ends for pair in zip(path, path[1:]))


def what_is_wrong(deal: Deal, arc: int, hashlock: bytes, hashkey: Hashkey) -> Optional[Reply]:
    """The first thing that is wrong with a hashkey on an arc under a hashlock, or None where it is
    valid."""
    if hashlock_of(hashkey.secret) != hashlock:
        return ("WrongSecret",)
    if not deal.is_keyed:
        return ("WrongPath",) if hashkey.path or hashkey.signatures else None
    path = hashkey.path
    if len(path) != len(hashkey.signatures) or not is_path(deal, path):
        return ("WrongPath",)
    if path[0] != deal.ends[arc][1] or path[-1] != deal.leaders[hashkey.lock]:
        return ("WrongPath",)
    if not are_signed(deal.id, deal.keys, hashkey):
        return ("WrongSignature",)
    return None


class Ledger:
    """A history: the list of a ledger's entries, oldest first. What is asked of it is asked of its
    first `end` entries.

    The correct terms of its arc are those of the deal.
    """

    def __init__(self, deal: Deal, arc: int) -> None:
        self.deal, self.arc = deal, arc
        self.party, self.counterparty = deal.ends[arc]
        self.correct_terms = Terms(deal.start, deal.delta, deal.bound, deal.timelocks[arc], deal.amounts[arc], tuple(deal.hashlocks))
        self.entries: list[Entry] = []
        self.calls: dict[Optional[int], list[int]] = {self.party: [], self.counterparty: []}
        self.ticks, self.height = 0, 0
        self.publish_entry: Optional[int] = None
        self.settle_entry: Optional[int] = None
        self.openings: dict[int, Opening] = {}
        self.balances = {self.party: deal.amounts[arc], self.counterparty: 0}
        self.held = 0

    # ---- of the first entries
    def height_at(self, end: int) -> int:
        """The height over the first entries is the sum of their ticks."""
        return self.entries[end - 1].height if end else 0

    def published(self, end: int) -> Optional[Entry]:
        """The entry of the accepted publish, or None."""
        at = self.publish_entry
        return self.entries[at] if at is not None and at < end else None

    def terms(self, end: int) -> Any:
        """The terms that were published, or None."""
        entry = self.published(end)
        return entry.call.stated if entry else None

    def opened(self, lock: int, end: int) -> Optional[Opening]:
        """The opening of a lock, or None."""
        opening = self.openings.get(lock)
        return opening if opening and opening.entry < end else None

    def settled(self, end: int) -> Optional[Entry]:
        """The entry of the accepted claim or refund, or None."""
        at = self.settle_entry
        return self.entries[at] if at is not None and at < end else None

    def closed_locks(self, end: int) -> list[int]:
        """The locks that aren't opened, the least first."""
        return [lock for lock in self.deal.locks if not self.opened(lock, end)]

    def least_expiry(self, end: int) -> int:
        """The least expiry of a lock that isn't opened, under the published terms."""
        terms = self.terms(end)
        return min(expiry(self.deal, self.arc, terms, lock) for lock in self.closed_locks(end))

    # ---- the table of replies: the first row that applies
    def reply(self, sender: Optional[int], call: Call) -> Reply:
        """The reply of the ledger to a call of a party or a tick of the clock, over all of its
        entries."""
        if call.kind == TICK:
            is_full = self.ticks == MOST_TICKS or self.height + call.stated > MOST_HEIGHT
            return CLOCK_FULL if is_full else ACCEPTED
        if len(self.calls[sender]) == MOST_ENTRIES:
            return SENDER_FULL
        reply: Reply = getattr(self, "reply_to_" + call.kind)(sender, call)
        return reply

    def reply_to_publish(self, sender: int, call: Call) -> Reply:
        if sender != self.party:
            return ("NotParty",)
        if self.publish_entry is not None:
            return ("AlreadyPublished",)
        return self.reply_to_payment(sender, call.stated.amount)

    def reply_to_transfer(self, sender: int, call: Call) -> Reply:
        return self.reply_to_payment(sender, call.stated[1])

    def reply_to_payment(self, sender: int, units: int) -> Reply:
        if units > self.balances[sender]:
            return ("NoFunds", self.balances[sender])
        return ACCEPTED

    def reply_to_unlock(self, sender: int, call: Call) -> Reply:
        hashkey, end = call.stated, len(self.entries)
        if why := self.not_standing(sender, self.counterparty, "NotCounterparty"):
            return why
        if hashkey.lock in self.openings:
            return ("AlreadyUnlocked",)
        terms = self.terms(end)
        if why := what_is_wrong(self.deal, self.arc, terms.locks[hashkey.lock], hashkey):
            return why
        last = last_accepted(self.deal, terms, hashkey)
        if self.height > last:
            return ("TooLate", last)
        return ACCEPTED

    def reply_to_claim(self, sender: int, _call: Call) -> Reply:
        if why := self.not_standing(sender, self.counterparty, "NotCounterparty"):
            return why
        closed = self.closed_locks(len(self.entries))
        if closed:
            return ("StillLocked", closed[0])
        return ACCEPTED

    def reply_to_refund(self, sender: int, _call: Call) -> Reply:
        if why := self.not_standing(sender, self.party, "NotParty"):
            return why
        end = len(self.entries)
        if not self.closed_locks(end):
            return ("NothingLocked",)
        first = self.least_expiry(end) + 1
        if self.height < first:
            return ("NotExpired", first)
        return ACCEPTED

    def not_standing(self, sender: int, allowed: int, otherwise: str) -> Optional[Reply]:
        """The rows that an unlock, a claim and a refund begin with."""
        if self.publish_entry is None:
            return ("NoContract",)
        if self.settle_entry is not None:
            return ("Settled",)
        return None if sender == allowed else (otherwise,)

    # ---- growing
    def make(self, sender: Optional[int], call: Call) -> Reply:
        """Makes a call or a tick, and answers the reply. A sender or a clock that is full leaves no
        entry."""
        reply = self.reply(sender, call)
        if reply not in (SENDER_FULL, CLOCK_FULL):
            self.push(sender, call, reply)
        return reply

    def push(self, sender: Optional[int], call: Call, reply: Reply) -> None:
        at = len(self.entries)
        if call.kind == TICK:
            self.ticks += 1
            self.height += call.stated
        else:
            self.calls[sender].append(at)
        self.entries.append(Entry(self.height, sender, call, reply))
        if reply == ACCEPTED and sender is not None:
            self.accept(at, sender, call)

    def accept(self, at: int, sender: int, call: Call) -> None:
        """What an accepted call does: units move from accounts to the contract and back, and locks
        open."""
        if call.kind == PUBLISH:
            self.publish_entry, self.held = at, call.stated.amount
            self.balances[self.party] -= self.held
        elif call.kind == UNLOCK:
            self.openings[call.stated.lock] = Opening(at, self.height, call.stated)
        elif call.kind == TRANSFER:
            to, units = call.stated
            self.balances[sender] -= units
            self.balances[to] += units
        else:
            self.settle_entry = at
            self.balances[sender] += self.held
            self.held = 0
