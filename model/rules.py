"""The rules of the swap over a book: what is due, conduct, lateness, forgery, outcomes and
findings.

docs/DEFINITIONS.md, 'A book'. A view is a book, or what a party knows of it: of each ledger the
first entries.
"""
from __future__ import annotations

from typing import Any, Iterator, Optional, Sequence, TYPE_CHECKING

from .hashes import Hashkey, extended, hashlock_of, secret_of
from .ledger import CLAIM, PUBLISH, REFUND, TRANSFER, UNLOCK, Call, expiry, last_accepted, what_is_wrong

if TYPE_CHECKING:
    from .deal import Deal
    from .ledger import Entry, Ledger, Opening


class View:
    """Of each ledger its first `ends[arc]` entries."""

    def __init__(self, deal: Deal, ledgers: Sequence[Ledger], ends: list[int]) -> None:
        self.deal, self.ledgers, self.ends = deal, ledgers, ends

    # ---- arcs
    def height(self, arc: int) -> int:
        return self.ledgers[arc].height_at(self.ends[arc])

    def published(self, arc: int) -> Optional[Entry]:
        return self.ledgers[arc].published(self.ends[arc])

    def settled(self, arc: int) -> Optional[Entry]:
        return self.ledgers[arc].settled(self.ends[arc])

    def opened(self, arc: int, lock: int) -> Optional[Opening]:
        return self.ledgers[arc].opened(lock, self.ends[arc])

    def expiries(self, arc: int, end: int) -> list[int]:
        """The expiry of each lock that isn't opened after the first entries of an arc: that of the
        correct terms, whatever was published."""
        ledger = self.ledgers[arc]
        return [expiry(self.deal, arc, ledger.correct_terms, lock) for lock in ledger.closed_locks(end)]

    def least_expiry(self, arc: int) -> int:
        return min(self.expiries(arc, self.ends[arc]))

    def calls(self, party: int, arc: int, kind: str, lock: Optional[int] = None) -> list[tuple[int, Entry]]:
        """The entries of a party's calls of a kind (for a lock) on an arc, with their numbers."""
        entries, end = self.ledgers[arc].entries, self.ends[arc]
        numbered = [(at, entries[at]) for at in self.ledgers[arc].calls[party] if at < end and entries[at].call.kind == kind]
        return numbered if lock is None else [(at, entry) for at, entry in numbered if entry.call.stated.lock == lock]

    def is_correct(self, arc: int) -> bool:
        """An arc is correct where its accepted publish has the correct terms."""
        entry = self.published(arc)
        return entry is not None and entry.call.stated == self.ledgers[arc].correct_terms

    def is_good(self, arc: int) -> bool:
        """An arc is good where it is correct and was published at `open_by` at the latest."""
        entry = self.published(arc)
        return self.is_correct(arc) and entry is not None and entry.height <= self.deal.open_by

    def is_triggered(self, arc: int) -> bool:
        """An arc is triggered where every lock is opened."""
        return all(self.opened(arc, lock) for lock in self.deal.locks)

    # ---- parties
    def is_ready(self, party: int) -> bool:
        """A party is ready where every arc that enters it is good."""
        return all(self.is_good(arc) for arc in self.deal.entering[party])

    def ready_height(self, party: int) -> int:
        """The height at which a party became ready: the greatest at which an arc that enters it was
        published, or 0."""
        entries = [self.published(arc) for arc in self.deal.entering[party]]
        return max((entry.height for entry in entries if entry), default=0)

    def seen_opening(self, party: int, lock: int) -> Optional[Opening]:
        """The opening of a lock on the least-numbered leaving arc whose opening path lacks the
        party, or None."""
        for arc in self.deal.leaving[party]:
            opening = self.opened(arc, lock)
            if opening and party not in opening.hashkey.path:
                return opening
        return None

    def first_unlock(self, party: int, lock: int) -> Optional[Hashkey]:
        """The hashkey of the party's first unlock call for a lock, by arc and entry, or None."""
        for arc in self.deal.touching[party]:
            for _, entry in self.calls(party, arc, UNLOCK, lock):
                hashkey: Hashkey = entry.call.stated
                return hashkey
        return None


# ---- what is due

def first_due(view: View, party: int, seed: bytes, signed: dict[int, Hashkey]) -> Optional[tuple[int, Call]]:
    """The first call that is due for a party, as an arc and a call, or None."""
    return next(all_due(view, party, seed, signed), None)


def all_due(view: View, party: int, seed: bytes, signed: dict[int, Hashkey]) -> Iterator[tuple[int, Call]]:
    """The calls that are due for a party over what it knows: by rule and then by arc, each on an
    arc on which the party has no such call yet.

    `signed` are the hashkeys that it noted.
    """
    is_ready = view.is_ready(party)
    yield from due_publishes(view, party, is_ready)
    if is_ready:
        yield from due_unlocks(view, party, seed, signed)
    yield from due_claims(view, party)
    yield from due_refunds(view, party)


def all_useful(view: View, party: int, seed: bytes, signed: Any, at: Sequence[int]) -> Iterator[tuple[int, Call]]:
    """What is due less the calls that can only hurt the party, where a call that is presented now lands at a height of at most
    `at[arc]`: a publish that may land above the height by which contracts open, an unlock that its contract may refuse, and a
    hashkey that is withheld.
    """
    for arc, call in all_due(view, party, seed, signed):
        if call.kind == PUBLISH:
            is_useful = at[arc] <= view.deal.open_by
        elif call.kind == UNLOCK:
            is_useful = is_taken(view, at, call.stated, arc) and not is_withheld(view, party, at, signed, call.stated)
        else:
            is_useful = True
        if is_useful:
            yield arc, call


def is_taken(view: View, at: Sequence[int], hashkey: Hashkey, arc: int) -> bool:
    """Whether the hashkey's lock is open on an arc, or its contract would be opened by a call that lands as late as may be."""
    if view.opened(arc, hashkey.lock):
        return True
    return not view.settled(arc) and at[arc] <= last_accepted(view.deal, view.ledgers[arc].correct_terms, hashkey)


def has_missed(view: View, party: int, signed: Any) -> bool:
    """Whether a lock of an arc that enters the party is closed for good to the hashkey that it signed for it."""
    for arc in view.deal.entering[party]:
        for lock, hashkey in signed.items():
            last = last_accepted(view.deal, view.ledgers[arc].correct_terms, hashkey)
            if not view.opened(arc, lock) and view.height(arc) > last:
                return True
    return False


def is_withheld(view: View, party: int, at: Sequence[int], signed: Any, hashkey: Hashkey) -> bool:
    """Whether the party had better not present this hashkey: it has presented none for the lock, has lost nothing, and an arc that
    enters it wouldn't take the hashkey, or has missed a lock."""
    if view.first_unlock(party, hashkey.lock) or has_lost(view, party):
        return False
    are_taking = all(is_taken(view, at, hashkey, arc) for arc in view.deal.entering[party])
    return has_missed(view, party, signed) or not are_taking


def due_publishes(view: View, party: int, is_ready: bool) -> Iterator[tuple[int, Call]]:
    """A publish of the correct terms on each leaving arc: for a leader at once, for a follower
    where it is ready."""
    if party in view.deal.leaders or is_ready:
        for arc in view.deal.leaving[party]:
            if not view.calls(party, arc, PUBLISH):
                yield arc, Call(PUBLISH, view.ledgers[arc].correct_terms)


def due_unlocks(view: View, party: int, seed: bytes, signed: dict[int, Hashkey]) -> Iterator[tuple[int, Call]]:
    """Where the party is ready, an unlock for each lock on each entering arc, by lock and then by
    arc, with its hashkey for the lock."""
    for lock in view.deal.locks:
        for arc in view.deal.entering[party]:
            if not view.calls(party, arc, UNLOCK, lock):
                hashkey = due_key(view, party, lock, seed, signed)
                if hashkey:
                    yield arc, Call(UNLOCK, hashkey)


def due_key(view: View, party: int, lock: int, seed: bytes, signed: dict[int, Hashkey]) -> Optional[Hashkey]:
    """The hashkey that a party signed before for a lock; else, where it leads the lock, its own;
    else its extension of one that it has seen."""
    deal = view.deal
    if lock in signed:
        return signed[lock]
    if deal.leaders[lock] == party:
        inner = Hashkey(lock, secret_of(seed), (), ())
    else:
        opening = view.seen_opening(party, lock)
        if opening is None:
            return None
        inner = opening.hashkey
    return extended(deal.id, inner, party, seed) if deal.is_keyed else inner


def due_claims(view: View, party: int) -> Iterator[tuple[int, Call]]:
    """A claim on each entering arc that is correct and triggered."""
    for arc in view.deal.entering[party]:
        if view.is_triggered(arc) and view.is_correct(arc) and not view.calls(party, arc, CLAIM):
            yield arc, Call(CLAIM)


def due_refunds(view: View, party: int) -> Iterator[tuple[int, Call]]:
    """A refund on each leaving arc that was published, is neither settled nor triggered, and is
    known above the expiry of a closed lock."""
    for arc in view.deal.leaving[party]:
        if is_refundable(view, party, arc) and view.height(arc) > view.least_expiry(arc):
            yield arc, Call(REFUND)


def is_refundable(view: View, party: int, arc: int) -> bool:
    """Whether the party waits for a refund on an arc that leaves it, or may have it."""
    is_held = view.published(arc) and not view.settled(arc) and not view.is_triggered(arc)
    return bool(is_held) and not view.calls(party, arc, REFUND)


def rest_until(view: View, party: int) -> Optional[int]:
    """Up to which height ticks make nothing due for a party for which nothing is: the least expiry
    that it waits for, or None where it waits for none."""
    return min((view.least_expiry(arc) for arc in view.deal.leaving[party] if is_refundable(view, party, arc)), default=None)


# ---- conduct

def breaches(book: View, party: int) -> Iterator[tuple[int, int]]:
    """Where a party broke its conduct, by arc and then entry."""
    for arc in book.deal.touching[party]:
        ledger = book.ledgers[arc]
        for at in ledger.calls[party]:
            if not keeps_rules(book, party, arc, at, ledger.entries[at]):
                yield arc, at


def keeps_rules(book: View, party: int, arc: int, at: int, entry: Entry) -> bool:
    """Whether a call of the party keeps the rules of conduct. There is no transfer."""
    kind = entry.call.kind
    if kind == PUBLISH:
        return is_conducted_publish(book, party, arc, entry)
    if kind == UNLOCK:
        return is_conducted_unlock(book, party, arc, at, entry.call.stated)
    if kind == CLAIM:
        return not book.ledgers[arc].closed_locks(at)
    if kind == REFUND:
        return is_conducted_refund(book, arc, at, entry)
    assert kind == TRANSFER
    return False


def is_conducted_publish(book: View, party: int, arc: int, entry: Entry) -> bool:
    """A publish has the correct terms, is the party's only one on its arc, and a follower makes it
    only where it is ready."""
    is_allowed = party in book.deal.leaders or book.is_ready(party)
    is_only = len(book.calls(party, arc, PUBLISH)) == 1
    return is_allowed and is_only and entry.call.stated == book.ledgers[arc].correct_terms


def is_conducted_unlock(book: View, party: int, arc: int, at: int, hashkey: Hashkey) -> bool:
    """An unlock comes after its arc's publish, where the party is ready; all unlocks for one lock
    carry one hashkey, valid on the arc."""
    if not book.ledgers[arc].published(at) or not book.is_ready(party):
        return False
    if hashkey != book.first_unlock(party, hashkey.lock):
        return False
    if what_is_wrong(book.deal, arc, book.deal.hashlocks[hashkey.lock], hashkey):
        return False
    return book.deal.leaders[hashkey.lock] == party or extends_accepted(book, party, hashkey)


def extends_accepted(book: View, party: int, hashkey: Hashkey) -> bool:
    """Whether a hashkey extends one that was accepted on a leaving arc and whose path lacks the
    party."""
    inner = hashkey.tail() if book.deal.is_keyed else hashkey
    return party not in inner.path and bool(accepted_heights(book, party, inner))


def accepted_heights(book: View, party: int, hashkey: Hashkey) -> list[int]:
    """The heights at which a hashkey was accepted on arcs that leave a party."""
    openings = [book.opened(arc, hashkey.lock) for arc in book.deal.leaving[party]]
    return [opening.height for opening in openings if opening and opening.hashkey == hashkey]


def is_conducted_refund(book: View, arc: int, at: int, entry: Entry) -> bool:
    """A refund comes above the expiry of a lock that is closed."""
    return any(entry.height > it for it in book.expiries(arc, at))


# ---- lateness

def lateness(book: View, party: int) -> Iterator[tuple[str, int, int]]:
    """Where a party was late, as a rule, an arc and the due height: publish, then unlock by lock,
    then claim, then refund, each by arc."""
    deal = book.deal
    for arc in deal.leaving[party]:
        yield from late(book, arc, PUBLISH, publish_reference(book, party), counted(book, party, arc, PUBLISH))
    for lock in deal.locks:
        first = book.first_unlock(party, lock)
        reference = unlock_reference(book, party, lock, first)
        for arc in deal.entering[party]:
            heights = [entry.height for _, entry in book.calls(party, arc, UNLOCK, lock) if entry.call.stated == first]
            yield from late(book, arc, "unlock %d" % lock, reference, heights)
    for arc in deal.entering[party]:
        yield from late(book, arc, CLAIM, claim_reference(book, arc), counted(book, party, arc, CLAIM))
    for arc in deal.leaving[party]:
        reference = refund_reference(book, arc)
        heights = counted(book, party, arc, REFUND)
        yield from late(book, arc, REFUND, reference, [it for it in heights if reference is not None and it > reference])


def counted(book: View, party: int, arc: int, kind: str) -> list[int]:
    """The heights of a party's calls of a kind on an arc."""
    return [entry.height for _, entry in book.calls(party, arc, kind)]


def late(book: View, arc: int, rule: str, reference: Optional[int], heights: list[int]) -> Iterator[tuple[str, int, int]]:
    """Late: an action is enabled (has a reference), its ledger stands above its due height, and no
    call that counts stands by then."""
    if reference is not None:
        due = reference + book.deal.delta
        if book.height(arc) > due and not any(height <= due for height in heights):
            yield rule, arc, due


def publish_reference(book: View, party: int) -> Optional[int]:
    """Enabled where the party leads, or is ready."""
    if party in book.deal.leaders:
        return 0
    return book.ready_height(party) if book.is_ready(party) else None


def unlock_reference(book: View, party: int, lock: int, first: Optional[Hashkey]) -> Optional[int]:
    """Enabled where the party is ready, and leads the lock, or made an unlock call for it, or has
    seen it opened."""
    if not book.is_ready(party):
        return None
    ready = book.ready_height(party)
    if book.deal.leaders[lock] == party:
        return ready
    if first is None and book.seen_opening(party, lock) is None:
        return None
    return max(ready, base_height(book, party, lock, first))


def base_height(book: View, party: int, lock: int, first: Optional[Hashkey]) -> int:
    """The greatest height at which the used hashkey was accepted on a leaving arc, 0 where on
    none."""
    if not book.deal.is_keyed:
        openings = [book.opened(arc, lock) for arc in book.deal.leaving[party]]
        return max([opening.height for opening in openings if opening], default=0)
    seen = book.seen_opening(party, lock)
    if first is None and seen:
        used = seen.hashkey
    elif first and first.path[:1] == (party,):
        used = first.tail()
    else:
        return 0
    return max(accepted_heights(book, party, used), default=0)


def claim_reference(book: View, arc: int) -> Optional[int]:
    """Enabled where the arc is correct and triggered: the height at which its last lock was
    opened."""
    if book.is_correct(arc) and book.is_triggered(arc):
        openings = [book.opened(arc, lock) for lock in book.deal.locks]
        return max(opening.height for opening in openings if opening)
    return None


def refund_reference(book: View, arc: int) -> Optional[int]:
    """Enabled where the arc carries an accepted publish and isn't triggered: the least expiry of a
    lock that isn't opened."""
    if book.published(arc) and not book.is_triggered(arc):
        return book.least_expiry(arc)
    return None


# ---- forgery

def forgeries(book: View, party: int) -> Iterator[tuple[int, int]]:
    """Where an accepted unlock carries a suffix that begins with the party (with timelocks, the
    leader's secret) that it never presented."""
    presented = {entry.call.stated for arc in book.deal.touching[party] for _, entry in book.calls(party, arc, UNLOCK)}
    for arc in book.deal.arcs:
        for opening in sorted(book.ledgers[arc].openings.values()):
            suffix = own_suffix(book.deal, party, opening.hashkey)
            if suffix and suffix not in presented:
                yield arc, opening.entry


def own_suffix(deal: Deal, party: int, hashkey: Hashkey) -> Optional[Hashkey]:
    """What of a hashkey is a party's own: the suffix that begins with it; with timelocks the
    leader's secret; or None."""
    if deal.is_keyed:
        return hashkey.suffix(party) if party in hashkey.path else None
    is_own = party == deal.leaders[0] and hashlock_of(hashkey.secret) == deal.hashlocks[0]
    return hashkey if is_own else None


# ---- outcomes and findings

def has_ended(book: View) -> bool:
    """A book has ended where every ledger is above the horizon."""
    return all(book.height(arc) > book.deal.horizon for arc in book.deal.arcs)


def outcome(book: View, party: int) -> str:
    """The outcome of a party, by the leaving arcs that were triggered (lost) and the entering arcs
    that are correct and were claimed (got)."""
    lost = [book.is_triggered(arc) for arc in book.deal.leaving[party]]
    got = [book.is_correct(arc) and is_claimed(book, arc) for arc in book.deal.entering[party]]
    if not any(lost):
        return "FreeRide" if any(got) else "NoDeal"
    if not all(got):
        return "Underwater"
    return "Deal" if all(lost) else "Discount"


def is_claimed(book: View, arc: int) -> bool:
    settled = book.settled(arc)
    return settled is not None and settled.call.kind == CLAIM


def findings(book: View, conforming: list[bool]) -> list[str]:
    """The findings of a book, in their order; of parties that don't conform nothing is found."""
    found = []
    for party, name in enumerate(book.deal.names):
        if conforming[party]:
            found += ["broke %s on %d entry %d" % (name, arc, at) for arc, at in breaches(book, party)]
            found += ["late %s %s on %d due %d" % (name, rule, arc, due) for rule, arc, due in lateness(book, party)]
            found += ["forged %s on %d entry %d" % (name, arc, at) for arc, at in forgeries(book, party)]
    unfinished = [arc for arc in book.deal.arcs if book.height(arc) <= book.deal.horizon]
    return found + ["unfinished %d height %d" % (arc, book.height(arc)) for arc in unfinished]


# ---- walking away

def has_lost(book: View, party: int) -> bool:
    """A party has lost where an arc that leaves it is triggered."""
    return any(book.is_triggered(arc) for arc in book.deal.leaving[party])


def is_watchful(book: View, party: int) -> bool:
    """A watchful party is conducted, asks back what it published, and, once it has lost, calls each
    enabled unlock while its hashkey is accepted, and claims."""
    if any(breaches(book, party)) or not asks_all_back(book, party):
        return False
    return not has_lost(book, party) or unlocks_all(book, party) and claims_all(book, party)


def unlocks_all(book: View, party: int) -> bool:
    """Each unlock that is enabled is called at a height at which its hashkey is accepted."""
    for lock in book.deal.locks:
        first = book.first_unlock(party, lock)
        if unlock_reference(book, party, lock, first) is not None:
            for arc in book.deal.entering[party]:
                entries = [entry for _, entry in book.calls(party, arc, UNLOCK, lock) if entry.call.stated == first]
                if first is None or not any(is_in_time(book, arc, entry, first) for entry in entries):
                    return False
    return True


def is_in_time(book: View, arc: int, entry: Entry, hashkey: Hashkey) -> bool:
    return entry.height <= last_accepted(book.deal, book.ledgers[arc].correct_terms, hashkey)


def claims_all(book: View, party: int) -> bool:
    """A claim of the party stands on each entering arc that is correct and triggered."""
    due = [arc for arc in book.deal.entering[party] if book.is_correct(arc) and book.is_triggered(arc)]
    return all(book.calls(party, arc, CLAIM) for arc in due)


def asks_all_back(book: View, party: int) -> bool:
    """A refund call of the party stands behind each publish on an arc that leaves it and isn't
    triggered."""
    for arc in book.deal.leaving[party]:
        at = book.ledgers[arc].publish_entry
        if at is not None and book.published(arc) and not book.is_triggered(arc):
            if not any(number > at for number, _ in book.calls(party, arc, REFUND)):
                return False
    return True


def has_refunds(book: View, party: int) -> bool:
    """Whether the party has back what it published on each arc that leaves it and isn't
    triggered."""
    for arc in book.deal.leaving[party]:
        settled = book.settled(arc)
        if book.published(arc) and not book.is_triggered(arc) and (settled is None or settled.call.kind != REFUND):
            return False
    return True
