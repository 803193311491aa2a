"""A contract of one arc, as a chain of one's own would run it. Written from docs/DEFINITIONS.md
(the table of replies) and docs/FORMATS.md (the hashes)."""
from __future__ import annotations

import os
import sys
from functools import lru_cache
from hashlib import sha256

sys.path.insert(1, os.path.join(os.path.dirname(os.path.abspath(__file__)), "..", "..", "python"))
from swap_party import ACCEPTED, Claim, Header, Publish, Refund, Reply, Transfer, Unlock  # noqa: E402
from swap_party.calls import Call, Hashkey  # noqa: E402
from swap_party.header import HASHKEYS  # noqa: E402

HEX = bytes.fromhex
FULL = Reply("SenderFull")


def digest(*parts: bytes) -> bytes:
    return sha256(b"".join(parts)).digest()


@lru_cache(maxsize=1 << 12)
def is_signed(public: bytes, message: bytes, sig: bytes) -> bool:
    """Whether each of the 67 values, carried on by 15 - d steps, gives ends whose digest is the
    public key."""
    digits = [half for byte in message for half in (byte >> 4, byte & 15)]
    total = sum(15 - digit for digit in digits)
    ends = []
    for at, number in enumerate([*digits, total >> 8, total >> 4 & 15, total & 15]):
        value = sig[32 * at : 32 * at + 32]
        for _ in range(15 - number):
            value = sha256(b"\2" + value).digest()
        ends.append(value)
    return digest(b"\3", *ends) == public


class Contract:
    """The contract of an arc and the two balances: what was published, opened and settled."""

    def __init__(self, deal: Header, arc: int) -> None:
        self.deal, self.arc, self.keyed = deal, arc, deal.mode == HASHKEYS
        self.id = deal.deal_id()
        self.leaders = [deal.names.index(it.party) for it in deal.leaders]
        self.party, self.counterparty = deal.ends[arc]
        self.balances = {self.party: deal.arcs[arc].amount, self.counterparty: 0}
        self.published: Publish | None = None
        self.opened: frozenset[int] = frozenset()
        self.settled = False
        self.sent = {self.party: 0, self.counterparty: 0}

    def copy(self) -> Contract:
        """The contract as it stands, to try a call on."""
        it = Contract(self.deal, self.arc)
        it.__dict__.update(self.__dict__)
        it.balances, it.sent = dict(self.balances), dict(self.sent)
        return it

    def last_of(self, terms: Publish, lock: int) -> int:
        """The last height at which the lock may be opened by any path, by the published terms."""
        if not self.keyed:
            return terms.timelock
        if self.deal.version == 2 and self.leaders[lock] == self.counterparty:
            return terms.start + (terms.bound + 1) * terms.delta
        return terms.start + (2 * terms.bound + 1) * terms.delta

    def is_wrong_path(self, key: Hashkey) -> bool:
        if not self.keyed:
            return bool(key.path or key.sigs)
        path, steps = key.path, set(self.deal.ends)
        good = path and path[0] == self.counterparty and path[-1] == self.leaders[key.lock] and len(set(path)) == len(path) == len(key.sigs)
        return not good or any(step not in steps for step in zip(path, path[1:]))

    def is_wrong_signature(self, key: Hashkey) -> bool:
        sigs = [HEX(sig) for sig in key.sigs]
        for at, sig in enumerate(sigs):
            inner = sigs[at + 1] if at + 1 < len(sigs) else b""
            suffix = bytes([key.lock, len(key.path) - at, *key.path[at:]])
            message = digest(b"\4", self.id, suffix, HEX(key.secret), inner)
            if not is_signed(HEX(self.deal.keys[key.path[at]][key.lock]), message, sig):
                return True
        return False

    def deadline(self, terms: Publish, key: Hashkey) -> int:
        return terms.start + (terms.bound + len(key.path)) * terms.delta if self.keyed else terms.timelock

    def reply(self, height: int, party: int, call: Call) -> Reply:
        """The first row of the table that applies, and what an accepted call does."""
        if self.sent[party] == 32:
            return FULL
        if isinstance(call, Publish):
            answer = self.publish(party, call)
        elif isinstance(call, Transfer):
            answer = self.transfer(party, call)
        else:
            answer = self.settling(height, party, call)
        self.sent[party] += 1
        return answer

    def publish(self, party: int, terms: Publish) -> Reply:
        if party != self.party:
            return Reply("NotParty")
        if self.published:
            return Reply("AlreadyPublished")
        have = min(self.balances[party], self.deal.arcs[self.arc].amount)
        if have < terms.amount:
            return Reply("NoFunds", have)
        self.published = terms
        self.balances[party] -= terms.amount
        return ACCEPTED

    def settling(self, height: int, party: int, call: Unlock | Claim | Refund) -> Reply:
        """A call on a contract that was published."""
        if not self.published:
            return Reply("NoContract")
        if self.settled:
            return Reply("Settled")
        if isinstance(call, Unlock):
            return self.unlock(self.published, height, party, call.key)
        return self.claim(party) if isinstance(call, Claim) else self.refund(self.published, height, party)

    def unlock(self, terms: Publish, height: int, party: int, key: Hashkey) -> Reply:
        if party != self.counterparty:
            return Reply("NotCounterparty")
        if key.lock in self.opened:
            return Reply("AlreadyUnlocked")
        if digest(HEX(key.secret)).hex() != terms.locks[key.lock]:
            return Reply("WrongSecret")
        if self.is_wrong_path(key):
            return Reply("WrongPath")
        if self.is_wrong_signature(key):
            return Reply("WrongSignature")
        if height > self.deadline(terms, key):
            return Reply("TooLate", self.deadline(terms, key))
        self.opened |= {key.lock}
        return ACCEPTED

    def closed(self) -> list[int]:
        return [lock for lock in range(len(self.leaders)) if lock not in self.opened]

    def claim(self, party: int) -> Reply:
        if party != self.counterparty:
            return Reply("NotCounterparty")
        if self.closed():
            return Reply("StillLocked", self.closed()[0])
        self.settle(party)
        return ACCEPTED

    def refund(self, terms: Publish, height: int, party: int) -> Reply:
        if party != self.party:
            return Reply("NotParty")
        if not self.closed():
            return Reply("NothingLocked")
        first = 1 + min(self.last_of(terms, lock) for lock in self.closed())
        if height < first:
            return Reply("NotExpired", first)
        self.settle(party)
        return ACCEPTED

    def settle(self, party: int) -> None:
        assert self.published
        self.settled = True
        self.balances[party] += self.published.amount

    def transfer(self, party: int, call: Transfer) -> Reply:
        if self.balances[party] < call.units:
            return Reply("NoFunds", self.balances[party])
        self.balances[party] -= call.units
        self.balances[call.to] += call.units
        return ACCEPTED
