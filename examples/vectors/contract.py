#!/usr/bin/env python3
"""The contract of one arc in plain Python, written from docs/using/contract.md. It answers the lines
that `run` sends: examples/vectors/run examples/vectors/contract.py. `mutants.py` makes its wrong
versions."""
from __future__ import annotations

import sys
from hashlib import sha256
from typing import NamedTuple

MOST_NUMBER, MOST_UNITS, SIGNATURE = 1_000_000, 10**12, 2144
MOST_PATH = {1: 24, 2: 32}
ACCEPTED = "accepted"


class BadCall(Exception):
    """A call that doesn't fit the deal."""


class Terms(NamedTuple):
    start: int
    delta: int
    bound: int
    timelock: int
    amount: int
    hashlocks: tuple[bytes, ...]


class Hashkey(NamedTuple):
    lock: int
    secret: bytes
    path: tuple[int, ...]
    signatures: tuple[bytes, ...]


def digest(*parts: bytes) -> bytes:
    return sha256(b"".join(parts)).digest()


def number_of(told: bytes) -> int:
    return int.from_bytes(told, "big")


class Deal:
    """What the deal bytes say."""

    def __init__(self, told: bytes) -> None:
        self.id = digest(b"\6", told)
        self.version, self.is_keyed = told[0], told[1] == 1
        self.parties, arcs = told[2], told[3]
        self.arcs = [told[4 + 14 * it :] for it in range(arcs)]
        self.ends = [(arc[0], arc[1]) for arc in self.arcs]
        self.leaders = told[5 + 14 * arcs : 5 + 14 * arcs + told[4 + 14 * arcs]]
        self.rest = told[5 + 14 * arcs + len(self.leaders) :]
        self.keys = self.rest[12 + 32 * len(self.leaders) :]

    def key(self, party: int, lock: int) -> bytes:
        """A party's public key for a lock."""
        at = 32 * (party * len(self.leaders) + lock)
        return self.keys[at : at + 32]

    def terms(self, arc: int) -> Terms:
        """The correct terms of an arc, of which a contract needs the amount alone."""
        start, delta, bound = (number_of(self.rest[at : at + 4]) for at in (0, 4, 8))
        hashlocks = tuple(self.rest[12 + 32 * lock : 44 + 32 * lock] for lock in range(len(self.leaders)))
        return Terms(start, delta, bound, number_of(self.arcs[arc][10:14]), number_of(self.arcs[arc][2:10]), hashlocks)


# ---- calls that fit the deal


def terms_of(deal: Deal, words: list[str]) -> Terms:
    numbers, hashlocks = list(map(int, words[:5])), tuple(map(bytes.fromhex, words[5:]))
    if max(numbers[:4]) > MOST_NUMBER or numbers[4] > MOST_UNITS:
        raise BadCall
    if len(hashlocks) != len(deal.leaders):
        raise BadCall
    start, delta, bound, timelock, amount = numbers
    return Terms(start, delta, bound, timelock, amount, hashlocks)


def hashkey_of(deal: Deal, lock: str, secret: str, path: str, signatures: str) -> Hashkey:
    parties, signed = (() if it == "-" else it.split(",") for it in (path, signatures))
    key = Hashkey(int(lock), bytes.fromhex(secret), tuple(map(int, parties)), tuple(map(bytes.fromhex, signed)))
    if key.lock >= len(deal.leaders) or any(it >= deal.parties for it in key.path):
        raise BadCall
    if len(key.path) > MOST_PATH[deal.version] or len(key.signatures) > MOST_PATH[deal.version]:
        raise BadCall
    if any(len(it) != SIGNATURE for it in key.signatures):
        raise BadCall
    return key


# ---- signatures


def digits_of(message: bytes) -> list[int]:
    digits = [half for byte in message for half in (byte >> 4, byte & 15)]
    total = sum(15 - digit for digit in digits)
    return [*digits, total >> 8, total >> 4 & 15, total & 15]


def is_signed(public: bytes, message: bytes, signature: bytes) -> bool:
    """Whether each value, carried on by 15 - d steps, gives ends whose digest is the public key."""
    ends = []
    for at, digit in enumerate(digits_of(message)):
        value = signature[32 * at : 32 * at + 32]
        for _ in range(15 - digit):
            value = digest(b"\2", value)
        ends.append(value)
    return digest(b"\3", *ends) == public


# ---- the table of replies


class Contract:
    """The contract of an arc, and the accounts of its two parties."""

    terms: Terms

    def __init__(self, deal: Deal, arc: int, has: int, gets: int) -> None:
        self.deal, self.correct = deal, deal.terms(arc)
        self.party, self.counterparty = deal.ends[arc]
        self.accounts = {self.party: has, self.counterparty: gets}
        self.height = 0
        self.held = 0
        self.is_published = False
        self.is_settled = False
        self.opened: set[int] = set()

    def reply(self, sender: int, kind: str, words: list[str]) -> str:
        if kind == "publish":
            return self.publish(sender, terms_of(self.deal, words))
        if kind == "unlock":
            return self.unlock(sender, hashkey_of(self.deal, *words))
        return self.claim(sender) if kind == "claim" else self.refund(sender)

    def publish(self, sender: int, terms: Terms) -> str:
        if sender != self.party:
            return "NotParty"
        if self.is_published:
            return "AlreadyPublished"
        if terms.amount > self.funds():
            return f"NoFunds {self.funds()}"
        self.terms = terms
        self.is_published = True
        self.accounts[self.party] -= terms.amount
        self.held = terms.amount
        return ACCEPTED

    def funds(self) -> int:
        """What the party has for this arc."""
        return min(self.accounts[self.party], self.correct.amount)

    def unlock(self, sender: int, key: Hashkey) -> str:
        if not self.is_published:
            return "NoContract"
        if self.is_settled:
            return "Settled"
        if sender != self.counterparty:
            return "NotCounterparty"
        if key.lock in self.opened:
            return "AlreadyUnlocked"
        if digest(key.secret) != self.terms.hashlocks[key.lock]:
            return "WrongSecret"
        if self.is_wrong_path(key):
            return "WrongPath"
        if self.is_wrong_signature(key):
            return "WrongSignature"
        if self.height > self.last(key):
            return f"TooLate {self.last(key)}"
        self.opened.add(key.lock)
        return ACCEPTED

    def is_wrong_path(self, key: Hashkey) -> bool:
        path = key.path
        if not self.deal.is_keyed:
            return bool(path or key.signatures)
        if not path or len(path) != len(key.signatures):
            return True
        if path[0] != self.counterparty or path[-1] != self.deal.leaders[key.lock]:
            return True
        if len(set(path)) != len(path):
            return True
        return any(step not in self.deal.ends for step in zip(path, path[1:]))

    def is_wrong_signature(self, key: Hashkey) -> bool:
        return not all(self.is_signed_at(key, at) for at in range(len(key.signatures)))

    def is_signed_at(self, key: Hashkey, at: int) -> bool:
        """Whether the party at that place of the path signed the path from itself on."""
        suffix, inner = key.path[at:], b"".join(key.signatures[at + 1 : at + 2])
        message = digest(b"\4", self.deal.id, bytes([key.lock]), bytes([len(suffix)]), bytes(suffix), key.secret, inner)
        return is_signed(self.deal.key(suffix[0], key.lock), message, key.signatures[at])

    def last(self, key: Hashkey) -> int:
        """The last height at which a hashkey is accepted."""
        if not self.deal.is_keyed:
            return self.terms.timelock
        return self.terms.start + (self.terms.bound + len(key.path)) * self.terms.delta

    def expiry(self, lock: int) -> int:
        if not self.deal.is_keyed:
            return self.terms.timelock
        if self.deal.version == 2 and self.deal.leaders[lock] == self.counterparty:
            return self.terms.start + (self.terms.bound + 1) * self.terms.delta
        return self.terms.start + (2 * self.terms.bound + 1) * self.terms.delta

    def closed(self) -> list[int]:
        return [lock for lock in range(len(self.deal.leaders)) if lock not in self.opened]

    def claim(self, sender: int) -> str:
        if not self.is_published:
            return "NoContract"
        if self.is_settled:
            return "Settled"
        if sender != self.counterparty:
            return "NotCounterparty"
        if self.closed():
            return f"StillLocked {self.closed()[0]}"
        self.is_settled = True
        self.accounts[self.counterparty] += self.held
        self.held = 0
        return ACCEPTED

    def refund(self, sender: int) -> str:
        if not self.is_published:
            return "NoContract"
        if self.is_settled:
            return "Settled"
        if sender != self.party:
            return "NotParty"
        if not self.closed():
            return "NothingLocked"
        if self.height < self.first():
            return f"NotExpired {self.first()}"
        self.is_settled = True
        self.accounts[self.party] += self.held
        self.held = 0
        return ACCEPTED

    def first(self) -> int:
        """The first height at which a refund is accepted."""
        return 1 + min(self.expiry(lock) for lock in self.closed())


# ---- lines


class Chain:
    """A chain with one contract, as `run` drives it."""

    contract: Contract

    def answer(self, line: str) -> str:
        word, *words = line.split(" ")
        if word == "deal":
            arc, has, gets, told = words
            self.contract = Contract(Deal(bytes.fromhex(told)), int(arc), int(has), int(gets))
            return self.contract.deal.id.hex()
        if word == "height":
            self.contract.height = int(words[0])
            return "ok"
        if word == "call":
            try:
                return self.contract.reply(int(words[0]), words[1], words[2:])
            except BadCall:
                return "BadCall"
        it = self.contract
        return f"{it.accounts[it.party]} {it.accounts[it.counterparty]} {it.held}"


if __name__ == "__main__":
    chain = Chain()
    for row in sys.stdin:
        print(chain.answer(row.rstrip("\n")), flush=True)
