"""Hashes, one-time signatures and hashkeys.

docs/FORMATS.md, 'Bytes that are hashed'; docs/DEFINITIONS.md, 'Signatures and hashkeys'.
"""
from __future__ import annotations

from functools import lru_cache
from hashlib import sha256
from typing import NamedTuple

CHAINS = 67
STEPS = 15
VALUE = 32


class Hashkey(NamedTuple):
    """A lock, a secret, a path and a signature per party of the path; with timelocks its lists are
    empty."""

    lock: int
    secret: bytes
    path: tuple[int, ...]
    signatures: tuple[bytes, ...]

    def tail(self) -> Hashkey:
        """What the first party of the path put itself before."""
        return Hashkey(self.lock, self.secret, self.path[1:], self.signatures[1:])

    def suffix(self, party: int) -> Hashkey:
        """The hashkey from this party of its path on."""
        at = self.path.index(party)
        return Hashkey(self.lock, self.secret, self.path[at:], self.signatures[at:])


def tagged(tag: int, *parts: bytes) -> bytes:
    """`H(tag | parts)`."""
    return sha256(bytes([tag]) + b"".join(parts)).digest()


def secret_of(seed: bytes) -> bytes:
    """The secret of a seed."""
    return tagged(5, seed)


def hashlock_of(secret: bytes) -> bytes:
    """The hashlock of a secret is its hash."""
    return sha256(secret).digest()


def stepped(value: bytes, steps: int) -> bytes:
    """A value of a chain after as many further steps."""
    for _ in range(steps):
        value = sha256(b"\x02" + value).digest()
    return value


@lru_cache(maxsize=4096)
def chains_of(seed: bytes, party: int, lock: int) -> list[list[bytes]]:
    """The 67 chains of a key, each with its start and the 15 values after it."""
    chains = []
    for number in range(CHAINS):
        chain = [tagged(1, seed, bytes([party, lock, number]))]
        for _ in range(STEPS):
            chain.append(sha256(b"\x02" + chain[-1]).digest())
        chains.append(chain)
    return chains


@lru_cache(maxsize=4096)
def public_key(seed: bytes, party: int, lock: int) -> bytes:
    """The public key of a party for a lock: the hash of the ends of its chains."""
    return tagged(3, *[chain[STEPS] for chain in chains_of(seed, party, lock)])


def digits_of(message: bytes) -> list[int]:
    """The 64 digits of a message and the 3 of its checksum, the sum of `15 - d` over them."""
    text = message.hex()
    digits = [int(digit, 16) for digit in text]
    checksum = sum(STEPS - digit for digit in digits)
    return digits + [checksum >> 8, checksum >> 4 & 15, checksum & 15]


def signature(seed: bytes, party: int, lock: int, message: bytes) -> bytes:
    """The 67 values of a signature, in order."""
    return b"".join(chain[digit] for chain, digit in zip(chains_of(seed, party, lock), digits_of(message)))


@lru_cache(maxsize=65536)
def is_valid_signature(key: bytes, message: bytes, signed: bytes) -> bool:
    """Whether each value, carried on by `15 - d` steps, gives ends whose hash is the public key."""
    values = [signed[at : at + VALUE] for at in range(0, CHAINS * VALUE, VALUE)]
    return tagged(3, *[stepped(value, STEPS - digit) for value, digit in zip(values, digits_of(message))]) == key


def signed_message(deal_id: bytes, lock: int, suffix: tuple[int, ...], secret: bytes, following: bytes) -> bytes:
    """What the first party of a path's suffix signs; `following` is the next party's signature, or
    no bytes."""
    return tagged(4, deal_id, bytes([lock, len(suffix)]), bytes(suffix), secret, following)


def extended(deal_id: bytes, hashkey: Hashkey, party: int, seed: bytes) -> Hashkey:
    """The hashkey with a party put before its path, which signs with what its seed gives."""
    path = (party, *hashkey.path)
    following = hashkey.signatures[0] if hashkey.signatures else b""
    message = signed_message(deal_id, hashkey.lock, path, hashkey.secret, following)
    signed = signature(seed, party, hashkey.lock, message)
    return Hashkey(hashkey.lock, hashkey.secret, path, (signed, *hashkey.signatures))


def are_signed(deal_id: bytes, keys: list[list[bytes]], hashkey: Hashkey) -> bool:
    """Whether each party on a path signed the rest of it, from itself on; `keys` are the public
    keys, by party and lock."""
    for at, party in enumerate(hashkey.path):
        following = hashkey.signatures[at + 1] if at + 1 < len(hashkey.path) else b""
        message = signed_message(deal_id, hashkey.lock, hashkey.path[at:], hashkey.secret, following)
        if not is_valid_signature(keys[party][hashkey.lock], message, hashkey.signatures[at]):
            return False
    return True
