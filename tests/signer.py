#!/usr/bin/env python3
"""An independent signer, written from docs/using/contract.md alone: what seeds give a job, and
hashkeys."""
from __future__ import annotations

import json
import sys
from functools import cache
from hashlib import sha256
from typing import Any, Optional


def digest(*parts: bytes) -> bytes:
    return sha256(b"".join(parts)).digest()


def secret_of(seed: bytes) -> bytes:
    return digest(b"\5", seed)


@cache
def chains(seed: bytes, party: int, lock: int) -> list[list[bytes]]:
    """The 67 chains of a key, each with its start and its 15 steps."""
    found = []
    for number in range(67):
        value = digest(b"\1", seed, bytes([party, lock, number]))
        chain = [value]
        for _ in range(15):
            value = sha256(b"\2" + value).digest()
            chain.append(value)
        found.append(chain)
    return found


def public_key(seed: bytes, party: int, lock: int) -> bytes:
    return digest(b"\3", *(chain[15] for chain in chains(seed, party, lock)))


def digits_of(message: bytes) -> list[int]:
    digits = [half for byte in message for half in (byte >> 4, byte & 15)]
    total = sum(15 - digit for digit in digits)
    return digits + [total >> 8, total >> 4 & 15, total & 15]


def signature(seed: bytes, party: int, lock: int, message: bytes) -> bytes:
    return b"".join(chain[digit] for chain, digit in zip(chains(seed, party, lock), digits_of(message)))


def deal_bytes(header: dict[str, Any], keyed: bool) -> bytes:
    """What the id of a header's deal is a digest of; keyed says whether the mode is hashkeys."""
    number = {party["name"]: at for at, party in enumerate(header["parties"])}

    def wide(value: int, count: int) -> bytes:
        return value.to_bytes(count, "big")

    told = [bytes([header["swap"], keyed, len(number), len(header["arcs"])])]
    for arc in header["arcs"]:
        told.append(bytes([number[arc["from"]], number[arc["to"]]]) + wide(arc["amount"], 8) + wide(arc.get("timelock", 0), 4))
    told.append(bytes([len(header["leaders"]), *(number[it["party"]] for it in header["leaders"])]))
    told += [wide(header[it], 4) for it in ("start", "delta", "bound")]
    told += [bytes.fromhex(it["hashlock"]) for it in header["leaders"]]
    told += [bytes.fromhex(key) for row in header.get("keys", []) for key in row]
    return b"".join(told)


def deal_id(header: dict[str, Any], keyed: bool) -> bytes:
    """The id of a header's deal."""
    return digest(b"\6", deal_bytes(header, keyed))


def message_of(identity: bytes, lock: int, suffix: list[int], secret: bytes, inner: bytes) -> bytes:
    """What the first party of a path's suffix signs; inner is the next party's signature, or no
    bytes."""
    return digest(b"\4", identity, bytes([lock, len(suffix), *suffix]), secret, inner)


def hashkey(identity: bytes, seeds: list[bytes], lock: int, path: list[int], secret: Optional[bytes] = None) -> tuple[bytes, list[bytes]]:
    """The secret of the path's last party if none is given, and the signatures of all on it, first
    to last, over the path from each."""
    secret = secret or secret_of(seeds[path[-1]])
    sigs: list[bytes] = []
    for at in reversed(range(len(path))):
        message = message_of(identity, lock, path[at:], secret, sigs[0] if sigs else b"")
        sigs.insert(0, signature(seeds[path[at]], path[at], lock, message))
    return secret, sigs


# ---- lines, as examples/vectors/run asks them


def signed_words(words: list[str]) -> tuple[bytes, int, int, bytes]:
    """Whose signature it is, and the message."""
    seed, party, lock, identity, suffix, secret, inner = words
    parties, value = list(map(int, suffix.split(","))), bytes.fromhex
    following = b"" if inner == "-" else value(inner)
    return value(seed), int(party), int(lock), message_of(value(identity), int(lock), parties, value(secret), following)


def answer(line: str) -> str:
    """The answer to a line: an id, a secret, a hashlock, a key, a message or a signature."""
    word, _, rest = line.partition(" ")
    if word == "id":
        header = json.loads(rest)
        return deal_id(header, header["mode"] == "hashkeys").hex()
    words = rest.split(" ")
    if word in ("message", "sign"):
        seed, party, lock, message = signed_words(words)
        return (message if word == "message" else signature(seed, party, lock, message)).hex()
    seed = bytes.fromhex(words[0])
    if word == "key":
        return public_key(seed, int(words[1]), int(words[2])).hex()
    return (secret_of(seed) if word == "secret" else digest(secret_of(seed))).hex()


if __name__ == "__main__":
    for told in sys.stdin:
        print(answer(told.rstrip("\n")), flush=True)
