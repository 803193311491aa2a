"""What the test vectors of examples/vectors are made of, by the independent signer: deals, hashkeys
and signatures."""
from __future__ import annotations

import json
import re
import sys
from functools import cache
from typing import Any, Dict, Iterator

sys.dont_write_bytecode = True
from signer import deal_bytes, deal_id, digest, digits_of, hashkey, message_of, public_key, secret_of, signature

Header = Dict[str, Any]
Row = Dict[str, Any]


# ---- deals: version, mode, start, delta, bound; arcs with their amounts; leaders

DEALS = """
three:           1 hashkeys 10 10 2;   alice bob 100, bob carol 5, carol alice 1;        alice
three_timelocks: 1 timelocks 10 10 2;  alice bob 100, bob carol 5, carol alice 1;        alice
two_leaders:     1 hashkeys 12 10 2;   alice bob 7, bob alice 1, bob carol 2, carol alice 1000000000000; alice bob
two_payments:    2 hashkeys 10 10 1;   alice bob 100, alice bob 5, bob alice 40;         alice
two_leaders_2:   2 hashkeys 12 10 2;   alice bob 7, bob alice 1, bob carol 2, carol alice 1000000000000; alice bob
"""


def seed_of(number: int) -> bytes:
    return digest(b"seed of a test vector", bytes([number]))


def line_of(value: object) -> str:
    return json.dumps(value, separators=(",", ":"), sort_keys=True)


def plain_of(words: str) -> Header:
    """The plain job that a line of DEALS says."""
    times, arcs, leaders = (it.split() for it in words.split(";"))
    ends = [it.split() for it in " ".join(arcs).split(", ")]
    names = list(dict.fromkeys(name for at, to, _ in ends for name in (at, to)))
    header = {"swap": int(times[0]), "mode": times[1], "start": int(times[2]), "delta": int(times[3]), "bound": int(times[4])}
    header["parties"] = [{"name": name, "seed": seed_of(number).hex()} for number, name in enumerate(names)]
    header["arcs"] = [{"from": at, "to": to, "amount": int(amount)} for at, to, amount in ends]
    return header | {"leaders": [{"party": name} for name in leaders], "finish": "fair"}


def made_of(plain: Header) -> Header:
    """The job that `make` is to make of a plain one."""
    seeds = [bytes.fromhex(party["seed"]) for party in plain["parties"]]
    numbers = {party["name"]: at for at, party in enumerate(plain["parties"])}
    made = plain | {"parties": [{"actor": "conforming", **party} for party in plain["parties"]]}
    made["leaders"] = [{**it, "hashlock": digest(secret_of(seeds[numbers[it["party"]]])).hex()} for it in plain["leaders"]]
    if plain["mode"] == "hashkeys":
        made["keys"] = [[public_key(seed, party, lock).hex() for lock in range(len(made["leaders"]))] for party, seed in enumerate(seeds)]
    else:  # (in a ring the distance is the number of arcs that are left to the leader)
        before = plain["start"] + plain["bound"] * plain["delta"]
        made["arcs"] = [{**arc, "timelock": before + (len(seeds) - at) * plain["delta"]} for at, arc in enumerate(plain["arcs"])]
    return made


@cache
def headers() -> dict[str, tuple[Header, Header]]:
    """Each deal's plain header and its made one, by name."""
    plain = {name: plain_of(words) for name, words in (it.split(":") for it in DEALS.strip().split("\n"))}
    return {name: (it, made_of(it)) for name, it in plain.items()}


def deal_rows() -> Iterator[Row]:
    for name, (plain, made) in headers().items():
        keyed = made["mode"] == "hashkeys"
        told = {"deal": name, "plain": plain, "made": made, "bytes": deal_bytes(made, keyed).hex(), "id": deal_id(made, keyed).hex()}
        yield told | {"check": check_of(made["start"], made["delta"], made["bound"])}


def check_of(start: int, delta: int, bound: int) -> list[str]:
    """What `check` writes of a deal whose bound is the least one."""
    times = {"open by": bound, "expiry": 2 * bound + 1, "horizon": 2 * bound + 2}
    return ["swap accepted", f"need {bound}", *(f"{name} {start + steps * delta}" for name, steps in times.items())]


# ---- hashkeys: the deal, the arc, the height, the lock with the path that signs, what is changed, and the contract's reply

HASHKEYS = """
three 2 0 0:alice; => accepted
three 2 40 0:alice; => accepted
three 2 41 0:alice; => TooLate 40
three 1 50 0:carol,alice; => accepted
three 1 51 0:carol,alice; => TooLate 50
three 0 60 0:bob,carol,alice; => accepted
three 0 61 0:bob,carol,alice; => TooLate 60
three 0 0 0:bob,carol,alice; another secret => WrongSecret
three 1 0 0:alice; => WrongPath
three 1 0 0:carol,bob,alice; => WrongPath
three 0 0 0:bob,carol,bob,carol,alice; => WrongPath
three 0 0 0:bob,carol; with alice's secret => WrongPath
three 0 0 0:bob,carol,alice; no path and no signatures => WrongPath
three 0 0 0:bob,carol,alice; without the last signature => WrongPath
three 0 0 0:bob,carol,alice; a bit of the first signature => WrongSignature
three 0 0 0:bob,carol,alice; a bit of the last signature => WrongSignature
three 0 0 0:bob,carol,alice; the first two signatures exchanged => WrongSignature
three 0 0 0:bob,carol,alice; signed of another deal => WrongSignature
three 0 0 0:bob,carol,alice; signed without the next signature => WrongSignature
three 1 51 0:carol,alice; another secret => WrongSecret
three 0 61 0:bob,carol,alice; without the last signature => WrongPath
three 0 61 0:bob,carol,alice; a bit of the first signature => WrongSignature
two_leaders 0 42 1:bob; => accepted
two_leaders 2 62 1:carol,alice,bob; => accepted
two_leaders 2 63 1:carol,alice,bob; => TooLate 62
two_leaders 2 62 0:carol,alice; => TooLate 52
two_leaders 0 0 1:bob,alice; => WrongSecret
two_leaders 2 0 1:carol,alice,bob; signed for another lock => WrongSignature
two_payments 0 40 0:bob,alice; => accepted
two_payments 1 40 0:bob,alice; => accepted
two_payments 1 41 0:bob,alice; => TooLate 40
two_payments 2 30 0:alice; => accepted
two_payments 2 31 0:alice; => TooLate 30
two_payments 0 0 0:bob,alice; signed as of version 1 => WrongSignature
three_timelocks 2 40 0:alice; the secret alone => accepted
three_timelocks 2 41 0:alice; the secret alone => TooLate 40
three_timelocks 0 60 0:alice; the secret alone => accepted
three_timelocks 0 60 0:bob,carol,alice; => WrongPath
three_timelocks 0 60 0:alice; another secret alone => WrongSecret
"""


def changed_bit(value: bytes) -> bytes:
    return value[:-1] + bytes([value[-1] ^ 1])


def seeds() -> list[bytes]:
    return [seed_of(number) for number in range(3)]


def numbers_of(made: Header, names: str) -> list[int]:
    all_names = [party["name"] for party in made["parties"]]
    return [all_names.index(name) for name in names.split(",")]


def key_of(name: str, lock: int, names: str, change: str = "") -> tuple[bytes, list[int], list[bytes]]:
    """A hashkey along a path of a deal, with a change, as secret, path and signatures."""
    made = headers()[name][1]
    path, identity = numbers_of(made, names), deal_id(made, made["mode"] == "hashkeys")
    if change == "signed of another deal":
        identity = deal_id(made | {"start": made["start"] + 1}, True)
    if change == "signed as of version 1":
        identity = deal_id(made | {"swap": 1}, True)
    secret = secret_of(seed_of(0)) if change == "with alice's secret" else None
    secret, sigs = hashkey(identity, seeds(), 1 - lock if change == "signed for another lock" else lock, path, secret)
    if change == "signed without the next signature":
        sigs[0] = signature(seeds()[path[0]], path[0], lock, message_of(identity, lock, path, secret, b""))
    if change == "without the last signature":
        sigs = sigs[:-1]
    if change == "the first two signatures exchanged":
        sigs[:2] = sigs[1::-1]
    if found := re.fullmatch("a bit of the (first|last) signature", change):
        at = 0 if found[1] == "first" else len(sigs) - 1
        sigs[at] = changed_bit(sigs[at])
    if change.startswith("another secret"):
        secret = changed_bit(secret)
    return (secret, [], []) if change.endswith("alone") or change.startswith("no path") else (secret, path, sigs)


def hashkey_rows() -> Iterator[Row]:
    for row in HASHKEYS.strip().split("\n"):
        words, _, answer = row.partition(" => ")
        first, _, change = words.partition(";")
        name, arc, height, along = first.split(" ")
        lock, _, names = along.partition(":")
        secret, path, sigs = key_of(name, int(lock), names, change.strip())
        told = {"deal": name, "arc": int(arc), "height": int(height), "lock": int(lock), "secret": secret.hex(), "path": path}
        what = f"via {names}" + (f", {change.strip()}" if change else "")
        yield told | {"sigs": [sig.hex() for sig in sigs], "what": what, "answer": answer}


# ---- signatures: those of some hashkeys, each with what it signs


def signature_rows() -> Iterator[Row]:
    for name, lock, names in (("three", 0, "bob,carol,alice"), ("two_leaders", 1, "carol,alice,bob"), ("two_payments", 0, "bob,alice")):
        made = headers()[name][1]
        secret, path, sigs = key_of(name, lock, names)
        for at, sig in enumerate(sigs):
            inner = sigs[at + 1] if at + 1 < len(sigs) else b""
            message = message_of(deal_id(made, True), lock, path[at:], secret, inner)
            told = {"deal": name, "id": deal_id(made, True).hex(), "seed": seeds()[path[at]].hex(), "party": path[at], "lock": lock}
            told |= {"suffix": path[at:], "secret": secret.hex(), "leader seed": seeds()[path[-1]].hex()}
            told |= {"public key": public_key(seeds()[path[at]], path[at], lock).hex(), "inner": inner.hex(), "message": message.hex()}
            yield told | {"digits": digits_of(message), "signature": sig.hex()}
