"""The jobs that several scripts measure: rings, the digraphs of 24 parties, the largest deal, and
swaps on shared chains.

A header is a value, of which `line_of` makes the line.
"""
from __future__ import annotations

import json
import sys
from pathlib import Path
from typing import Any, Callable, Iterable, Mapping, Sequence

sys.dont_write_bytecode = True
from measure import answer
from random_jobs import Arcs, Header, line_of, swaps_text
from signer import digest, public_key, secret_of

PARTIES, CHAINS, SWAPS = 24, 32, 8
# What is said of a party beside its name
Said = Mapping[str, object]


def name_of(party: int) -> str:
    return f"p{party}"


def seed_of(party: int) -> bytes:
    return digest(b"seed", bytes([party]))


def named(said: Iterable[Said]) -> list[dict[str, object]]:
    """The parties of a header, each with what is said of it."""
    return [{"name": name_of(party), **more} for party, more in enumerate(said)]


def nobody(job: bytes) -> bytes:
    """The job's header with parties that do nothing, so that each race of it has the same text."""
    header = json.loads(job.split(b"\n")[0])
    for party in header["parties"]:
        party["actor"] = "manual"
    return line_of(header)


# ---- timelocks


def timelocks_header(arcs: Arcs, amount: int, hashlock: str, said: Iterable[Said]) -> Header:
    """24 parties, led by party 0. Each arc between others leads to the higher number."""
    far = {0: 0}
    for party in reversed(range(1, PARTIES)):
        far[party] = 1 + max(far[to] for payer, to in arcs if payer == party)
    start, delta, bound = 10, 1, PARTIES - 1
    return {
        "swap": 1, "mode": "timelocks", "start": start, "delta": delta, "bound": bound,
        "parties": named(said),
        "arcs": [{"from": name_of(payer), "to": name_of(to), "amount": amount,
                  "timelock": start + (bound + 1 + far[to]) * delta} for payer, to in arcs],
        "leaders": [{"party": name_of(0), "hashlock": hashlock}],
    }


def chorded_ring() -> Arcs:
    """From each party to the next four, but for the arcs that jump over party 0: so it alone cuts
    every cycle open."""
    ends = [(party, (party + step) % PARTIES) for party in range(PARTIES) for step in (1, 2, 3, 4) if party == 0 or party + step <= PARTIES]
    return list(dict.fromkeys(ends))


# The secret is 32 zeros
HASHLOCK = "66687aadf862bd776c8fc18b8e9f8e20089714856ee233b3902a591d0d5f2925"


def chorded_header() -> Header:
    """The header over a ring with chords, whose parties do nothing by themselves."""
    return timelocks_header(chorded_ring(), 10**6, HASHLOCK, [{"actor": "manual"}] * PARTIES)


def conforming_said() -> tuple[list[Said], str]:
    """What is said of parties that conform and all have one seed, and the hashlock of its secret."""
    seed = b"\x11" * 32
    return [{"actor": "conforming", "seed": seed.hex()}] * PARTIES, digest(secret_of(seed)).hex()


# ---- hashkeys


def hashkeys_header(seeds: Sequence[bytes], arcs: Arcs, amount: int, said: Iterable[Said], leaders: Sequence[int], **fields: object) -> Header:
    """With the keys and secrets of these seeds."""
    return {
        "swap": 1, "mode": "hashkeys", **fields,
        "parties": named(said),
        "arcs": [{"from": name_of(payer), "to": name_of(to), "amount": amount} for payer, to in arcs],
        "leaders": [{"party": name_of(it), "hashlock": digest(secret_of(seeds[it])).hex()} for it in leaders],
        "keys": [[public_key(seed, party, lock).hex() for lock in range(len(leaders))] for party, seed in enumerate(seeds)],
    }


def ring(parties: int) -> Arcs:
    return [(party, (party + 1) % parties) for party in range(parties)]


def ring_header(parties: int, said: Callable[[int], Said], **fields: object) -> Header:
    """A ring whose first party leads."""
    seeds = [seed_of(party) for party in range(parties)]
    return hashkeys_header(seeds, ring(parties), 1, map(said, range(parties)), [0], **fields)


def largest_header(finish: str, version: int = 1) -> Header:
    """The largest accepted deal of a version: 24 or 32 parties with arcs to the next four, of which
    8 lead. All conform."""
    parties = {1: PARTIES, 2: 32}[version]
    seeds = [seed_of(party) for party in range(parties)]
    arcs = [(party, (party + step) % parties) for party in range(parties) for step in (1, 2, 3, 4)]
    leaders = [first + step for first in (0, parties // 2) for step in range(4)]
    said = [{"seed": seed.hex()} for seed in seeds]
    return hashkeys_header(seeds, arcs, 10**12, said, leaders, swap=version, start=1_000, delta=100, bound=64, finish=finish)


def hashing_job(rounds: int) -> tuple[bytes, int]:
    """Each party publishes, and then crafts in each round a hashkey along the ring to the leader,
    whose stated key isn't its own; and the ticks of a round of its race.

    So a turn makes the keys of all on the path, and the ledger verifies every signature until the
    last one is wrong.
    """

    def said(party: int) -> dict[str, Any]:
        path = [name_of(it) for it in range(party, PARTIES)] if party else []
        craft = {"do": "craft", "arc": (party - 1) % PARTIES, "lock": 0, "via": [*path, name_of(0)]}
        script: list[dict[str, Any]] = [{"do": "publish", "arc": party}, *[craft] * (rounds - 1)]
        return {"actor": {"script": script}, "seed": seed_of(party).hex()}

    header = ring_header(PARTIES, said, start=100, delta=100, bound=PARTIES - 1, finish="stop")
    header["keys"][0] = [digest(b"another key").hex()]
    horizon = 100 + 2 * PARTIES * 100
    return line_of(header), horizon // (rounds - 1)


# ---- swaps on shared chains

Places = list[list[int]]


def numbered(program: Path) -> list[Header]:
    """The headers of eight numbers, all of whose parties conform."""
    words = ["gen", "--parties", str(PARTIES), "--events", "0", "--seed"]
    return [json.loads(answer(program, [*words, str(number)])) for number in range(1, SWAPS + 1)]


def in_turn(headers: Sequence[Header]) -> Places:
    """A chain for each arc of each swap, all chains in turn."""
    return [[(at + 5 * swap) % CHAINS for at in range(len(header["arcs"]))] for swap, header in enumerate(headers)]


def on_chains(headers: Sequence[Header], places: Places, finish: str, events: Iterable[bytes] = ()) -> bytes:
    """The text of the swaps on 32 chains, on which each party has an account with just the units of
    the arcs that it pays for, and of their events."""
    chains = [{name_of(party): 0 for party in range(PARTIES)} for _ in range(CHAINS)]
    for header, places_of in zip(headers, places):
        for arc, place in zip(header["arcs"], places_of):
            chains[place][arc["from"]] += arc["amount"]
    return swaps_text(chains, headers, places, finish, events)
