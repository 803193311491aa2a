"""The job of a number, and the key stream that it is drawn from. docs/FORMATS.md, 'A job from a
number'."""
from __future__ import annotations

import struct
from typing import Any, Iterator, Union

from .hashes import tagged


def turned(word: int, count: int) -> int:
    word &= 0xFFFFFFFF
    return (word << count | word >> 32 - count) & 0xFFFFFFFF


def quarter(state: list[int], a: int, b: int, c: int, d: int) -> None:
    """RFC 8439, section 2.1."""
    for x, y, z, count in ((a, b, d, 16), (c, d, b, 12), (a, b, d, 8), (c, d, b, 7)):
        state[x] = state[x] + state[y] & 0xFFFFFFFF
        state[z] = turned(state[z] ^ state[x], count)


def words_of(key: Any) -> Iterator[int]:
    """The key stream of ChaCha20 (RFC 8439, in Bernstein's layout: a counter of 64 bits, and stream
    0), word by word."""
    counter = 0
    while True:
        first = [*struct.unpack("<4I", b"expand 32-byte k"), *struct.unpack("<8I", key), counter & 0xFFFFFFFF, counter >> 32, 0, 0]
        state = list(first)
        for _ in range(10):
            for at in range(4):
                quarter(state, at, 4 + at, 8 + at, 12 + at)
            for at in range(4):
                quarter(state, at, 4 + (at + 1) % 4, 8 + (at + 2) % 4, 12 + (at + 3) % 4)
        yield from (word + start & 0xFFFFFFFF for word, start in zip(state, first))
        counter += 1


def plain_job(number: int, parties: int, events: int) -> tuple[dict[str, Any], list[dict[str, Union[int, str]]]]:
    """The plain header and the events of a number's job."""
    draws = words_of(number.to_bytes(8, "big") + bytes(24))
    leaders = 1 + next(draws) % min(3, parties - 1)
    arcs = drawn_arcs(draws, parties, leaders)
    names = ["p%d" % party for party in range(parties)]
    header = {"swap": 1, "mode": "hashkeys", "start": 20, "delta": 20, "bound": parties - 1, "finish": "fair"}
    header["parties"] = [{"name": names[it], "seed": tagged(8, number.to_bytes(8, "big"), bytes([it])).hex()} for it in range(parties)]
    header["arcs"] = [{"from": names[at], "to": names[to], "amount": 1 + next(draws) % 1000} for at, to in arcs]
    header["leaders"] = [{"party": names[it]} for it in range(leaders)]
    return header, [drawn_event(draws, names, arcs) for _ in range(events)]


def drawn_arcs(draws: Iterator[Any], parties: int, leaders: int) -> list[tuple[int, int]]:
    """The ring, and some arcs more, no two with the same ends, of which none leads among followers
    to a lesser number."""
    arcs = [(it, (it + 1) % parties) for it in range(parties)]
    for _ in range(parties):
        at, to = next(draws) % parties, next(draws) % parties
        if at != to and (at, to) not in arcs and (at < leaders or to < leaders or at < to):
            arcs.append((at, to))
    return arcs


def drawn_event(draws: Iterator[Any], names: list[str], arcs: list[tuple[int, int]]) -> dict[str, Union[int, str]]:
    """A tick, a look or an act."""
    kind, which = next(draws) % 8, next(draws)
    if kind == 0:
        return {"by": 1, "tick": which % len(arcs)}
    party = which % len(names)
    if kind <= 4:
        touching = [arc for arc, ends in enumerate(arcs) if party in ends]
        return {"arc": touching[next(draws) % len(touching)], "look": names[party]}
    return {"act": names[party]}
