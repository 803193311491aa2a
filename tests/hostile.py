"""Inputs of the program `party` that nobody should send: mutated, cut and binary ones, of each of
its words. It ends with a status, and of what is refused it writes nothing. Where the model is asked
too, it answers the same.

`bench/hostile` has many more of them, and the largest.
"""
from __future__ import annotations

import random
import re
import sys
from functools import partial
from typing import Iterator

sys.dont_write_bytecode = True
from program import Answer, Program, Test, must
from texts import signed, stored

SEED = b"seed 2bd806c97f0e00af1a1fc3328fa763a9269723c8db8fac4f93af71db186d6e90\n"
# What each word reads, of which nothing is refused
INPUTS: dict[str, tuple[list[str], bytes]] = {
    "keys": (["keys", "alice"], SEED + stored("three_way.rows").split("\n")[0].encode() + b"\n"),
    "deal": (["deal"], stored("three_way.rows").encode()),
    "terms": (["terms", "alice"], stored("three_way.agreed").encode()),
    "next": (["next", "alice"], signed(stored("alice.asked")).encode()),
    "next with timelocks": (["next", "carol"], stored("carol_timelocks.asked").encode()),
}
STATUSES = {0, 1, 3, 7}
PIECES = b"\0", b"\xff", b"\n", b" ", b"0", b"-", b",", b"=", b"accepted", b"publish", b"\xe2\x80\xae", b"18446744073709551616", b"{", b'"', b"[" * 200


def mutated(chance: random.Random, text: bytes) -> bytes:
    """A text with an edit of some kind."""
    at, lines = chance.randrange(len(text) + 1), text.split(b"\n")
    kind = chance.randrange(7)
    if kind == 0:
        return text[:at]
    if kind == 1:
        return text[:at] + chance.choice(PIECES) + text[at:]
    if kind == 2:
        return text[:at] + chance.randbytes(chance.randint(1, 40)) + text[at + chance.randint(0, 40) :]
    if kind == 3:
        return text[:at] + text[at + chance.choice([1, 2, 30, 1000]) :]
    if kind == 4:
        number = chance.choice(list(re.finditer(rb"(?<![0-9a-f])[0-9]+(?![0-9a-f])|$", text)))
        return text[: number.start()] + str(chance.choice([0, 1, 7, 255, 10**6, 10**12 + 1, 2**32, 2**64])).encode() + text[number.end() :]
    one, other = chance.randrange(len(lines)), chance.randrange(len(lines))
    if kind == 5:
        lines[one], lines[other] = lines[other], lines[one]
    else:
        lines[one:one] = [lines[other]] * chance.choice([1, 1, 2, 50])
    return b"\n".join(lines)


def must_end_well(found: Answer, asked: str) -> None:
    must(found.status in STATUSES, f"{asked}: status {found.status}, {found.err!r}")
    must(found.status in (0, 1) or not found.out, f"{asked}: of what is refused it wrote {found.out[:200]!r}")
    must((found.status in (0, 1)) != bool(found.err) and found.err.count(b"\n") <= 1, f"{asked}: {found.err!r}")


def mutations(word: str, first: int, count: int, program: Program) -> None:
    """Mutations of an input, some of them of others; of a wallet's most often of its ledgers, as one
    of what was agreed on is refused before them."""
    words, text = INPUTS[word]
    for number in range(first, first + count):
        chance = random.Random(f"{word} {number}")
        at = text.index(b"ledger 0") if word.startswith("next") and chance.random() < 0.7 else 0
        hostile = mutated(chance, text[at:])
        while chance.random() < 0.3:
            hostile = mutated(chance, hostile)
        hostile = text[:at] + hostile
        must_end_well(program.run(words, hostile), f"{word} {number}")


def binary(word: str, program: Program) -> None:
    """Bytes of any kind, as lines or not, and none."""
    words, text = INPUTS[word]
    chance = random.Random(word)
    noise = chance.randbytes(100_000)
    for hostile in b"", b"\n", b"\0", b"\n" * 100_000, noise, noise + b"\n", text + noise[:1000] + b"\n", text * 2:
        must_end_well(program.run(words, hostile), f"{word}: {hostile[:40]!r}")


def tests() -> Iterator[tuple[str, Test]]:
    for word in INPUTS:
        yield f"hostile: mutations of what `{word}` reads", partial(mutations, word, 0, 40)
        yield f"hostile: bytes in place of what `{word}` reads", partial(binary, word)
