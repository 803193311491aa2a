#!/usr/bin/env python3
"""A wallet that is told its chains by lines, and tells its calls, as `tests/wallet` asks of any: the
engine `swap_party.Wallet` behind them.

usage: by_lines.py NAME FOLDER     (tests/wallet says which lines)
"""
from __future__ import annotations

import os
import sys
from collections.abc import Iterator

sys.dont_write_bytecode = True
HERE = os.path.dirname(os.path.abspath(__file__))
PARTY = os.environ.get("PARTY", os.path.join(HERE, "..", "..", "party"))
sys.path.insert(1, os.path.join(HERE, "..", "..", "python"))
from swap_party import Library, Party, Program, Reading, Seed, Wallet  # noqa: E402
from swap_party.calls import Call  # noqa: E402


def say(line: str) -> None:
    print(line, flush=True)


class Lines:
    """What was told, for the engine."""

    def __init__(self) -> None:
        self.readings: dict[int, Reading] = {}
        self.margins: dict[int, int] = {}

    def read(self, arc: int) -> Reading:
        return self.readings.get(arc, Reading(()))

    def present(self, arc: int, call: Call, until: int | None) -> None:
        say(f"call {arc} {call}")

    def sleep(self, until: int | None) -> None:
        raise AssertionError("it is told when to look again")


def told_lines() -> Iterator[str]:
    for line in sys.stdin:
        yield line.rstrip("\n")


def main() -> None:
    name, folder = sys.argv[1:]
    lines, chains = told_lines(), Lines()
    seed = Seed.of_hex(next(lines).removeprefix("seed "))
    party: Party
    if os.environ.get("SWAP_PARTY_LIBRARY"):
        party = Library()
    else:
        party = Program(PARTY)
    context: list[str] = []
    with Wallet(party, name, seed, os.path.join(folder, "notes"), chains, allow_unproved=True, tell=lambda line: None) as wallet:
        for line in lines:
            word, _, said = line.partition(" ")
            if word == "offer":
                say(wallet.row(said).rstrip("\n"))
            elif word == "about":
                context.append(line)
            elif word == "header":
                say(f"agree {wallet.agree(said, context).agree}")
            elif word == "go":
                wallet.margins.update(chains.margins)
                step = wallet.step()
                say("again" if step.has_kept else "rest")
            else:
                take(chains, word, said, lines)


def take(chains: Lines, word: str, said: str, lines: Iterator[str]) -> None:
    """Takes a ledger, its chain's height, or in how many heights a call lands there."""
    arc, number = map(int, said.split(" "))
    if word == "ledger":
        chains.readings[arc] = Reading(tuple(next(lines) for _ in range(number)))
    elif word == "now":
        chains.readings[arc] = Reading(chains.readings[arc].lines, number)
    else:
        chains.margins[arc] = number


if __name__ == "__main__":
    main()
