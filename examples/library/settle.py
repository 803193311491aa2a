#!/usr/bin/env python3
"""Settles a swap whose parties all keep to the protocol, by the library alone, as settle.c does.

usage: settle.py LIBRARY < LINES > TRANSCRIPT

LIBRARY is the shared object. LINES are the header as a transcript has it, and then each party's
name and seed, a line each. The package swap_party (../../python) has to be found, as by PYTHONPATH.
"""
from __future__ import annotations

import sys

from swap_party import Answer, Asked, Called, Due, Header, Keep, Ledger, Library, Note, Party, Publish, Sent, Terms, Tick, Transcript
from swap_party.answer import Told
from swap_party.calls import Entry


class Swap:
    """Every ledger of a swap, and what each party wrote down."""

    def __init__(self, wallet: Party, header: Header, seeds: dict[str, bytes]) -> None:
        self.wallet, self.header, self.seeds = wallet, header, seeds
        self.entries: list[list[Entry]] = [[] for _ in header.arcs]
        self.notes: dict[str, list[Note]] = {name: [] for name in seeds}
        # (an owner reads the terms; here all agree to them as they are)
        self.agreed = {name: Terms.parse(wallet.terms(name, header.line)).agree for name in seeds}

    def transcript(self) -> Transcript:
        return Transcript(self.header, tuple(map(tuple, self.entries)))

    def ledgers_of(self, name: str) -> tuple[Ledger, ...]:
        """What stands on the ledgers next to a party."""
        near = [arc for arc, ends in enumerate(self.header.arcs) if name in (ends.party, ends.counterparty)]
        return tuple(Ledger(arc, tuple(map(str, self.entries[arc]))) for arc in near)

    def obey(self, name: str, told: Told) -> bool:
        """Keeps what is to be kept and writes down a publish, before anything goes out, and
        presents a call: whether that was anything."""
        if isinstance(told, Keep):
            self.notes[name].append(told)
        elif isinstance(told, Due):
            if isinstance(told.call, Publish):
                self.notes[name].append(Sent(told.arc))
            self.entries[told.arc].append(Called(told.party, told.call))
        return isinstance(told, (Keep, Due))

    def turn(self, name: str) -> bool:
        """Asks what is due, and obeys it line by line: whether anything was."""
        asked = Asked(self.agreed[name], tuple(self.notes[name]), self.header.line, (), self.ledgers_of(name))
        answer = Answer.parse(self.wallet.next(name, self.seeds[name], str(asked)))
        return any([self.obey(name, told) for told in answer.told])

    def settle(self) -> Transcript:
        """Lets the parties act at each height in turn, up to the last one."""
        for _ in range(self.header.horizon + 1):
            while any([self.turn(name) for name in self.seeds]):
                pass
            for entries in self.entries:
                entries.append(Tick(1))
        return self.transcript()


def main() -> None:
    header, *lines = sys.stdin.read().splitlines()
    library = Library(sys.argv[1])
    library.check(header)
    seeds = {name: bytes.fromhex(seed) for name, seed in (line.split(" ") for line in lines)}
    sys.stdout.write(str(Swap(library, Header.of(header), seeds).settle()))


if __name__ == "__main__":
    main()
