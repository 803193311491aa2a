"""A transcript: what stands on every ledger of a swap."""
from __future__ import annotations

from collections.abc import Iterator
from dataclasses import dataclass
from functools import partial

from .calls import Called, Entry, Publish, Transfer, Unlock, entry_of
from .header import Header
from .lines import Lines, demand, fixed, joined, number

FIRST, END, MOST_COUNT = "swap transcript 1", "end", 20_064


@dataclass(frozen=True)
class Transcript:
    """The header, and each ledger's entries from the first one on."""

    header: Header
    ledgers: tuple[tuple[Entry, ...], ...]

    @classmethod
    def parse(cls, text: str | bytes) -> Transcript:
        lines = Lines(text)
        told = cls.read(lines)
        lines.end()
        return told

    @classmethod
    def read(cls, lines: Lines) -> Transcript:
        """Reads one that stands next."""
        lines.exactly(FIRST)
        header = lines.read(Header.of)
        ledgers = []
        for arc, ends in enumerate(header.ends):
            count = lines.read(partial(count_of, arc))
            ledgers.append(tuple(read_entry(lines, header, ends) for _ in range(count)))
        lines.exactly(END)
        return cls(header, tuple(ledgers))

    def lines(self) -> Iterator[str]:
        yield from (FIRST, self.header.line)
        for arc, entries in enumerate(self.ledgers):
            yield f"ledger {arc} {len(entries)}"
            yield from map(str, entries)
        yield END

    def __str__(self) -> str:
        return joined(self.lines())


def count_of(arc: int, line: str) -> int:
    (count,) = fixed(line.split(" "), "ledger", str(arc), None)
    return number(count, MOST_COUNT)


def read_entry(lines: Lines, header: Header, ends: tuple[int, int]) -> Entry:
    """An entry that fits the deal."""

    def fitting(line: str) -> Entry:
        entry = entry_of(line)
        if isinstance(entry, Called):
            fit(entry, header, ends)
        return entry

    return lines.read(fitting)


def fit(entry: Called, header: Header, ends: tuple[int, int]) -> None:
    """The call's party touches the arc, and the call fits the deal."""
    call, locks, longest = entry.call, len(header.leaders), 24 if header.version == 1 else 32
    demand(entry.party in ends, "the party doesn't touch the arc")
    if isinstance(call, Publish):
        demand(len(call.locks) == locks, "a publish has a lock per leader")
    elif isinstance(call, Transfer):
        demand(call.to in ends, "the transfer goes to neither party of the arc")
    elif isinstance(call, Unlock):
        demand(call.key.lock < locks, "the deal has no such lock")
        demand(max(len(call.key.path), len(call.key.sigs)) <= longest, "the path is too long")
        demand(all(it < len(header.parties) for it in call.key.path), "the deal has no such party")
