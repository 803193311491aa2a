"""Several swaps on shared chains: the text that `many` reads, and the reports that it writes."""
from __future__ import annotations

from collections.abc import Iterator
from dataclasses import dataclass

from .header import json_object
from .lines import Lines, demand, fixed, joined, name, number
from .report import Report

FIRST, MOST_UNITS = "swap many 1", 10**15
EVENTS = ("tick", "pay", "sweep")


@dataclass(frozen=True)
class Account:
    name: str
    units: int


@dataclass(frozen=True)
class Chain:
    """A chain's accounts, in their order."""

    accounts: tuple[Account, ...]

    @classmethod
    def of(cls, line: str) -> Chain:
        words = line.split(" ")
        demand(words[0] == "chain" and len(words) % 2 == 1 and 5 <= len(words) <= 129, "a chain has 2 to 64 accounts")
        accounts = accounts_of(words[1:], MOST_UNITS)
        demand(len({it.name for it in accounts}) == len(accounts), "a name stands twice")
        return cls(accounts)

    def __str__(self) -> str:
        return " ".join(["chain", *map(account_words, self.accounts)])


def accounts_of(words: list[str], most: int) -> tuple[Account, ...]:
    return tuple(Account(name(who), number(units, most)) for who, units in zip(words[::2], words[1::2]))


def account_words(account: Account) -> str:
    return f"{account.name} {account.units}"


@dataclass(frozen=True)
class Swap:
    """The chain of each arc, and the header of the swap's job, which is JSON."""

    chains: tuple[int, ...]
    header: str

    @classmethod
    def read(cls, lines: Lines, count: int) -> Swap:
        chains = lines.read(lambda line: tuple(number(word, count - 1) for word in line.split(" ")[1:]))
        return cls(chains, lines.read(header_of))

    def lines(self) -> Iterator[str]:
        yield " ".join(["swap", *map(str, self.chains)])
        yield self.header


def header_of(line: str) -> str:
    """A header line as it stands, once it is seen to be JSON. What it has to say is asked of
    `check`."""
    json_object(line)
    return line


@dataclass(frozen=True)
class Many:
    """The text that `many` reads: chains, swaps, how they finish, and event lines."""

    chains: tuple[Chain, ...]
    swaps: tuple[Swap, ...]
    finish: str = "fair"
    events: tuple[str, ...] = ()

    @classmethod
    def parse(cls, text: str | bytes) -> Many:
        lines = Lines(text)
        chains: list[Chain] = []
        swaps: list[Swap] = []
        events: list[str] = []
        lines.exactly(FIRST)
        while lines.begins("chain"):
            chains.append(lines.read(Chain.of))
        while lines.begins("swap"):
            swaps.append(Swap.read(lines, len(chains)))
        (finish,) = lines.read(lambda line: fixed(line.split(" "), "finish", None))
        if finish not in ("stop", "fair") or not 1 <= len(chains) <= 32 or not 1 <= len(swaps) <= 8:
            raise lines.refuse("1 to 32 chains and 1 to 8 swaps stand before `finish stop` or `finish fair`")
        while lines.peek() is not None:
            events.append(lines.read(lambda line: event_of(line, chains, len(swaps))))
        lines.end()
        return cls(tuple(chains), tuple(swaps), finish, tuple(events))

    def lines(self) -> Iterator[str]:
        yield FIRST
        yield from map(str, self.chains)
        for swap in self.swaps:
            yield from swap.lines()
        yield f"finish {self.finish}"
        yield from self.events

    def __str__(self) -> str:
        return joined(self.lines())


def event_of(line: str, chains: list[Chain], swaps: int) -> str:
    """An event line as it stands, once its words are seen to be an event's."""
    word, _, rest = line.partition(" ")
    if word == "tick":
        chain, by = fixed(line.split(" "), "tick", None, None)
        number(chain, len(chains) - 1)
        demand(number(by, 1_000_000), "a tick is by 1 at least")
    elif word == "pay":
        chain, payer, to, units = fixed(line.split(" "), "pay", None, None, None, None)
        names = {it.name for it in chains[number(chain, len(chains) - 1)].accounts}
        demand({payer, to} <= names, "a name isn't on the chain")
        number(units, MOST_UNITS)
    elif word == "sweep":
        swap, arc = fixed(line.split(" "), "sweep", None, None)
        number(swap, swaps - 1)
        number(arc)
    else:
        number(word, swaps - 1)
        json_object(rest)
    return line


# ---- what is written


@dataclass(frozen=True)
class Left:
    """A chain at the end: its height, and what each account has free."""

    height: int
    accounts: tuple[Account, ...]

    @classmethod
    def of(cls, line: str, chain: int) -> Left:
        words = line.split(" ")
        demand(len(words) >= 8 and len(words) % 2 == 0, "a chain's line tells its height and its accounts")
        (height,) = fixed(words[:4], "chain", str(chain), "height", None)
        return cls(number(height), accounts_of(words[4:], (1 << 64) - 1))

    def line(self, chain: int) -> str:
        return " ".join([f"chain {chain} height {self.height}", *map(account_words, self.accounts)])


@dataclass(frozen=True)
class Reports:
    """The text that `many` writes: a report for each swap, and each chain as it ended."""

    reports: tuple[Report, ...]
    chains: tuple[Left, ...]

    @classmethod
    def parse(cls, text: str | bytes) -> Reports:
        lines = Lines(text)
        reports: list[Report] = []
        chains: list[Left] = []
        while lines.begins("swap"):
            lines.exactly(f"swap {len(reports)}")
            reports.append(Report.read(lines))
        while lines.begins("chain"):
            chains.append(lines.read(lambda line: Left.of(line, len(chains))))
        if not reports or not chains:
            raise lines.refuse("a swap and a chain are wanted")
        lines.exactly(f"findings {sum(len(it.findings) for it in reports)}")
        lines.end()
        return cls(tuple(reports), tuple(chains))

    def lines(self) -> Iterator[str]:
        for swap, report in enumerate(self.reports):
            yield f"swap {swap}"
            yield from report.lines()
        yield from (left.line(chain) for chain, left in enumerate(self.chains))
        yield f"findings {sum(len(it.findings) for it in self.reports)}"

    def __str__(self) -> str:
        return joined(self.lines())
