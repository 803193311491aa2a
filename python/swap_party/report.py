"""A report: what a run or an audit writes of a swap."""
from __future__ import annotations

from collections.abc import Iterator
from dataclasses import dataclass, replace
from typing import Union

from .calls import Reply
from .lines import Lines, demand, fixed, joined, name, number

FIRST = "swap report 1"
ROLES, OUTCOMES = ("conforming", "deviator"), ("open", "NoDeal", "FreeRide", "Underwater", "Deal", "Discount")
BARE = ("publish correct", "publish wrong", "claim", "refund")
RULES = ("publish", "claim", "refund")


@dataclass(frozen=True)
class Done:
    """A call as a report tells it. `lock` and `via` are an unlock's, `units` and `to` a
    transfer's."""

    height: int
    party: str
    what: str
    reply: Reply
    lock: int | None = None
    via: tuple[str, ...] = ()
    units: int | None = None
    to: str | None = None

    @classmethod
    def of(cls, line: str) -> Done:
        words, said = told_of(line)
        demand(len(words) >= 3, "the line is no call")
        height, party, what, *rest = words
        made = number(height), name(party)
        if " ".join([what, *rest]) in BARE:
            return cls(*made, " ".join([what, *rest]), said)
        if what == "unlock" and len(rest) == 1:
            return cls(*made, what, said, lock=number(rest[0]))
        if what == "unlock":
            lock, via = fixed(rest, None, "via", None)
            return cls(*made, what, said, lock=number(lock), via=tuple(map(name, via.split(","))))
        demand(what == "transfer", f"{what!r} is no call")
        units, to = fixed(rest, None, "to", None)
        return cls(*made, what, said, units=number(units), to=name(to))

    def __str__(self) -> str:
        more = ""
        if self.what == "unlock":
            more = f" {self.lock}" + f" via {','.join(self.via)}" * bool(self.via)
        elif self.what == "transfer":
            more = f" {self.units} to {self.to}"
        return f"{self.height} {self.party} {self.what}{more}: {self.reply}"


def told_of(line: str) -> tuple[list[str], Reply]:
    """The words of a call, and its reply."""
    call, colon, reply = line.partition(": ")
    demand(colon, "the line is no call with a reply")
    return call.split(" "), Reply.of(reply.split(" "))


@dataclass(frozen=True)
class Ledger:
    """An arc's ledger: its calls, and how it ended."""

    party: str
    counterparty: str
    amount: int
    calls: tuple[Done, ...]
    height: int
    balances: tuple[int, int]
    held: int

    @classmethod
    def read(cls, lines: Lines, arc: int) -> Ledger:
        one, two, amount = lines.read(lambda line: arc_words(line, arc))
        calls = []
        while not lines.begins("end"):
            calls.append(lines.read(lambda line: call_between(line, one, two)))
        height, left, right, held = lines.read(lambda line: end_words(line, one, two))
        return cls(one, two, amount, tuple(calls), height, (left, right), held)

    def lines(self, arc: int) -> Iterator[str]:
        yield f"ledger {arc} {self.party} -> {self.counterparty} amount {self.amount}"
        yield from map(str, self.calls)
        yield f"end height {self.height} {self.party} {self.balances[0]} {self.counterparty} {self.balances[1]} held {self.held}"


def call_between(line: str, one: str, two: str) -> Done:
    """A call of one of an arc's two parties, which pays nobody else."""
    done = Done.of(line)
    demand(done.party in (one, two) and done.to in (None, one, two), "the call isn't between the parties of its ledger")
    return done


def arc_words(line: str, arc: int) -> tuple[str, str, int]:
    one, two, amount = fixed(line.split(" "), "ledger", str(arc), None, "->", None, "amount", None)
    return name(one), name(two), number(amount)


def end_words(line: str, one: str, two: str) -> list[int]:
    return [number(word) for word in fixed(line.split(" "), "end", "height", None, one, None, two, None, "held", None)]


@dataclass(frozen=True)
class Ended:
    """How a party ended."""

    name: str
    role: str
    outcome: str

    @classmethod
    def of(cls, line: str) -> Ended:
        who, role, outcome = fixed(line.split(" "), "party", None, None, None)
        demand(role.endswith(":") and role[:-1] in ROLES, f"{role!r} is no role")
        demand(outcome in OUTCOMES, f"{outcome!r} is no outcome")
        return cls(name(who), role[:-1], outcome)

    def __str__(self) -> str:
        return f"party {self.name} {self.role}: {self.outcome}"


@dataclass(frozen=True)
class Broke:
    """A conforming party broke its conduct at that entry."""

    name: str
    arc: int
    entry: int

    def __str__(self) -> str:
        return f"broke {self.name} on {self.arc} entry {self.entry}"


@dataclass(frozen=True)
class Late:
    """A conforming party was late by a rule; `lock` is an unlock's."""

    name: str
    rule: str
    arc: int
    due: int
    lock: int | None = None

    def __str__(self) -> str:
        return f"late {self.name} {self.rule}{'' if self.lock is None else f' {self.lock}'} on {self.arc} due {self.due}"


@dataclass(frozen=True)
class Forged:
    """A signature or a secret of the party was used there that it never presented."""

    name: str
    arc: int
    entry: int

    def __str__(self) -> str:
        return f"forged {self.name} on {self.arc} entry {self.entry}"


@dataclass(frozen=True)
class Unfinished:
    """The ledger ended before the swap's last height had passed."""

    arc: int
    height: int

    def __str__(self) -> str:
        return f"unfinished {self.arc} height {self.height}"


Finding = Union[Broke, Late, Forged, Unfinished]


def finding_of(line: str) -> Finding:
    words = line.split(" ")
    if words[0] == "unfinished":
        arc, height = fixed(words, "unfinished", None, "height", None)
        return Unfinished(number(arc), number(height))
    if words[0] == "late" and words[2:3] == ["unlock"]:
        who, lock, arc, due = fixed(words, "late", None, "unlock", None, "on", None, "due", None)
        return Late(name(who), "unlock", number(arc), number(due), number(lock))
    if words[0] == "late":
        who, rule, arc, due = fixed(words, "late", None, None, "on", None, "due", None)
        demand(rule in RULES, f"{rule!r} is no rule")
        return Late(name(who), rule, number(arc), number(due))
    demand(words[0] in ("broke", "forged"), "the line is no finding")
    who, arc, entry = fixed(words, words[0], None, "on", None, "entry", None)
    place = name(who), number(arc), number(entry)
    return Broke(*place) if words[0] == "broke" else Forged(*place)


@dataclass(frozen=True)
class Report:
    mode: str
    start: int
    delta: int
    bound: int
    ledgers: tuple[Ledger, ...]
    parties: tuple[Ended, ...]
    findings: tuple[Finding, ...]

    @classmethod
    def parse(cls, text: str | bytes) -> Report:
        lines = Lines(text)
        told = cls.read(lines)
        lines.end()
        return told

    @classmethod
    def read(cls, lines: Lines) -> Report:
        """Reads one that stands next."""
        lines.exactly(FIRST)
        mode, times = lines.read(deal_words)
        ledgers: list[Ledger] = []
        parties: list[Ended] = []
        findings: list[Finding] = []
        while lines.begins("ledger"):
            ledgers.append(Ledger.read(lines, len(ledgers)))
        while lines.begins("party"):
            parties.append(lines.read(Ended.of))
        told = cls(mode, *times, tuple(ledgers), tuple(parties), ())
        if not told.is_of_its_parties():
            raise lines.refuse("two parties are wanted, each once, and every name before is one of theirs")
        while lines.begins("broke", "late", "forged", "unfinished"):
            findings.append(lines.read(told.finding_in))
        lines.exactly(f"findings {len(findings)}")
        return replace(told, findings=tuple(findings))

    def is_of_its_parties(self) -> bool:
        """Whether its parties are two at least, each stands once, and the names in its ledgers are
        theirs."""
        names = {it.name for it in self.parties}
        named = {name for it in self.ledgers for name in (it.party, it.counterparty)}
        named |= {name for it in self.ledgers for call in it.calls for name in call.via}
        return len(self.ledgers) > 1 and len(self.parties) > 1 and len(names) == len(self.parties) and named <= names

    def finding_in(self, line: str) -> Finding:
        """A finding of one of its parties on one of its ledgers."""
        found = finding_of(line)
        demand(isinstance(found, Unfinished) or found.name in {it.name for it in self.parties}, "the finding's name is no party's")
        demand(found.arc < len(self.ledgers), "the finding's ledger isn't there")
        return found

    def outcome(self, name: str) -> str:
        """How the party of that name ended."""
        return next(it.outcome for it in self.parties if it.name == name)

    def lines(self) -> Iterator[str]:
        yield from (FIRST, f"swap {self.mode} start {self.start} delta {self.delta} bound {self.bound}")
        for arc, ledger in enumerate(self.ledgers):
            yield from ledger.lines(arc)
        yield from map(str, self.parties)
        yield from map(str, self.findings)
        yield f"findings {len(self.findings)}"

    def __str__(self) -> str:
        return joined(self.lines())


def deal_words(line: str) -> tuple[str, tuple[int, int, int]]:
    mode, start, delta, bound = fixed(line.split(" "), "swap", None, "start", None, "delta", None, "bound", None)
    demand(mode in ("timelocks", "hashkeys"), f"{mode!r} is no mode")
    return mode, (number(start), number(delta), number(bound))
