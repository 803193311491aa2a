"""A judgement: what an arbiter hands over, and what `party judge` answers."""
from __future__ import annotations

import json
from collections.abc import Iterator
from dataclasses import dataclass
from functools import partial

from .calls import Entry
from .header import Header
from .lines import Lines, demand, fixed, hexadecimal, joined, name
from .report import Broke, Finding, Late, Report, Unfinished
from .transcript import END, count_of, read_entry

STANDINGS, WEIGHTS = ("final", "provisional"), ("harmless", "counts")


@dataclass(frozen=True)
class AgreedDigest:
    """The digest that a party says it agreed on."""

    name: str
    digest: str

    @classmethod
    def of(cls, line: str) -> AgreedDigest:
        who, digest = fixed(line.split(" "), "agreed", None, None)
        return cls(name(who), hexadecimal(digest))

    def __str__(self) -> str:
        return f"agreed {self.name} {self.digest}"


@dataclass(frozen=True)
class Case:
    """What an arbiter hands over: what the wallets agreed on, the digest that each party told, and
    every ledger's entries."""

    header: Header
    context: tuple[str, ...]
    agreements: tuple[AgreedDigest, ...]
    ledgers: tuple[tuple[Entry, ...], ...]

    @classmethod
    def parse(cls, text: str | bytes) -> Case:
        lines = Lines(text)
        header = lines.read(Header.of)
        context: list[str] = []
        agreements: list[AgreedDigest] = []
        while lines.begins("about"):
            context.append(lines.next())
        while lines.begins("agreed"):
            agreements.append(lines.read(AgreedDigest.of))
        ledgers = []
        for arc, ends in enumerate(header.ends):
            count = lines.read(partial(count_of, arc))
            ledgers.append(tuple(read_entry(lines, header, ends) for _ in range(count)))
        lines.exactly(END)
        lines.end()
        return cls(header, tuple(context), tuple(agreements), tuple(ledgers))

    def lines(self) -> Iterator[str]:
        yield self.header.line
        yield from self.context
        yield from map(str, self.agreements)
        for arc, entries in enumerate(self.ledgers):
            yield f"ledger {arc} {len(entries)}"
            yield from map(str, entries)
        yield END

    def __str__(self) -> str:
        return joined(self.lines())


@dataclass(frozen=True)
class Mark:
    """What is told of a finding beside its line. It is final where every ledger is above the
    horizon. A harmless one is a publish that was withheld because it could only have hurt."""

    is_final: bool
    is_harmless: bool

    @classmethod
    def of(cls, at: int, line: str) -> Mark:
        standing, weight = fixed(line.split(" "), "finding", str(at), None, None)
        demand(standing in STANDINGS, f"{standing!r} is no standing")
        demand(weight in WEIGHTS, f"{weight!r} is no weight")
        return cls(standing == "final", weight == "harmless")

    def line(self, at: int) -> str:
        return f"finding {at} {STANDINGS[not self.is_final]} {WEIGHTS[not self.is_harmless]}"


def digest_of(word: str, line: str) -> str:
    (digest,) = fixed(line.split(" "), word, None)
    return hexadecimal(digest)


def fields_of(found: Finding) -> dict[str, object]:
    """A finding's fields, as JSON has them."""
    if isinstance(found, Unfinished):
        return {"kind": "unfinished", "ledger": found.arc, "height": found.height}
    if isinstance(found, Late):
        lock = {} if found.lock is None else {"lock": found.lock}
        return {"kind": "late", "party": found.name, "rule": found.rule, **lock, "ledger": found.arc, "due": found.due}
    return {"kind": "broke" if isinstance(found, Broke) else "forged", "party": found.name, "ledger": found.arc, "entry": found.entry}


@dataclass(frozen=True)
class Judgement:
    """Which deal it is, the digest of what wallets agreed on, the report of the audit, and a mark for
    each finding."""

    deal: str
    agree: str
    report: Report
    marks: tuple[Mark, ...]

    @classmethod
    def parse(cls, text: str | bytes) -> Judgement:
        lines = Lines(text)
        deal, agree = lines.read(partial(digest_of, "deal")), lines.read(partial(digest_of, "agree"))
        report = Report.read(lines)
        marks = tuple(lines.read(partial(Mark.of, at)) for at in range(len(report.findings)))
        lines.end()
        return cls(deal, agree, report, marks)

    @property
    def found(self) -> tuple[tuple[Finding, Mark], ...]:
        """Each finding with its mark."""
        return tuple(zip(self.report.findings, self.marks))

    def json(self) -> str:
        """The same as JSON, on one line: what `party judge --json` writes."""
        parties = [{"name": it.name, "conforming": it.role == "conforming", "outcome": it.outcome} for it in self.report.parties]
        found: list[dict[str, object]] = [fields_of(it) | {"final": mark.is_final, "harmless": mark.is_harmless} for it, mark in self.found]
        told = {"deal": self.deal, "agree": self.agree, "parties": parties, "findings": found, "report": str(self.report)}
        return json.dumps(told, separators=(",", ":")) + "\n"

    def lines(self) -> Iterator[str]:
        yield f"deal {self.deal}"
        yield f"agree {self.agree}"
        yield from self.report.lines()
        for at, mark in enumerate(self.marks):
            yield mark.line(at)

    def __str__(self) -> str:
        return joined(self.lines())
