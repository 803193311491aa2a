"""Campaigns: the runs of many numbers, by parts that workers take. Each part that is done is kept,
so that a campaign that was stopped goes on behind it."""
from __future__ import annotations

import json
from collections.abc import Iterator
from dataclasses import dataclass
from functools import partial

from swap_party import NotOfTheFormatError, Report, Summary
from swap_party.summary import OUTCOMES

from .database import Database, StateError
from .offers import offer
from .pool import Crew
from .progress import Progress
from .tally import FINDINGS, NOTHING, Tally
from .work import Programs, run_swap

TABLES = (
    "create table if not exists campaign (terms text not null)",
    "create table if not exists part (number bigint primary key, tally text not null)",
)
# How many numbers a worker takes at once
PART = 200
GEN, OFFERS = "gen", "offers"


@dataclass(frozen=True)
class Terms:
    """What is run: the numbers, and what `gen` takes beside them."""

    kind: str
    first: int
    numbers: int
    parties: int
    events: int

    def parts(self) -> Iterator[tuple[int, range]]:
        for at in range(0, self.numbers, PART):
            yield at // PART, range(self.first + at, self.first + min(at + PART, self.numbers))


@dataclass(frozen=True)
class Ran:
    """How one number ended."""

    status: int
    reason: str
    sums: dict[str, int]


def judged(status: int, told: str, sums: dict[str, int]) -> Ran:
    """A run by its status, and the word with which its reason begins."""
    reasons = {0: NOTHING, 1: FINDINGS, 3: told.partition("refused: ")[2].split(" ")[0]}
    return Ran(status, reasons.get(status) or told or "it told nothing", sums)


def ran_gen(terms: Terms, programs: Programs, number: int) -> Ran:
    """The summary of the job that a number gives."""
    words = ["gen", "--seed", str(number), "--parties", str(terms.parties), "--events", str(terms.events), "--summary"]
    done = run_swap(programs, words, "")
    if done.status > 1 or done.status < 0:
        return judged(done.status, done.told, {})
    try:
        it = Summary.parse(done.output)
    except NotOfTheFormatError as why:
        return Ran(4, f"no summary: {why}", {})
    sums = {"parties": it.parties, "arcs": it.arcs, "leaders": it.leaders, "events": it.events, "entries": it.entries, "refused": it.refused}
    return judged(done.status, "", {**sums, **dict(zip(OUTCOMES, it.outcomes)), "findings": it.findings})


def ran_offer(programs: Programs, number: int) -> Ran:
    """The run of a random offer, if `make` takes it."""
    made = run_swap(programs, ["make"], offer(number) + "\n")
    done = run_swap(programs, ["run"], made.output) if made.status == 0 else made
    if done.status > 1 or done.status < 0:
        return judged(done.status, done.told, {})
    try:
        report = Report.parse(done.output)
    except NotOfTheFormatError as why:
        return Ran(4, f"no report: {why}", {})
    outcomes = [it.outcome for it in report.parties]
    sums = {"parties": len(report.parties), "arcs": len(report.ledgers), **{it: outcomes.count(it) for it in OUTCOMES}}
    return judged(done.status, "", {**sums, "findings": len(report.findings)})


def tallied(terms: Terms, programs: Programs, part: tuple[int, range]) -> tuple[int, Tally]:
    """What a worker answers for a part."""
    tally = Tally()
    for number in part[1]:
        it = ran_gen(terms, programs, number) if terms.kind == GEN else ran_offer(programs, number)
        tally.add(number, it.status, it.reason, it.sums)
    return part[0], tally


class Campaign:
    def __init__(self, database: Database, terms: Terms) -> None:
        self.database, self.terms = database, terms
        with database.step():
            for table in TABLES:
                database.change(table)
            begun = database.rows("select terms from campaign")
            if not begun:
                database.change("insert into campaign values (?)", repr(terms))
        if begun and begun != [(repr(terms),)]:
            raise StateError("the state is of a campaign with other numbers")

    def run(self, crew: Crew, progress: Progress) -> Tally:
        """Runs the parts that aren't done, and gives the tally of all."""
        done = {it for (it,) in self.database.rows("select number from part")}
        asked = [it for it in self.terms.parts() if it[0] not in done]
        progress.begin("numbers", len(done) * PART, self.terms.numbers)
        for part, tally in crew.each(partial(tallied, self.terms), asked):
            self.database.change("insert into part values (?, ?)", part, json.dumps(tally.told()))
            progress.step(PART)
        return Tally.of(Tally.read(json.loads(it)) for (it,) in self.database.rows("select tally from part order by number"))

    def told(self, tally: Tally) -> dict[str, object]:
        it = self.terms
        what = {"parties": it.parties, "events": it.events} if it.kind == GEN else {}
        return {"exchange_campaign": 1, "kind": it.kind, "from": it.first, "numbers": it.numbers, **what, **tally.told()}

    def text(self, tally: Tally) -> str:
        it = self.terms
        lines = ["exchange campaign 1", f"{it.kind} from {it.first} numbers {it.numbers}" + f" parties {it.parties} events {it.events}" * (it.kind == GEN)]
        for row in tally.rows():
            names = f": {' '.join(map(str, row['names']))}" if row["names"] else ""
            lines.append(f"status {row['status']} count {row['count']} {row['reason']}{names}")
        return "\n".join([*lines, *(f"sum {word} {number}" for word, number in sorted(tally.sums.items())), ""])


def status_of(tally: Tally) -> int:
    """The worst that came: 4 for a fault, 1 for a finding, 3 for a refusal."""
    statuses = {status for status, _ in tally.counts}
    if statuses - {0, 1, 3}:
        return 4
    return 1 if 1 in statuses else 3 if 3 in statuses else 0
