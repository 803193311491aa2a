"""Races, each told as how its parties end and what is found; rounds of many ticks."""
from __future__ import annotations

import sys
from functools import partial
from pathlib import Path

sys.dont_write_bytecode = True
from program import HERE, Program, Tests, must
from texts import asked, deal, edited

sys.path.insert(1, str(Path(HERE).parent / "python"))
from swap_party import Report  # noqa: E402
from swap_party.report import Unfinished  # noqa: E402

# carol opens bob's contract at height 48. The next round is at 64, when bob is too late to open
# alice's, unless he took his turn after carol's
LATE = (
    '"carol", => "carol","actor":{"script":[{"do":"publish","arc":2},{"do":"wait","arc":1,"height":48},'
    '{"do":"craft","arc":1,"lock":0,"via":["carol"],"onto":2},{"do":"claim","arc":1}]},'
)


def safe_report(text: str) -> Report:
    """The report behind the word for its status, in which nobody who conforms is underwater without
    being named."""
    report = Report.parse(text.partition("\n")[2])
    named = {it.name for it in report.findings if not isinstance(it, Unfinished)}
    for party in report.parties:
        is_lost = party.role == "conforming" and party.outcome == "Underwater"
        must(not is_lost or party.name in named, f"{party.name} is underwater and isn't named")
    return report


def raced(program: Program, job: str, ticks: int = 1) -> str:
    """The report of a race, as an audit of its transcript tells it."""
    status, _, transcript = asked(program, ["race", "--ticks", str(ticks), "--transcript"], job).partition("\n")
    audited = asked(program, ["audit"], transcript)
    told, _, report = audited.partition("\n")
    must(status in ("done", "named") and told == status, f"a race's status {status}, and an audit's {told}")
    safe_report(audited)
    return report


def raced_ends(program: Program, job: str) -> str:
    """How races of a job end, as the report of one tells and an audit of another's transcript."""
    told = ends_of(safe_report(asked(program, ["race", "--ticks", "1"], job)))
    audited = ends_of(Report.parse(raced(program, job)))
    must(told == audited, f"a report tells {told}, and an audit {audited}")
    return told


def ends_of(report: Report) -> str:
    """How each party ended, and what was found, without its ledger."""
    return " ".join([*(it.outcome for it in report.parties), *(str(it).partition(" on ")[0] for it in report.findings)])


def all_deal(program: Program) -> None:
    """Two rounds of five ticks fit in delta."""
    must(ends_of(Report.parse(raced(program, deal("hashkeys"), 5))) == "Deal Deal Deal", "not every deal")


def ends_somehow(ticks: int, program: Program) -> None:
    """Of rounds that are longer than delta allows no end is promised."""
    raced(program, deal("hashkeys"), ticks)


def names_who_is_late(program: Program) -> None:
    raced(program, edited(deal("hashkeys"), LATE), 16)


def tests() -> Tests:
    yield "a race in rounds of 5 ticks", all_deal
    for ticks in (6, 40, 1000):
        yield f"a race in rounds of {ticks} ticks", partial(ends_somehow, ticks)
    for number in range(8):
        yield f"a race with a fast clock, {number}", names_who_is_late
