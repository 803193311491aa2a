"""The vectors of this folder, as lines and their answers, and in which sentence a wrong answer is
told."""
from __future__ import annotations

import json
import re
from collections.abc import Callable, Iterable
from pathlib import Path
from typing import Any, NamedTuple

HERE = Path(__file__).resolve().parent
# What asks a contract or a signer a line, and gives its answer
Ask = Callable[[str], str]
# The rows of the table of docs/using/contract.md
ROWS = {
    "accepted": "no row of the table applies",
    "NoContract": "nothing was published",
    "Settled": "a claim or a refund was accepted",
    "NotCounterparty": "the sender isn't the arc's counterparty",
    "NotParty": "the sender isn't the arc's party",
    "AlreadyPublished": "a publish was accepted",
    "NoFunds": "the party has fewer units for this arc than the amount",
    "AlreadyUnlocked": "that lock is opened",
    "WrongSecret": "the secret's hash isn't the published hashlock of that lock",
    "WrongPath": "the hashkey's path isn't one, or its signatures aren't as many",
    "WrongSignature": "a signature isn't valid for its party's public key of that lock",
    "TooLate": "the height is above the last one at which the hashkey is accepted",
    "StillLocked": "that lock is the least that is closed",
    "NothingLocked": "every lock is opened",
    "NotExpired": "the height is below the first one at which a refund is accepted",
    "BadCall": "the call doesn't fit the deal",
}


class Line(NamedTuple):
    """A line, its answer, and what makes it the answer."""

    said: str
    answer: str
    why: str


class Case(NamedTuple):
    """Lines that show a rule, the first of which starts anew."""

    rule: str
    lines: list[Line]


class Broken(NamedTuple):
    """What was answered to a line of a case, in place of the answer."""

    case: Case
    line: Line
    answered: str

    def __str__(self) -> str:
        found, wanted = self.answered or "nothing", self.line.answer
        return f"{self.case.rule}: to '{shortened(self.line.said)}' it answered {shortened(found)} for {shortened(wanted)}, as {self.line.why}"


def shortened(line: str) -> str:
    """A line without most of its long words."""
    return re.sub(r"([0-9a-f]{8})[0-9a-f]{25,}", r"\1..", line) if len(line) > 90 else line


def rows_in(name: str) -> Any:
    return json.loads((HERE / f"{name}.json").read_text())


# ---- contracts


def why_of(said: str, answer: str) -> str:
    word = said.split(" ")[0]
    if word == "call":
        return ROWS[answer.split(" ")[0]]
    return {"deal": "that is H(06 | deal bytes)", "height": "a height is answered ok"}.get(
        word, "accepted publishes, claims and refunds alone move units, and by the published amount"
    )


def contract_cases() -> list[Case]:
    """The cases of calls.json."""
    told, deals = rows_in("calls"), {it["deal"]: it for it in rows_in("deals")}
    signatures: dict[str, str] = told["signatures"]

    def filled(line: str) -> str:
        return re.sub(r"<(s\d+)>", lambda found: signatures[found[1]], line)

    cases = []
    for case in told["cases"]:
        deal, (has, gets) = deals[case["deal"]], case["accounts"]
        first = (f"deal {case['arc']} {has} {gets} {deal['bytes']}", deal["id"])
        lines = [Line(filled(said), answer, why_of(said, answer)) for said, answer in [first, *case["lines"]]]
        cases.append(Case(case["rule"], lines))
    return cases


# ---- signers


def header_line(made: Any) -> str:
    """A made job's header as one word."""
    return json.dumps(made, separators=(",", ":"), sort_keys=True)


def signer_cases() -> list[Case]:
    """What deals.json and signatures.json say of seeds, deals and messages."""
    cases = []
    for deal in rows_in("deals"):
        made = deal["made"]
        lines = [Line(f"id {header_line(made)}", deal["id"], "that is H(06 | deal bytes)")]
        leaders = {it["party"]: it["hashlock"] for it in made["leaders"]}
        for number, party in enumerate(made["parties"]):
            if party["name"] in leaders:
                lines.append(Line(f"hashlock {party['seed']}", leaders[party["name"]], "that is H(H(05 | seed))"))
            for lock, key in enumerate(made["keys"][number] if "keys" in made else []):
                lines.append(Line(f"key {party['seed']} {number} {lock}", key, "that is H(03 | the ends of the 67 chains)"))
        cases.append(Case(f"the id, hashlocks and keys of {deal['deal']}", lines))
    for row in rows_in("signatures"):
        suffix = ",".join(map(str, row["suffix"]))
        words = f"{row['seed']} {row['party']} {row['lock']} {row['id']} {suffix} {row['secret']} {row['inner'] or '-'}"
        lines = [
            Line(f"secret {row['leader seed']}", row["secret"], "that is H(05 | seed)"),
            Line(f"message {words}", row["message"], "that is H(04 | deal id | lock | number of parties | parties | secret | next signature)"),
            Line(f"sign {words}", row["signature"], "each value is its chain's start after as many steps as its digit says"),
        ]
        cases.append(Case(f"what party {row['party']} signs of {row['deal']} over {suffix}", lines))
    return cases


# ---- judging


def first_broken(case: Case, answers: Iterable[str]) -> Broken | None:
    """The first line of a case that is answered otherwise, if one is."""
    for line, answered in zip(case.lines, answers):
        if answered != line.answer:
            return Broken(case, line, answered)
    return None


def refused_by(ask: Ask, cases: Iterable[Case]) -> Broken | None:
    """The first wrong answer, if there is one. What the asker raises is one."""
    for case in cases:
        for line in case.lines:
            try:
                answered = ask(line.said)
            except Exception as why:
                answered = type(why).__name__
            if answered != line.answer:
                return Broken(case, line, answered)
    return None
