"""An arbiter's judgement of what wallets agreed on and of all ledgers. docs/FORMATS.md, 'A
judgement'."""
from __future__ import annotations

import json
import re
from typing import Any, Iterator, TYPE_CHECKING

from .agreeing import party_of, read_agreed, whole_lines
from .offer import refuse
from .rules import findings, has_ended, outcome
from .texts import joined, report
from .transcripts import Reader, demand, digest, ledgers_of, replayed

if TYPE_CHECKING:
    from .deal import Deal
    from .rules import View

# the most bytes that are read: what the largest deal needs
MOST_JUDGED = 150_994_944
LATE_PUBLISH = re.compile(r"late \S+ publish on \d+ due (\d+)")


def agreement_of(line: str) -> tuple[str, bytes]:
    """Which digest a party agreed on."""
    said = line.split(" ")
    demand(len(said) == 3 and said[0] == "agreed")
    return said[1], digest(said[2])


def examine_agreements(reader: Reader, deal: Deal, agreed: bytes) -> None:
    """Each party that tells what it agreed on tells this digest."""
    while reader.has_word(b"agreed"):
        name, told = reader.read(agreement_of)
        party_of(deal, name, reader.number)
        if told != agreed:
            refuse("NotAgreed", agreed.hex())


def is_harmless(deal: Deal, finding: str) -> bool:
    """A publish was due only above the height by which contracts open, so it could only have hurt
    the party that withheld it."""
    late = LATE_PUBLISH.fullmatch(finding)
    return late is not None and int(late[1]) > deal.open_by


def marks(book: View, conforming: list[bool]) -> Iterator[str]:
    """Of each finding whether it is final, and whether it is harmless."""
    standing = "final" if has_ended(book) else "provisional"
    for at, finding in enumerate(findings(book, conforming)):
        yield "finding %d %s %s" % (at, standing, "harmless" if is_harmless(book.deal, finding) else "counts")


def told_finding(finding: str) -> dict[str, Any]:
    """What a finding's line says, as JSON has it."""
    kind, *words = finding.split(" ")
    if kind == "unfinished":
        return {"kind": kind, "ledger": int(words[0]), "height": int(words[2])}
    party, *rule, _, ledger, _, number = words
    told: dict[str, Any] = {"kind": kind, "party": party}
    if rule:
        told["rule"] = rule[0]
    if rule[1:]:
        told["lock"] = int(rule[1])
    return {**told, "ledger": int(ledger), "due" if rule else "entry": int(number)}


def as_json(book: View, conforming: list[bool], digest: bytes) -> bytes:
    """The same on one line, as JSON."""
    deal, ended = book.deal, has_ended(book)
    parties = [
        {"name": name, "conforming": conforming[party], "outcome": outcome(book, party) if ended else "open"} for party, name in enumerate(deal.names)]
    found = [{**told_finding(it), "final": ended, "harmless": is_harmless(deal, it)} for it in findings(book, conforming)]
    told = {"deal": deal.id.hex(), "agree": digest.hex(), "parties": parties, "findings": found, "report": report(book, conforming)[0].decode()}
    return (json.dumps(told, separators=(",", ":")) + "\n").encode()


def judgement_text(text: bytes, asked: str) -> tuple[bytes, int]:
    """What `party judge` writes, as JSON where `--json` asks for it, and how many findings stand in
    it."""
    reader = whole_lines(text)
    agreed = read_agreed(reader)
    offer = agreed.offer
    examine_agreements(reader, offer.deal, agreed.digest)
    book = replayed(offer, ledgers_of(reader, offer))
    told, found = report(book, offer.conforming)
    if asked == "--json":
        return as_json(book, offer.conforming, agreed.digest), found
    begun = joined(["deal " + offer.deal.id.hex(), "agree " + agreed.digest.hex()])
    return begun + told + joined(list(marks(book, offer.conforming))), found
