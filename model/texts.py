"""What is written: reports, transcripts, made jobs and summaries. docs/FORMATS.md, 'A report', 'A
transcript', 'A plain job', 'A summary'."""
from __future__ import annotations

import json
from typing import Any, Callable, Iterable, Iterator, TYPE_CHECKING

from .ledger import ACCEPTED, PUBLISH, TRANSFER, UNLOCK
from .rules import findings, has_ended, outcome

if TYPE_CHECKING:
    from .deal import Deal
    from .ledger import Call, Entry, Ledger, Reply
    from .offer import Offer
    from .rules import View


def joined(lines: Iterable[str]) -> bytes:
    """The lines, each with a line feed."""
    return "".join(line + "\n" for line in lines).encode()


def compact(value: dict[str, Any]) -> str:
    """Compact JSON, the fields of each object in the order of their bytes."""
    return json.dumps(value, sort_keys=True, separators=(",", ":"))


def words(reply: Reply) -> str:
    return " ".join(map(str, reply))


# ---- a check

def check_text(deal: Deal) -> bytes:
    times = ["need %d" % deal.need, "open by %d" % deal.open_by, "expiry %d" % deal.last_expiry, "horizon %d" % deal.horizon]
    return joined(["swap accepted", *times])


# ---- a report

def report(book: View, conforming: list[bool]) -> tuple[bytes, int]:
    """The report's text, and how many findings it has."""
    deal, found = book.deal, findings(book, conforming)
    lines = ["swap report 1", "swap %s start %d delta %d bound %d" % (deal.mode, deal.start, deal.delta, deal.bound)]
    for ledger in book.ledgers:
        lines += ledger_lines(deal, ledger)
    ended = has_ended(book)
    for party, name in enumerate(deal.names):
        role = "conforming" if conforming[party] else "deviator"
        lines.append("party %s %s: %s" % (name, role, outcome(book, party) if ended else "open"))
    return joined(lines + found + ["findings %d" % len(found)]), len(found)


def ledger_lines(deal: Deal, ledger: Ledger) -> Iterator[str]:
    """A ledger: its arc, its entries but for ticks, its end."""
    party, counterparty = deal.names[ledger.party], deal.names[ledger.counterparty]
    yield "ledger %d %s -> %s amount %d" % (ledger.arc, party, counterparty, deal.amounts[ledger.arc])
    for entry in ledger.entries:
        if entry.sender is not None:
            yield "%d %s %s: %s" % (entry.height, deal.names[entry.sender], what(deal, ledger, entry.call), words(entry.reply))
    balances = ledger.balances[ledger.party], ledger.balances[ledger.counterparty]
    yield "end height %d %s %d %s %d held %d" % (ledger.height, party, balances[0], counterparty, balances[1], ledger.held)


def what(deal: Deal, ledger: Ledger, call: Call) -> str:
    """A call as a report says it."""
    if call.kind == PUBLISH:
        return "publish " + ("correct" if call.stated == ledger.correct_terms else "wrong")
    if call.kind == UNLOCK:
        via = " via " + ",".join(deal.names[it] for it in call.stated.path) if call.stated.path else ""
        return "unlock %d%s" % (call.stated.lock, via)
    if call.kind == TRANSFER:
        return "transfer %d to %s" % (call.stated[1], deal.names[call.stated[0]])
    return call.kind


# ---- a transcript

def transcript(book: View, offer: Offer) -> bytes:
    lines = ["swap transcript 1", compact(transcript_header(offer))]
    for ledger in book.ledgers:
        lines.append("ledger %d %d" % (ledger.arc, len(ledger.entries)))
        lines += [entry_words(entry) for entry in ledger.entries]
    return joined(lines + ["end"])


def transcript_header(offer: Offer) -> dict[str, Any]:
    """The job's header with each actor as `conforming` or `manual`, no seeds and no `finish`."""
    header = stated_header(offer)
    actors = ["conforming" if conforms else "manual" for conforms in offer.conforming]
    header["parties"] = [{"name": name, "actor": actor} for name, actor in zip(offer.deal.names, actors)]
    return header


def stated_header(offer: Offer) -> dict[str, Any]:
    """The fields of a header that say the deal, digests in lower case."""
    deal = offer.deal
    header: dict[str, Any] = {"swap": deal.version, "mode": deal.mode, "start": deal.start, "delta": deal.delta, "bound": deal.bound}
    header["arcs"] = [{"from": deal.names[at], "to": deal.names[to], "amount": amount} for (at, to), amount in zip(deal.ends, deal.amounts)]
    header["leaders"] = [{"party": deal.names[leader], "hashlock": lock.hex()} for leader, lock in zip(deal.leaders, deal.hashlocks)]
    if deal.is_keyed:
        header["keys"] = [[key.hex() for key in row] for row in deal.keys]
    else:
        for arc, timelock in zip(header["arcs"], deal.timelocks):
            arc["timelock"] = timelock
    return header


def entry_words(entry: Entry) -> str:
    if entry.sender is None:
        return "t %d" % entry.call.stated
    return "c %d %s = %s" % (entry.sender, call_words(entry.call), words(entry.reply))


def call_words(call: Call) -> str:
    """A call as a transcript says it."""
    if call.kind == PUBLISH:
        terms = call.stated
        return " ".join(["publish", *map(str, terms[:5]), *[lock.hex() for lock in terms.locks]])
    if call.kind == UNLOCK:
        path, signatures = ",".join(map(str, call.stated.path)), ",".join(it.hex() for it in call.stated.signatures)
        return "unlock %d %s %s %s" % (call.stated.lock, call.stated.secret.hex(), path or "-", signatures or "-")
    if call.kind == TRANSFER:
        return "transfer %d %d" % call.stated
    return call.kind


# ---- a made job

def made_header(offer: Offer) -> str:
    """The header of a made job: actors, seeds and `finish` always there."""
    header = stated_header(offer)
    header["finish"] = "fair" if offer.is_fair else "stop"
    header["parties"] = [
        {"name": name, "actor": made_actor(actor), "seed": offer.seed(party).hex()}
        for party, (name, actor) in enumerate(zip(offer.deal.names, offer.actors))
    ]
    return compact(header)


def made_actor(actor: Any) -> Any:
    """A script stands there move by move, its hexadecimal in lower case."""
    if isinstance(actor, dict) and "script" in actor:
        return {"script": [made_move(move) for move in actor["script"]]}
    return actor


def made_move(move: dict[str, Any]) -> dict[str, Any]:
    lowered: dict[str, Callable[[Any], Any]] = {"secret": str.lower, "sigs": all_lower, "locks": all_lower}
    return {field: lowered.get(field, lambda it: it)(value) for field, value in move.items()}


def all_lower(digits: list[str]) -> list[str]:
    return [it.lower() for it in digits]


# ---- a summary

OUTCOMES = ("Deal", "NoDeal", "FreeRide", "Discount", "Underwater")


def summary(book: View, conforming: list[bool], events: int) -> tuple[bytes, int]:
    """The summary of a number's run, and how many findings it has."""
    deal, count = book.deal, len(findings(book, conforming))
    entries = [entry for ledger in book.ledgers for entry in ledger.entries]
    ends = [outcome(book, party) for party in deal.parties]
    return joined([
        "swap summary 1",
        "parties %d arcs %d leaders %d" % (len(deal.names), len(deal.ends), len(deal.leaders)),
        "events %d entries %d refused %d" % (events, len(entries), sum(entry.reply != ACCEPTED for entry in entries)),
        " ".join("%s %d" % (name, ends.count(name)) for name in OUTCOMES),
        "findings %d" % count,
    ]), count
