"""A deal without anybody's seed, and the terms that an owner agrees to. docs/FORMATS.md, 'A row',
'A deal of rows' and 'Terms'."""
from __future__ import annotations

import re
from hashlib import sha256
from typing import Iterator, NamedTuple, TYPE_CHECKING

from .hashes import hashlock_of, public_key, secret_of
from .ledger import Terms, expiry
from .offer import NAME, PLAIN, STATED, examine_range, header_of, refuse
from .texts import compact, joined, transcript_header
from .transcripts import Reader, demand, digest, members, numeral

if TYPE_CHECKING:
    from .deal import Deal
    from .offer import Offer

MOST_SHORT = 1_048_576
MOST_HEADER = 65_536
MOST_CONTEXT = 1_024
CONTEXT = re.compile("[ -~]{1,256}")


# ---- lines

def whole_lines(text: bytes) -> Reader:
    """A reader of a text whose last byte is a line feed."""
    if text[-1:] != b"\n":
        refuse("CutShort")
    return Reader(text)


def seed_of(line: str) -> bytes:
    said = line.split(" ")
    demand(len(said) == 2 and said[0] == "seed")
    return digest(said[1])


def party_of(deal: Deal, name: str, line: int) -> int:
    if name not in deal.names:
        refuse("Unknown", line, name)
    return deal.names.index(name)


def read_header(reader: Reader, form: str) -> Offer:
    """The offer of the next line, a header that isn't too long and states no strategy."""
    line = reader.next()
    examine_range(len(line), reader.number, "header", 0, MOST_HEADER)
    return header_of(line, reader.number, form, ())


def read_dealt(reader: Reader) -> Offer:
    """The offer of the next line, which is the very line that `party deal` writes of its deal."""
    offer = read_header(reader, STATED)
    if compact(transcript_header(offer)).encode() != reader.lines[reader.number - 1]:
        refuse("BadLine", reader.number)
    return offer


def plain_offer(reader: Reader) -> Offer:
    """The offer of a plain line that tells nobody's seed."""
    offer = read_header(reader, PLAIN)
    if any(seed is not None for seed in offer.seeds):
        refuse("UnknownField", reader.number, "seed")
    return offer


def no_more(reader: Reader) -> None:
    """No line follows."""
    if reader.number < len(reader.lines):
        refuse("BadLine", reader.number + 1)


# ---- rows

def row_line(deal: Deal, party: int, seed: bytes) -> str:
    """What a seed gives a party: its hashlock where it leads, and with hashkeys its key for each
    lock."""
    hashlock = hashlock_of(secret_of(seed)).hex() if party in deal.leaders else "-"
    keys = ",".join(public_key(seed, party, lock).hex() for lock in deal.locks) if deal.is_keyed else "-"
    return "row %s %s %s" % (deal.names[party], hashlock, keys)


def keys_text(text: bytes, name: str) -> tuple[bytes, int]:
    """What `party keys NAME` writes; it finds nothing."""
    reader = whole_lines(text)
    seed: bytes = reader.read(seed_of)
    offer = plain_offer(reader)
    no_more(reader)
    return joined([row_line(offer.deal, party_of(offer.deal, name, 2), seed)]), 0


def row_of(line: str) -> tuple[str, list[bytes], list[bytes]]:
    """The name, the hashlocks and the keys of a row."""
    said = line.split(" ")
    demand(len(said) == 4 and said[0] == "row" and NAME.fullmatch(said[1]))
    hashlocks = [] if said[2] == "-" else [digest(said[2])]
    return said[1], hashlocks, [digest(it) for it in members(said[3])]


def deal_text(text: bytes, _name: str) -> tuple[bytes, int]:
    """What `party deal` writes; it finds nothing."""
    reader = whole_lines(text)
    offer = plain_offer(reader)
    deal = offer.deal
    rows: dict[int, tuple[list[bytes], list[bytes]]] = {}
    while reader.number < len(reader.lines):
        name, hashlocks, keys = reader.read(row_of)
        party = party_of(deal, name, reader.number)
        if party in rows:
            refuse("Duplicate", reader.number, name)
        leads, locks = int(party in deal.leaders), len(deal.leaders) if deal.is_keyed else 0
        examine_range(len(hashlocks), reader.number, "hashlock", leads, leads)
        examine_range(len(keys), reader.number, "keys", locks, locks)
        rows[party] = hashlocks, keys
    for party in deal.parties:
        if party not in rows:
            refuse("NoRow", deal.names[party])
    deal.hashlocks = [rows[leader][0][0] for leader in deal.leaders]
    if deal.is_keyed:
        deal.keys = [rows[party][1] for party in deal.parties]
    else:
        deal.timelocks = [deal.timelock_of(arc) for arc in deal.arcs]
    return joined([compact(transcript_header(offer))]), 0


# ---- what is agreed on

def context_of(arcs: int, line: str) -> tuple[int, str]:
    """The arc of which a line of context tells something, and the line."""
    demand(CONTEXT.fullmatch(line))
    said = line.split(" ", 2)
    demand(len(said) == 3 and said[0] == "about" and said[2][:1] not in ("", " "))
    return numeral(said[1], arcs - 1), line


def read_context(reader: Reader, arcs: int) -> list[tuple[int, str]]:
    """The lines of context behind a header, each with its arc, up to the first line that begins
    with another word."""
    told: list[tuple[int, str]] = []
    while reader.has_word(b"about"):
        if len(told) == MOST_CONTEXT:
            refuse("OverLimit", reader.number + 1, "about", MOST_CONTEXT + 1)
        told.append(reader.read(context_of, arcs))
    return told


class Agreed(NamedTuple):
    """What is agreed on: the offer of the next line, the lines of context behind it, and the digest
    that binds both."""

    offer: Offer
    context: list[tuple[int, str]]
    digest: bytes

    @property
    def deal(self) -> Deal:
        return self.offer.deal


def read_agreed(reader: Reader) -> Agreed:
    before = reader.number
    offer = read_dealt(reader)
    context = read_context(reader, len(offer.deal.ends))
    said = b"".join(line + b"\n" for line in reader.lines[before : reader.number])
    return Agreed(offer, context, sha256(said).digest())


# ---- terms

def last_expiry(deal: Deal, arc: int) -> int:
    """The greatest expiry of an arc's locks: up to there a lock of it may be opened, and above it
    what it locks is refunded, whichever of its locks stay closed."""
    terms = Terms(deal.start, deal.delta, deal.bound, deal.timelocks[arc], deal.amounts[arc], tuple(deal.hashlocks))
    return max(expiry(deal, arc, terms, lock) for lock in deal.locks)


def arc_lines(deal: Deal, party: int) -> Iterator[tuple[int, str]]:
    """The arcs that leave a party, then those that enter it, each with its line."""
    by = deal.delta if party in deal.leaders else deal.open_by
    for arc in deal.leaving[party]:
        to, amount = deal.names[deal.ends[arc][1]], deal.amounts[arc]
        yield arc, "pays %d %s %d publish by %d back %d" % (arc, to, amount, by, last_expiry(deal, arc) + 1)
    for arc in deal.entering[party]:
        payer, last = deal.names[deal.ends[arc][0]], last_expiry(deal, arc)
        yield arc, "gets %d %s %d open until %d claim by %d" % (arc, payer, deal.amounts[arc], last, last + deal.delta)


def terms_lines(agreed: Agreed, party: int) -> Iterator[str]:
    deal = agreed.deal
    yield "terms %s %d of %d" % (deal.names[party], party, len(deal.names))
    yield "deal " + deal.id.hex()
    yield "agree " + agreed.digest.hex()
    yield "mode %s start %d delta %d bound %d horizon %d" % (deal.mode, deal.start, deal.delta, deal.bound, deal.horizon)
    for arc, line in arc_lines(deal, party):
        yield line
        yield from [told for about, told in agreed.context if about == arc]
    for lock in deal.locks:
        if deal.leaders[lock] == party:
            yield "leads %d show by %d" % (lock, deal.open_by + deal.delta)
    yield "awake until %d" % (max(last_expiry(deal, arc) for arc in deal.touching[party]) + deal.delta)


def terms_text(text: bytes, name: str) -> tuple[bytes, int]:
    """What `party terms NAME` writes; it finds nothing."""
    reader = whole_lines(text)
    agreed = read_agreed(reader)
    no_more(reader)
    return joined(terms_lines(agreed, party_of(agreed.deal, name, 1))), 0
