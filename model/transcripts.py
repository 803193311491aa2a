"""Reading a transcript, and replaying it. docs/FORMATS.md, 'A transcript'. Every line but the
header has one spelling."""
from __future__ import annotations

import re
from typing import Any, Callable, Optional, Tuple, TYPE_CHECKING, Union

from .deal import PATH_LIMIT
from .hashes import Hashkey
from .ledger import ACCEPTED, CLAIM, PUBLISH, REFUND, TICK, TRANSFER, UNLOCK, Call, Ledger, Terms
from .offer import MOST_NUMBER, MOST_UNITS, STATED, header_of, refuse
from .rules import View
from .texts import words

if TYPE_CHECKING:
    from .deal import Deal
    from .ledger import Reply
    from .offer import Offer

MOST_BYTES = 16_777_216
MOST_COUNT = 20_064
PLAIN_REPLIES = ("accepted", "NoContract", "Settled", "NotCounterparty", "NotParty", "AlreadyPublished", "AlreadyUnlocked", "WrongSecret",
                 "WrongPath", "WrongSignature", "NothingLocked")
MOST_OF_REPLY = {"NoFunds": (1 << 64) - 1, "TooLate": (1 << 64) - 1, "NotExpired": (1 << 64) - 1, "StillLocked": 255}
NUMBER = re.compile("0|[1-9][0-9]{0,19}")
# What a line states of an entry: its sender, its call and its reply
Stated = Tuple[Optional[int], Call, "Reply"]


class BadForm(Exception):
    """A line isn't of the form that stands next."""


def demand(holds: Optional[Union[bool, re.Match[str]]]) -> None:
    if not holds:
        raise BadForm


def numeral(word: str, most: int) -> int:
    """A number without leading zeros, at most the most."""
    demand(NUMBER.fullmatch(word))
    demand(int(word) <= most)
    return int(word)


def digest(word: str, length: int = 64) -> bytes:
    demand(re.fullmatch("[0-9a-f]{%d}" % length, word))
    return bytes.fromhex(word)


def members(word: str) -> list[str]:
    """A list with commas between its members; `-` where it is empty."""
    return [] if word == "-" else word.split(",")


# ---- a line

def call_of(deal: Deal, arc: int, kind: str, stated: list[str]) -> Call:
    """The call that words say, which fits the deal."""
    if kind in (CLAIM, REFUND):
        demand(not stated)
        return Call(kind)
    if kind == PUBLISH:
        demand(len(stated) == 5 + len(deal.locks))
        start, delta, bound, timelock, amount = (numeral(word, most) for word, most in zip(stated, [MOST_NUMBER] * 4 + [MOST_UNITS]))
        return Call(PUBLISH, Terms(start, delta, bound, timelock, amount, tuple(digest(word) for word in stated[5:])))
    if kind == TRANSFER:
        demand(len(stated) == 2)
        to, units = numeral(stated[0], 255), numeral(stated[1], MOST_UNITS)
        demand(to in deal.ends[arc])
        return Call(TRANSFER, (to, units))
    demand(kind == UNLOCK and len(stated) == 4)
    return Call(UNLOCK, hashkey_of(deal, *stated))


def hashkey_of(deal: Deal, lock: str, secret: str, path: str, signatures: str) -> Hashkey:
    parties = tuple(numeral(word, len(deal.names) - 1) for word in members(path))
    signed = tuple(digest(word, 4288) for word in members(signatures))
    demand(max(len(parties), len(signed)) <= PATH_LIMIT[deal.version])
    return Hashkey(numeral(lock, len(deal.locks) - 1), digest(secret), parties, signed)


def reply_of(said: list[str]) -> Reply:
    if len(said) == 1:
        demand(said[0] in PLAIN_REPLIES)
        return (said[0],)
    demand(len(said) == 2 and said[0] in MOST_OF_REPLY)
    return said[0], numeral(said[1], MOST_OF_REPLY[said[0]])


def entry_of(deal: Deal, arc: int, line: str) -> Stated:
    """The sender, the call and the stated reply of a line."""
    said = line.split(" ")
    if said[0] == "t":
        demand(len(said) == 2)
        heights = numeral(said[1], MOST_NUMBER)
        demand(heights > 0)
        return None, Call(TICK, heights), ACCEPTED
    demand(said[0] == "c" and len(said) > 3 and "=" in said)
    at = said.index("=")
    sender = numeral(said[1], 255)
    demand(sender in deal.ends[arc] and at > 2)
    return sender, call_of(deal, arc, said[2], said[3:at]), reply_of(said[at + 1 :])


# ---- a text

class Reader:
    """The lines of a transcript, by what stands next."""

    def __init__(self, text: bytes) -> None:
        self.lines = text.split(b"\n")
        self.rest = self.lines.pop()
        self.number = 0

    def has_word(self, word: bytes) -> bool:
        """Whether the next whole line begins with that word."""
        return self.number < len(self.lines) and self.lines[self.number].split(b" ")[0] == word

    def next(self) -> bytes:
        """The next whole line; a text that ends before is cut short."""
        if self.number == len(self.lines):
            refuse("CutShort")
        self.number += 1
        return self.lines[self.number - 1]

    def read(self, form: Callable[..., Any], *more: Any) -> Any:
        """The next line by its form, or else it is a bad one."""
        line = self.next()
        try:
            return form(*more, line.decode("ascii"))
        except (BadForm, UnicodeDecodeError):
            refuse("BadLine", self.number)


def exactly(expected: str, line: str) -> None:
    demand(line == expected)


def count_of(arc: int, line: str) -> int:
    said = line.split(" ")
    demand(len(said) == 3 and said[:2] == ["ledger", str(arc)])
    return numeral(said[2], MOST_COUNT)


def transcript_of(reader: Reader) -> tuple[Offer, list[list[Stated]]]:
    """The offer of a transcript and the entries of its ledgers."""
    reader.read(exactly, "swap transcript 1")
    offer = header_of(reader.next(), reader.number, STATED)
    return offer, ledgers_of(reader, offer)


def ledgers_of(reader: Reader, offer: Offer) -> list[list[Stated]]:
    """The entries of an offer's ledgers, by all further lines."""
    stated = []
    for arc in offer.deal.arcs:
        count = reader.read(count_of, arc)
        stated.append([reader.read(entry_of, offer.deal, arc) for _ in range(count)])
    reader.read(exactly, "end")
    if reader.number < len(reader.lines) or reader.rest:
        refuse("BadLine", reader.number + 1)
    return stated


# ---- a replay

def replayed(offer: Offer, stated: list[list[Stated]]) -> View:
    """The book of a transcript: every ledger replayed from its first entry, or the first reply that
    isn't the ledger's."""
    ledgers = [Ledger(offer.deal, arc) for arc in offer.deal.arcs]
    for ledger, entries in zip(ledgers, stated):
        for at, (sender, call, reply) in enumerate(entries):
            made = ledger.make(sender, call)
            if made != reply:
                refuse("BadReply", ledger.arc, at, words(reply), words(made))
    return View(offer.deal, ledgers, [len(ledger.entries) for ledger in ledgers])
