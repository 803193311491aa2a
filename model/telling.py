"""What a wallet tells of its ledgers: which lines are read, and up to where. docs/FORMATS.md, 'A
wallet's lines'.

Others can write what they like on a ledger. So what they were refused is passed over, and an odd
contract on an arc that enters the party is none. What the party itself was refused is passed over
too, as it may be tried again. A ledger is read up to the first entry that the contract of the deal
doesn't reply to as is stated.
"""
from __future__ import annotations

from typing import Dict, Optional, TYPE_CHECKING, Tuple, Union

from .ledger import ACCEPTED, CLOCK_FULL, MOST_HEIGHT, PUBLISH, TICK, UNLOCK, Call, Entry, Ledger
from .offer import refuse
from .texts import words
from .transcripts import BadForm, Reader, demand, entry_of, exactly, numeral

if TYPE_CHECKING:
    from .deal import Deal
    from .hashes import Hashkey
    from .transcripts import Stated

MOST_COUNT = (1 << 32) - 1
MOST_TICK = (1 << 64) - 1
# Refused calls that may be made again, and go by their words
REPEATED = b"unlock", b"claim", b"refund"
# A bad entry: its number, and the two replies where it can be read
Bad = Union[Tuple[int], Tuple[int, str, str]]


class Telling:
    """A ledger as far as it is read: the entries that were taken with their numbers among all of
    its lines, and its bad entry, if there is one, as words."""

    def __init__(self, deal: Deal, arc: int, party: int) -> None:
        self.ledger, self.party = Ledger(deal, arc), party
        self.numbers: list[int] = []
        # its refused unlocks, which are passed over, with their numbers: their hashkeys are out
        self.refused: list[tuple[int, Hashkey]] = []
        self.bad: Optional[Bad] = None
        self.is_closed = False

    def hear(self, number: int, line: bytes) -> None:
        """The next line of the ledger, which is the one of that number."""
        said = line.split(b" ")
        if self.is_passed(said):
            return
        try:
            entry = self.entry_of(line.decode("ascii"))
        except (BadForm, UnicodeDecodeError):
            entry = None
        if self.is_refused(said):
            if entry and entry[1].kind == UNLOCK:
                self.refused.append((number, entry[1].stated))
        elif self.is_first_call(said) and not self.is_correct(entry):
            self.is_closed = True
        else:
            self.take(number, entry)

    def entry_of(self, line: str) -> Stated:
        """What a line states. A tick may be of any number of heights."""
        said = line.split(" ")
        if said[0] != "t":
            return entry_of(self.ledger.deal, self.ledger.arc, line)
        demand(len(said) == 2)
        heights = numeral(said[1], MOST_TICK)
        demand(heights > 0)
        return None, Call(TICK, heights), ACCEPTED

    # ---- by a line's words
    def is_foreign(self, said: list[bytes]) -> bool:
        """Whether it is a call of somebody else."""
        return said[0] == b"c" and (len(said) < 2 or said[1] != b"%d" % self.party)

    def is_passed(self, said: list[bytes]) -> bool:
        """Whether a line is passed over unread: it is noise, or somebody else's call on an arc that
        carries an odd contract."""
        is_noise = not is_accepted(said) or said[2:3] == [b"transfer"]
        return self.is_foreign(said) and (is_noise or self.is_closed)

    def is_refused(self, said: list[bytes]) -> bool:
        """Whether it is a call of the party that was refused, and may be made again."""
        if said[0] != b"c" or self.is_foreign(said) or is_accepted(said):
            return False
        return said[2:3] == [b"publish"] and b"NoFunds" in said or b"".join(said[2:3]) in REPEATED

    def is_first_call(self, said: list[bytes]) -> bool:
        """Whether it is somebody else's accepted call where no contract stands, on an arc that enters
        the party."""
        return self.is_foreign(said) and self.party == self.ledger.counterparty and self.ledger.publish_entry is None

    # ---- by what it says
    def is_correct(self, entry: Optional[Stated]) -> bool:
        """Whether it is the correct publish of the arc's party."""
        if entry is None:
            return False
        sender, call, _ = entry
        return call.kind == PUBLISH and sender == self.ledger.party and bool(call.stated == self.ledger.correct_terms)

    def take(self, number: int, entry: Optional[Stated]) -> None:
        """Takes an entry whose stated reply is the ledger's. Any other is the bad one."""
        if entry is None:
            self.bad = (number,)
            return
        sender, call, stated = entry
        if call.kind == TICK:
            self.rise(number, call.stated)
            return
        reply = self.ledger.reply(sender, call)
        if reply == stated:
            self.ledger.push(sender, call, reply)
            self.numbers.append(number)
        else:
            self.bad = (number, words(stated), words(reply))

    def rise(self, number: int, heights: int) -> None:
        """Successive ticks are one, and heights have one limit, at which the ledger then stands."""
        ledger = self.ledger
        if ledger.height + heights > MOST_HEIGHT:
            self.bad = (number, words(ACCEPTED), words(CLOCK_FULL))
            heights = MOST_HEIGHT - ledger.height
        if not heights:
            return
        if ledger.entries and ledger.entries[-1].call.kind == TICK:
            ledger.height += heights
            ledger.entries[-1] = Entry(ledger.height, None, Call(TICK, ledger.entries[-1].call.stated + heights), ACCEPTED)
        else:
            ledger.push(None, Call(TICK, heights), ACCEPTED)
            self.numbers.append(number)


def is_accepted(said: list[bytes]) -> bool:
    return said[-2:] == [b"=", b"accepted"]


# ---- the lines of all ledgers

# What is told of the heights at which calls land, by arc
Heights = Dict[int, int]


def heading_of(least: int, arcs: int, line: str) -> tuple[int, int]:
    """The arc whose ledger stands next and how many lines it has."""
    said = line.split(" ")
    demand(len(said) == 3 and said[0] == "ledger")
    arc = numeral(said[1], arcs - 1)
    demand(arc >= least)
    return arc, numeral(said[2], MOST_COUNT)


def tellings(reader: Reader, deal: Deal, party: int) -> list[Telling]:
    """What is told of the ledger of each arc, from the reader's next line on."""
    told = [Telling(deal, arc, party) for arc in deal.arcs]
    least = 0
    while reader.has_word(b"ledger"):
        arc, count = reader.read(heading_of, least, len(told))
        for number in range(count):
            line = reader.next()
            if party in deal.ends[arc] and told[arc].bad is None:
                told[arc].hear(number, line)
        least = arc + 1
    return told


def height_of(arcs: int, before: dict[str, Heights], line: str) -> None:
    """Takes a line that tells an arc's tip, or in how many heights a call lands there."""
    said = line.split(" ")
    demand(len(said) == 3 and said[0] in before)
    arc, heights = numeral(said[1], arcs - 1), numeral(said[2], MOST_HEIGHT)
    demand(arc not in before[said[0]])
    before[said[0]][arc] = heights


def landing_heights(reader: Reader, told: list[Telling]) -> list[int]:
    """The height by which a call on each arc lands, by the lines behind the ledgers, up to the last
    line."""
    heights: dict[str, Heights] = {"now": {}, "margin": {}}
    while reader.has_word(b"now") or reader.has_word(b"margin"):
        reader.read(height_of, len(told), heights)
    reader.read(exactly, "end")
    if reader.number < len(reader.lines):
        refuse("BadLine", reader.number + 1)
    now, margin = heights["now"], heights["margin"]
    return [max(it.ledger.height, now.get(arc, 0)) + margin.get(arc, 0) for arc, it in enumerate(told)]
