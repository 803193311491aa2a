"""A party's own wallet: what is useful to it, by what it wrote down and what each ledger did so far.
docs/FORMATS.md, 'A wallet's lines'."""
from __future__ import annotations

from typing import Iterable, Iterator, NamedTuple, Optional, TYPE_CHECKING, Union

from .agreeing import party_of, read_agreed, seed_of, whole_lines
from .hashes import Hashkey
from .ledger import CLAIM, MOST_HEIGHT, PUBLISH, REFUND, UNLOCK, Call, expiry, last_accepted, what_is_wrong
from .offer import is_given, refuse
from .rules import View, all_useful, claim_reference, publish_reference, refund_reference, rest_until, unlock_reference
from .telling import landing_heights, tellings
from .texts import call_words, joined
from .transcripts import BadForm, demand, digest, members, numeral

if TYPE_CHECKING:
    from .deal import Deal
    from .telling import Telling
    from .transcripts import Reader

BYTE = 255
MOST_NUMBER = (1 << 64) - 1
# the most bytes that are read: what the largest deal needs
MOST_ASKED = 566_231_040
NOTE_WORDS = b"keep", b"sent", b"seen", b"never"


class Torn(NamedTuple):
    """A line of a hashkey for that lock that can't be read."""

    lock: int


class Noted(NamedTuple):
    """A line about an arc: a publish on it was sent, or never lands, or the height at which it was
    seen."""

    word: str
    arc: int
    height: int = 0


Note = Union[Hashkey, Torn, Noted]


# ---- lines

def agreed_of(line: str) -> bytes:
    said = line.split(" ")
    demand(len(said) == 2 and said[0] == "agreed")
    return digest(said[1])


def note_of(line: str) -> Note:
    """What a line notes."""
    word, *said = line.split(" ")
    if word == "keep":
        return kept_of(said)
    demand(len(said) == (2 if word == "seen" else 1))
    return Noted(word, numeral(said[0], BYTE), numeral(said[1], MOST_HEIGHT) if word == "seen" else 0)


def kept_of(said: list[str]) -> Union[Hashkey, Torn]:
    """A hashkey that was kept, as it was answered, or that its line is torn behind the lock. Its
    heights are numbers, whichever."""
    demand(bool(said))
    lock = numeral(said[0], BYTE)
    try:
        return hashkey_of(lock, said[1:])
    except BadForm:
        return Torn(lock)


def hashkey_of(lock: int, said: list[str]) -> Hashkey:
    demand(len(said) == 7 and said[0] == "by" and said[2] == "until")
    _, by, _, until, secret, path, signatures = said
    for height in by, until:
        numeral(height, MOST_NUMBER)
    parties = tuple(numeral(it, BYTE) for it in members(path))
    return Hashkey(lock, digest(secret), parties, tuple(digest(it, 4288) for it in members(signatures)))


def has_note(reader: Reader) -> bool:
    return any(map(reader.has_word, NOTE_WORDS))


def notes_in(reader: Reader) -> list[tuple[int, Note]]:
    """The notes with the numbers of their lines, up to the first line that begins with none of the
    words. The last one may be torn."""
    notes: list[tuple[int, Note]] = []
    while has_note(reader):
        line, number = reader.next(), reader.number
        try:
            notes.append((number, note_of(line.decode("latin-1"))))
        except BadForm:
            if has_note(reader):
                refuse("BadLine", number)
    return notes


# ---- what is asked

class Journal:
    """What a wallet wrote down: the hashkeys that it kept, by their locks; the locks that stop; the
    arcs on which a publish was sent, and may land; and the greatest height at which each ledger was
    seen."""

    def __init__(self, deal: Deal, party: int) -> None:
        self.deal, self.party = deal, party
        self.kept: dict[int, Hashkey] = {}
        self.stopped: set[int] = set()
        self.sent: set[int] = set()
        self.seen: dict[int, int] = {}

    def take(self, line: int, note: Note) -> None:
        """Takes a note of that line, which says what may be."""
        if isinstance(note, Noted):
            allowed: Iterable[int] = self.deal.arcs if note.word == "seen" else self.deal.leaving[self.party]
            if note.arc not in allowed:
                refuse("BadLine", line)
            self.take_noted(note)
        elif note.lock not in self.deal.locks:
            refuse("BadLine", line)
        elif isinstance(note, Torn) or not self.is_keepable(note):
            self.stopped.add(note.lock)
        else:
            self.kept[note.lock] = note

    def take_noted(self, note: Noted) -> None:
        if note.word == "seen":
            self.seen[note.arc] = max(note.height, self.seen.get(note.arc, 0))
        elif note.word == "sent":
            self.sent.add(note.arc)
        else:
            self.sent.discard(note.arc)

    def is_keepable(self, hashkey: Hashkey) -> bool:
        """A hashkey may stand among the notes that is the one that was kept for its lock before, or
        opens it on the first arc that enters the party."""
        if hashkey.lock in self.kept:
            return self.kept[hashkey.lock] == hashkey
        return what_is_wrong(self.deal, self.deal.entering[self.party][0], self.deal.hashlocks[hashkey.lock], hashkey) is None


def examine_seed(deal: Deal, party: int, seed: bytes) -> None:
    """The seed gives what the deal states of the party."""
    for lock in deal.locks:
        if not is_given(deal, party, lock, seed):
            refuse("WrongWallet", deal.names[party], lock)


def unkept_unlocks(told: list[Telling], party: int, kept: dict[int, Hashkey]) -> list[tuple[int, int, int]]:
    """The unlocks of the party with a hashkey that it didn't keep, refused ones too, the first for
    each ledger and lock, as arc, entry and lock."""
    found: dict[tuple[int, int], int] = {}
    for it in told:
        accepted = [(number, entry.call.stated) for number, entry in zip(it.numbers, it.ledger.entries)
                    if entry.sender == party and entry.call.kind == UNLOCK]  # fmt: skip
        for number, hashkey in sorted([*accepted, *it.refused]):
            if kept.get(hashkey.lock) != hashkey:
                found.setdefault((it.ledger.arc, hashkey.lock), number)
    return [(arc, number, lock) for (arc, lock), number in sorted(found.items(), key=lambda it: (it[0][0], it[1]))]


# ---- heights

def asked_from(view: View, party: int, arc: int, call: Call) -> Optional[int]:
    """The height from which a rule asks for a call, or None where no rule does."""
    if call.kind == PUBLISH:
        return publish_reference(view, party)
    if call.kind == CLAIM:
        return claim_reference(view, arc)
    if call.kind == REFUND:
        return refund_reference(view, arc)
    return unlock_reference(view, party, call.stated.lock, view.first_unlock(party, call.stated.lock))


def heights_of(view: View, party: int, arc: int, call: Call) -> str:
    """The words for the last height at which a call is on time and, of an unlock, the last at which
    the contract accepts it; of a publish, the last at which contracts open. What the ledgers show no
    reason for is asked for from where the party is ready."""
    since = asked_from(view, party, arc, call)
    by = "by %d" % ((view.ready_height(party) if since is None else since) + view.deal.delta)
    if call.kind == PUBLISH:
        return "%s until %d" % (by, view.deal.open_by)
    if call.kind != UNLOCK:
        return by
    return "%s until %d" % (by, last_accepted(view.deal, view.ledgers[arc].correct_terms, call.stated))


# ---- the answer

class Asking:
    """What is told of each ledger, with the heights by which calls land, and what was written
    down."""

    def __init__(self, told: list[Telling], at: list[int], journal: Journal) -> None:
        self.told, self.at, self.journal, self.party = told, at, journal, journal.party
        self.deal = journal.deal
        self.view = View(self.deal, [it.ledger for it in told], [len(it.ledger.entries) for it in told])
        self.near = self.deal.touching[self.party]
        self.stale = [arc for arc in self.near if self.view.height(arc) < journal.seen.get(arc, 0)]
        self.unkept = unkept_unlocks(told, self.party, journal.kept)
        self.stopped = journal.stopped | {lock for _, _, lock in self.unkept}
        self.landing = [arc for arc in self.deal.leaving[self.party] if arc in journal.sent and not self.view.calls(self.party, arc, PUBLISH)]

    def warnings(self) -> Iterator[str]:
        """The ledgers that were seen higher, the locks that stop, the unlocks that the party didn't
        make, and the ledgers that are read up to a bad entry."""
        for arc in self.stale:
            yield "stale %d %d" % (arc, self.journal.seen[arc])
        for lock in sorted(self.journal.stopped):
            yield "unkept %d" % lock
        for each in self.unkept:
            yield "unkept %d %d %d" % each
        for it in self.told:
            if it.bad is not None:
                yield " ".join(["bad", *map(str, (it.ledger.arc, *it.bad))])

    def may_go(self, arc: int, call: Call) -> bool:
        """Whether no warning stands against a call."""
        if call.kind == PUBLISH:
            return not self.stale and arc not in self.landing
        if call.kind == UNLOCK and call.stated.lock in self.stopped:
            return False
        return arc not in self.stale

    def due_lines(self, seed: bytes) -> Iterator[str]:
        """A line for each hashkey that must be kept first, for each useful call that may go out, and
        for each publish that hasn't landed."""
        view, party, kept = self.view, self.party, self.journal.kept
        useful = [(arc, call) for arc, call in all_useful(view, party, seed, kept, self.at) if self.may_go(arc, call)]
        asked: set[int] = set()
        for arc, call in useful:
            if call.kind == UNLOCK and call.stated.lock not in kept and call.stated.lock not in asked and not self.stale:
                asked.add(call.stated.lock)
                _, lock, key = call_words(call).split(" ", 2)
                yield "keep %s %s %s" % (lock, heights_of(view, party, arc, call), key)
        for arc, call in useful:
            if call.kind != UNLOCK or call.stated.lock in kept:
                yield "call %d %d %s %s" % (arc, party, heights_of(view, party, arc, call), call_words(call))
        for arc in self.landing:
            yield "landing %d %s" % (arc, heights_of(view, party, arc, Call(PUBLISH)))

    def is_finished(self, arc: int) -> bool:
        """Whether an arc's contract is settled, or none can come to anything any more."""
        if self.view.settled(arc):
            return True
        terms = self.view.ledgers[arc].correct_terms
        last = max(expiry(self.deal, arc, terms, lock) for lock in self.deal.locks)
        return not self.view.published(arc) and self.view.height(arc) > max(last, self.deal.open_by)

    def end_line(self) -> str:
        """What is said where nothing is due."""
        if self.stale:
            return "wait"
        if all(map(self.is_finished, self.near)):
            return "done"
        until = rest_until(self.view, self.party)
        return "wait" if until is None else "wait %d" % until

    def answer(self, seed: bytes) -> tuple[bytes, int]:
        """The answer, and how many warnings stand in it."""
        warned = list(self.warnings())
        due = list(self.due_lines(seed)) or [self.end_line()]
        return joined(warned + due), len(warned)


def wallet_lines(text: bytes, name: str) -> tuple[bytes, int]:
    """What `party next NAME` writes, and how many warnings stand in it."""
    reader = whole_lines(text)
    seed: bytes = reader.read(seed_of)
    digest_told, notes = reader.read(agreed_of), notes_in(reader)
    header = reader.number + 1
    agreed = read_agreed(reader)
    if agreed.digest != digest_told:
        refuse("NotAgreed", agreed.digest.hex())
    party = party_of(agreed.deal, name, header)
    examine_seed(agreed.deal, party, seed)
    journal = Journal(agreed.deal, party)
    for line, note in notes:
        journal.take(line, note)
    told = tellings(reader, agreed.deal, party)
    return Asking(told, landing_heights(reader, told), journal).answer(seed)
