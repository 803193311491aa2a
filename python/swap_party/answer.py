"""What a wallet hands over to `party next`, and what it is answered."""
from __future__ import annotations

from collections.abc import Iterable, Iterator
from dataclasses import dataclass, field
from hashlib import sha256
from typing import Union

from .calls import BYTE, MOST_NUMBER, Call, Hashkey, Publish, Reply, Unlock, call_of
from .lines import Lines, demand, fixed, hexadecimal, joined, number


@dataclass(frozen=True)
class Bad:
    """That entry of the arc's ledger, counted from 0 over all lines that were told, can't be read,
    or isn't what the contract of the deal replies. The ledger is read up to it."""

    arc: int
    entry: int
    stated: Reply | None = None
    replayed: Reply | None = None

    def __str__(self) -> str:
        told = [str(it) for it in (self.stated, self.replayed) if it]
        return " ".join(["bad", str(self.arc), str(self.entry), *told])


@dataclass(frozen=True)
class Stale:
    """That arc's ledger is told below the height at which it was seen. Nothing is signed or
    published because of what it doesn't show, and nothing is answered on it."""

    arc: int
    height: int

    def __str__(self) -> str:
        return f"stale {self.arc} {self.height}"


@dataclass(frozen=True)
class Stopped:
    """The notes have no one hashkey for that lock: two are noted, or its line is torn. Nothing is
    signed or presented for it."""

    lock: int

    def __str__(self) -> str:
        return f"unkept {self.lock}"


@dataclass(frozen=True)
class Unkept:
    """An unlock of the party for that lock, with a hashkey that isn't among the notes: somebody
    else has the seed, or what was kept is lost."""

    arc: int
    entry: int
    lock: int

    def __str__(self) -> str:
        return f"unkept {self.arc} {self.entry} {self.lock}"


@dataclass(frozen=True)
class Due:
    """The call may be presented on that arc's ledger by the party of that number. `by` is the last
    height at which it is on time. `until` is the last at which the contract accepts an unlock, or
    at which a published contract opens."""

    arc: int
    party: int
    call: Call
    by: int
    until: int | None = None

    def __str__(self) -> str:
        return f"call {self.arc} {self.party} {heights_words(self.by, self.until)} {self.call}"


@dataclass(frozen=True)
class Keep:
    """The hashkey has to be kept where no crash loses it, and shown to nobody before. The line goes
    into the notes as it was answered. The heights are those of the first call that waits for it."""

    key: Hashkey
    by: int
    until: int

    def __str__(self) -> str:
        lock, key = str(self.key).split(" ", 1)
        return f"keep {lock} {heights_words(self.by, self.until)} {key}"


@dataclass(frozen=True)
class Landing:
    """A publish on that arc was sent, and hasn't landed: it may, at any height. It is on time up to
    `by`, and opens up to `until`."""

    arc: int
    by: int
    until: int

    def __str__(self) -> str:
        return f"landing {self.arc} {heights_words(self.by, self.until)}"


@dataclass(frozen=True)
class Wait:
    """Nothing is due before a call lands on a ledger next to the party or, where there is a height,
    one of them stands above it."""

    until: int | None = None

    def __str__(self) -> str:
        return "wait" if self.until is None else f"wait {self.until}"


@dataclass(frozen=True)
class Done:
    """The swap is over for the party: nothing that lands makes anything due."""

    def __str__(self) -> str:
        return "done"


@dataclass(frozen=True)
class Sent:
    """A note: a publish on that arc went out, or may have."""

    arc: int

    def __str__(self) -> str:
        return f"sent {self.arc}"


@dataclass(frozen=True)
class Never:
    """A note: what was sent on that arc before can't land any more, as another call took its
    nonce."""

    arc: int

    def __str__(self) -> str:
        return f"never {self.arc}"


@dataclass(frozen=True)
class Seen:
    """A note: that arc's ledger stood at that height."""

    arc: int
    height: int

    def __str__(self) -> str:
        return f"seen {self.arc} {self.height}"


Warning = Union[Stale, Stopped, Unkept, Bad]
Told = Union[Warning, Due, Keep, Landing, Wait, Done]
Note = Union[Keep, Sent, Never, Seen]
WARNINGS = (Stale, Stopped, Unkept, Bad)
# The order of an answer's lines: warnings, then what is due, or else that nothing is
PLACES: dict[type[Told], int] = {Stale: 0, Stopped: 1, Unkept: 2, Bad: 3, Keep: 4, Due: 5, Landing: 6, Wait: 7, Done: 7}
DUE, REST = 4, 7


def heights_words(by: int, until: int | None) -> str:
    return f"by {by}" if until is None else f"by {by} until {until}"


def keep_of(words: list[str]) -> Keep:
    lock, by, until, *key = fixed(words, "keep", None, "by", None, "until", None, None, None, None)
    return Keep(Hashkey.of([lock, *key]), number(by), number(until))


def due_of(words: list[str]) -> Due:
    demand(len(words) > 5 and words[3] == "by", "the line is no call")
    has_until = words[5] == "until"
    call = call_of(words[7:] if has_until and len(words) > 7 else words[5:])
    demand(has_until == isinstance(call, (Unlock, Publish)), "an unlock and a publish alone have a last height")
    until = number(words[6]) if has_until else None
    return Due(number(words[1], BYTE), number(words[2], BYTE), call, number(words[4]), until)


def bad_of(words: list[str]) -> Bad:
    demand(len(words) >= 3, "the line is no bad entry")
    arc, entry, said = number(words[1], BYTE), number(words[2]), words[3:]
    if not said:
        return Bad(arc, entry)
    at = 2 if len(said) > 2 and said[1].isdigit() else 1
    return Bad(arc, entry, replied(said[:at]), replied(said[at:]))


def replied(words: list[str]) -> Reply:
    """A reply. What a full ledger replies leaves no entry, so no ledger states it."""
    return Reply(words[0]) if words in (["SenderFull"], ["ClockFull"]) else Reply.of(words)


def warned_of(words: list[str]) -> Stale | Stopped | Unkept:
    """A warning that isn't of a bad entry."""
    if words[0] == "stale":
        at, height = fixed(words, "stale", None, None)
        return Stale(number(at, BYTE), number(height, MOST_NUMBER))
    if len(words) == 2:
        return Stopped(number(words[1], BYTE))
    arc, entry, lock = fixed(words, "unkept", None, None, None)
    return Unkept(number(arc, BYTE), number(entry), number(lock, BYTE))


def told_of(line: str) -> Told:
    words = line.split(" ")
    kind = words[0]
    if kind in ("call", "keep", "bad"):
        return due_of(words) if kind == "call" else keep_of(words) if kind == "keep" else bad_of(words)
    if kind in ("unkept", "stale"):
        return warned_of(words)
    if kind == "landing":
        arc, by, until = fixed(words, "landing", None, "by", None, "until", None)
        return Landing(number(arc, BYTE), number(by), number(until))
    if kind == "wait":
        return Wait(number(fixed(words, "wait", None)[0])) if len(words) > 1 else Wait()
    demand(line == "done", "the line is no answer")
    return Done()


@dataclass(frozen=True)
class Answer:
    """The lines that `party next` answers."""

    told: tuple[Told, ...]

    @classmethod
    def parse(cls, text: str | bytes) -> Answer:
        lines = Lines(text)
        told = [lines.read(told_of)]
        while lines.peek() is not None:
            told.append(lines.read(told_of))
            before, last = PLACES[type(told[-2])], PLACES[type(told[-1])]
            if before > last or before == REST or last == REST and before >= DUE:
                raise lines.refuse("the line doesn't stand behind the one before it")
        if PLACES[type(told[-1])] < DUE:
            raise lines.refuse("what is due, or that nothing is, is wanted behind the warnings")
        lines.end()
        return cls(tuple(told))

    @property
    def rest(self) -> Wait | Done | None:
        """The last line, where nothing is due."""
        last = self.told[-1]
        return last if isinstance(last, (Wait, Done)) else None

    @property
    def warnings(self) -> tuple[Warning, ...]:
        """What is wrong with the ledgers or the notes. It stands beside what is due, and never in
        its place."""
        return tuple(it for it in self.told if isinstance(it, WARNINGS))

    @property
    def due(self) -> tuple[Due | Keep | Landing, ...]:
        """What is to be done, or waited for."""
        return tuple(it for it in self.told if isinstance(it, (Due, Keep, Landing)))

    def lines(self) -> Iterator[str]:
        return map(str, self.told)

    def __str__(self) -> str:
        return joined(self.lines())


# ---- what is handed over


def note_of(line: str) -> Note:
    words = line.split(" ")
    if words[0] == "keep":
        return keep_of(words)
    if words[0] == "seen":
        arc, height = fixed(words, "seen", None, None)
        return Seen(number(arc, BYTE), number(height, MOST_NUMBER))
    kind: type[Sent | Never] = Never if words[0] == "never" else Sent
    return kind(number(fixed(words, words[0] if kind is Never else "sent", None)[0], BYTE))


def agreed_digest(header: str, context: Iterable[str] = ()) -> str:
    """The digest that binds a deal's header line and lines of context, as `party terms` tells it."""
    return sha256(joined([header, *context]).encode()).hexdigest()


@dataclass(frozen=True)
class Ledger:
    """What a wallet tells of an arc's ledger: its lines from the first one on, as they stand there.
    Whether they can be read is `party`'s to say."""

    arc: int
    lines: tuple[str, ...]


@dataclass(frozen=True)
class Now:
    """The height at which that arc's chain stands, final or not."""

    arc: int
    height: int

    def __str__(self) -> str:
        return f"now {self.arc} {self.height}"


@dataclass(frozen=True)
class Margin:
    """In how many heights a call lands on that arc's chain."""

    arc: int
    heights: int

    def __str__(self) -> str:
        return f"margin {self.arc} {self.heights}"


@dataclass(frozen=True)
class Asked:
    """What a wallet hands over: the digest that its owner agreed to, what it wrote down, the deal's
    header line with the context, and each ledger next to its party as far as it saw it. The seed
    stands in a line before it for the program, and apart for the library. `heights` are the chains'
    tips, and in how many heights calls land."""

    agreed: str
    notes: tuple[Note, ...]
    header: str
    context: tuple[str, ...]
    ledgers: tuple[Ledger, ...]
    seed: str | None = field(default=None, repr=False)
    heights: tuple[Now | Margin, ...] = ()

    @classmethod
    def parse(cls, text: str | bytes) -> Asked:
        lines, notes, context, ledgers = Lines(text), [], [], []
        seed = lines.read(seed_of) if lines.begins("seed") else None
        agreed = lines.read(agreed_of)
        while lines.begins("keep", "sent", "never", "seen"):
            notes.append(lines.read(note_of))
        header = lines.next()
        while lines.begins("about"):
            context.append(lines.next())
        while lines.begins("ledger"):
            arc, count = lines.read(heading_of)
            ledgers.append(Ledger(arc, tuple(lines.next() for _ in range(count))))
        heights = []
        while lines.begins("now", "margin"):
            heights.append(lines.read(height_of))
        lines.exactly("end")
        lines.end()
        return cls(agreed, tuple(notes), header, tuple(context), tuple(ledgers), seed, tuple(heights))

    def lines(self) -> Iterator[str]:
        yield from [f"seed {self.seed}"] * (self.seed is not None)
        yield f"agreed {self.agreed}"
        yield from map(str, self.notes)
        yield self.header
        yield from self.context
        for ledger in self.ledgers:
            yield f"ledger {ledger.arc} {len(ledger.lines)}"
            yield from ledger.lines
        yield from map(str, self.heights)
        yield "end"

    def __str__(self) -> str:
        return joined(self.lines())


def seed_of(line: str) -> str:
    return hexadecimal(fixed(line.split(" "), "seed", None)[0])


def agreed_of(line: str) -> str:
    return hexadecimal(fixed(line.split(" "), "agreed", None)[0])


def heading_of(line: str) -> tuple[int, int]:
    arc, count = fixed(line.split(" "), "ledger", None, None)
    return number(arc, BYTE), number(count, (1 << 32) - 1)


def height_of(line: str) -> Now | Margin:
    words = line.split(" ")
    kind: type[Now | Margin] = Now if words[0] == "now" else Margin
    arc, heights = fixed(words, words[0], None, None)
    return kind(number(arc, BYTE), number(heights, MOST_NUMBER))


def kept_for(notes: Iterable[Note]) -> dict[int, Hashkey]:
    """The hashkey that is kept for each lock."""
    return {it.key.lock: it.key for it in notes if isinstance(it, Keep)}
