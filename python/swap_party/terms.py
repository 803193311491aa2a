"""A party's row, which makes a deal without anybody's seed, and a party's terms, which its owner
agrees to."""
from __future__ import annotations

from collections.abc import Iterator
from dataclasses import dataclass
from functools import partial
from typing import Union

from .calls import BYTE, MOST_UNITS
from .header import HASHKEYS, TIMELOCKS
from .lines import Lines, demand, fixed, hexadecimal, joined, list_word, members, name, number


@dataclass(frozen=True)
class Row:
    """What a party's seed gives a deal: its hashlock, where it leads, and its public keys."""

    name: str
    hashlock: str | None
    keys: tuple[str, ...]

    @classmethod
    def parse(cls, text: str | bytes) -> Row:
        lines = Lines(text)
        row = lines.read(row_of)
        lines.end()
        return row

    def __str__(self) -> str:
        return f"row {self.name} {self.hashlock or '-'} {list_word(self.keys)}\n"


def row_of(line: str) -> Row:
    party, hashlock, keys = fixed(line.split(" "), "row", None, None, None)
    return Row(name(party), None if hashlock == "-" else hexadecimal(hashlock), tuple(map(hexadecimal, members(keys))))


@dataclass(frozen=True)
class Pays:
    """The party pays so many units on that arc's ledger. Its publish is on time up to a height, and
    the units come back from a height on, if they come back."""

    arc: int
    name: str
    amount: int
    publish_by: int
    back: int

    def __str__(self) -> str:
        return f"pays {self.arc} {self.name} {self.amount} publish by {self.publish_by} back {self.back}"


@dataclass(frozen=True)
class Gets:
    """The party is paid so many units on that arc's ledger, whose locks may be opened up to a
    height. It has claimed by another, where it is paid."""

    arc: int
    name: str
    amount: int
    open_until: int
    claim_by: int

    def __str__(self) -> str:
        return f"gets {self.arc} {self.name} {self.amount} open until {self.open_until} claim by {self.claim_by}"


@dataclass(frozen=True)
class About:
    """A line of context of that arc."""

    arc: int
    text: str

    def __str__(self) -> str:
        return f"about {self.arc} {self.text}"


@dataclass(frozen=True)
class Leads:
    """The party leads that lock, and shows its secret up to that height or never."""

    lock: int
    show_by: int

    def __str__(self) -> str:
        return f"leads {self.lock} show by {self.show_by}"


@dataclass(frozen=True)
class Awake:
    """Up to which height the party's wallet may have something to do."""

    until: int

    def __str__(self) -> str:
        return f"awake until {self.until}"


Term = Union[Pays, Gets, About, Leads, Awake]


def term_of(line: str) -> Term:
    words = line.split(" ")
    if words[0] == "pays":
        arc, to, amount, by, back = fixed(words, "pays", None, None, None, "publish", "by", None, "back", None)
        return Pays(number(arc, BYTE), name(to), number(amount, MOST_UNITS), number(by), number(back))
    if words[0] == "gets":
        arc, payer, amount, last, claim = fixed(words, "gets", None, None, None, "open", "until", None, "claim", "by", None)
        return Gets(number(arc, BYTE), name(payer), number(amount, MOST_UNITS), number(last), number(claim))
    if words[0] == "about":
        about = line.split(" ", 2)
        demand(len(about) == 3 and about[2], "the line is no context")
        return About(number(about[1], BYTE), about[2])
    if words[0] == "awake":
        return Awake(number(fixed(words, "awake", "until", None)[0]))
    lock, show = fixed(words, "leads", None, "show", "by", None)
    return Leads(number(lock, BYTE), number(show))


@dataclass(frozen=True)
class Terms:
    """What `party terms` tells: `agree` is the digest that wallets compare, and that `party next`
    asks for."""

    name: str
    party: int
    parties: int
    deal: str
    agree: str
    mode: str
    start: int
    delta: int
    bound: int
    horizon: int
    terms: tuple[Term, ...]

    @classmethod
    def parse(cls, text: str | bytes) -> Terms:
        lines = Lines(text)
        who, party, parties = lines.read(party_of)
        deal, agree = lines.read(partial(digest_of, "deal")), lines.read(partial(digest_of, "agree"))
        mode, start, delta, bound, horizon = lines.read(mode_of)
        terms = []
        while lines.peek() is not None:
            terms.append(lines.read(term_of))
        lines.end()
        return cls(who, party, parties, deal, agree, mode, start, delta, bound, horizon, tuple(terms))

    def lines(self) -> Iterator[str]:
        yield f"terms {self.name} {self.party} of {self.parties}"
        yield f"deal {self.deal}"
        yield f"agree {self.agree}"
        yield f"mode {self.mode} start {self.start} delta {self.delta} bound {self.bound} horizon {self.horizon}"
        yield from map(str, self.terms)

    def __str__(self) -> str:
        return joined(self.lines())


def party_of(line: str) -> tuple[str, int, int]:
    who, party, parties = fixed(line.split(" "), "terms", None, None, "of", None)
    return name(who), number(party), number(parties)


def digest_of(word: str, line: str) -> str:
    return hexadecimal(fixed(line.split(" "), word, None)[0])


def mode_of(line: str) -> tuple[str, int, int, int, int]:
    mode, *times = fixed(line.split(" "), "mode", None, "start", None, "delta", None, "bound", None, "horizon", None)
    demand(mode in (HASHKEYS, TIMELOCKS), "there is no such mode")
    start, delta, bound, horizon = map(number, times)
    return mode, start, delta, bound, horizon
