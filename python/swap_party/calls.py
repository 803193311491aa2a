"""Calls on a ledger, replies, and entries, in the words of a transcript."""
from __future__ import annotations

from dataclasses import dataclass, field
from typing import ClassVar, Union

from .lines import SIGNATURE, demand, fixed, hexadecimal, list_word, members, number

MOST_NUMBER, MOST_UNITS, BYTE, MOST_PATH = 1_000_000, 10**12, 255, 32
PLAIN_REPLIES = frozenset(
    "accepted NoContract Settled NotCounterparty NotParty AlreadyPublished AlreadyUnlocked WrongSecret WrongPath WrongSignature NothingLocked".split()
)
MOST_OF_REPLY = {"NoFunds": (1 << 64) - 1, "TooLate": (1 << 64) - 1, "NotExpired": (1 << 64) - 1, "StillLocked": BYTE}


@dataclass(frozen=True)
class Reply:
    """A ledger's reply: `accepted`, or the name of the refusal with its number, where it has
    one."""

    name: str
    value: int | None = None

    @classmethod
    def of(cls, words: list[str]) -> Reply:
        if len(words) == 1:
            demand(words[0] in PLAIN_REPLIES, f"{words[0]!r} is no reply")
            return cls(words[0])
        demand(len(words) == 2 and words[0] in MOST_OF_REPLY, f"{' '.join(words)!r} is no reply")
        return cls(words[0], number(words[1], MOST_OF_REPLY[words[0]]))

    def __str__(self) -> str:
        return self.name if self.value is None else f"{self.name} {self.value}"


ACCEPTED = Reply("accepted")


@dataclass(frozen=True)
class Publish:
    """The terms of a contract: heights, amount, and a lock per leader."""

    kind: ClassVar[str] = "publish"
    start: int
    delta: int
    bound: int
    timelock: int
    amount: int
    locks: tuple[str, ...]

    @classmethod
    def of(cls, words: list[str]) -> Publish:
        demand(len(words) >= 6, "a publish has five numbers and a lock")
        start, delta, bound, timelock = (number(word, MOST_NUMBER) for word in words[:4])
        return cls(start, delta, bound, timelock, number(words[4], MOST_UNITS), tuple(map(hexadecimal, words[5:])))

    def __str__(self) -> str:
        return " ".join(["publish", *map(str, (self.start, self.delta, self.bound, self.timelock, self.amount)), *self.locks])


@dataclass(frozen=True)
class Hashkey:
    """What opens a lock: the secret, a path of parties, and a signature of each of them, in
    hexadecimal."""

    lock: int
    secret: str = field(repr=False)
    path: tuple[int, ...]
    sigs: tuple[str, ...] = field(repr=False)

    @classmethod
    def of(cls, words: list[str]) -> Hashkey:
        lock, secret, path, sigs = fixed(words, None, None, None, None)
        key = cls(
            number(lock, BYTE),
            hexadecimal(secret),
            tuple(number(word, BYTE) for word in members(path)),
            tuple(hexadecimal(word, SIGNATURE) for word in members(sigs)),
        )
        demand(max(len(key.path), len(key.sigs)) <= MOST_PATH, f"a hashkey has at most {MOST_PATH} parties and signatures")
        return key

    def __str__(self) -> str:
        return f"{self.lock} {self.secret} {list_word(self.path)} {list_word(self.sigs)}"


@dataclass(frozen=True)
class Unlock:
    kind: ClassVar[str] = "unlock"
    key: Hashkey

    def __str__(self) -> str:
        return f"unlock {self.key}"


@dataclass(frozen=True)
class Claim:
    kind: ClassVar[str] = "claim"

    def __str__(self) -> str:
        return "claim"


@dataclass(frozen=True)
class Refund:
    kind: ClassVar[str] = "refund"

    def __str__(self) -> str:
        return "refund"


@dataclass(frozen=True)
class Transfer:
    kind: ClassVar[str] = "transfer"
    to: int
    units: int

    @classmethod
    def of(cls, words: list[str]) -> Transfer:
        to, units = fixed(words, None, None)
        return cls(number(to, BYTE), number(units, MOST_UNITS))

    def __str__(self) -> str:
        return f"transfer {self.to} {self.units}"


Call = Union[Publish, Unlock, Claim, Refund, Transfer]


def call_of(words: list[str]) -> Call:
    """The call that words tell."""
    kind, *rest = words
    if kind in ("claim", "refund"):
        fixed(rest)
        return Claim() if kind == "claim" else Refund()
    if kind == "publish":
        return Publish.of(rest)
    if kind == "unlock":
        return Unlock(Hashkey.of(rest))
    demand(kind == "transfer", f"{kind!r} is no call")
    return Transfer.of(rest)


@dataclass(frozen=True)
class Tick:
    """A ledger's height rose by so many."""

    by: int

    def __str__(self) -> str:
        return f"t {self.by}"


@dataclass(frozen=True)
class Called:
    """A call of a party, by its number, and the ledger's reply."""

    party: int
    call: Call
    reply: Reply = ACCEPTED

    def __str__(self) -> str:
        return f"c {self.party} {self.call} = {self.reply}"


Entry = Union[Tick, Called]


def entry_of(line: str) -> Entry:
    """The entry that a line of a transcript tells."""
    words = line.split(" ")
    if words[0] == "t":
        (by,) = fixed(words, "t", None)
        demand(by != "0", "a tick is by 1 at least")
        return Tick(number(by, MOST_NUMBER))
    demand(words[0] == "c" and len(words) > 3 and "=" in words[3:], "the line is no entry")
    at = words.index("=")
    return Called(number(words[1], BYTE), call_of(words[2:at]), Reply.of(words[at + 1 :]))
