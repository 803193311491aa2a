"""The calls of examples/vectors/calls.json, told in short, with the signer's hashkeys in them."""
from __future__ import annotations

import re
import sys
from dataclasses import dataclass, field
from functools import cache
from typing import Any, Iterator

sys.dont_write_bytecode = True
from kit_cases import CASES
from signer import deal_id, digest, hashkey, message_of, secret_of, signature
from vector_rows import Header, changed_bit, headers, line_of, numbers_of, seeds

OTHER_SECRET = digest(b"a secret that nobody's seed gives")
TERMS = "start", "delta", "bound", "timelock", "amount"


# ---- hashkeys


@dataclass
class Crafted:
    """A hashkey in the making: what is presented, and what its signatures are over."""

    made: Header
    lock: int
    path: list[int]
    secret: bytes
    sigs: list[bytes] = field(default_factory=list)

    @property
    def identity(self) -> bytes:
        return deal_id(self.made, self.made["mode"] == "hashkeys")

    def sign(self, **other: Any) -> None:
        """Signs along the path, in one thing otherwise where one is named."""
        lock, identity = other.get("lock", self.lock), other.get("identity", self.identity)
        self.sigs = hashkey(identity, seeds(), lock, other.get("path", self.path), other.get("secret", self.secret))[1]

    def sign_first(self, message: bytes, party: int) -> None:
        self.sigs[0] = signature(seeds()[party], party, self.lock, message)

    def over(self, **other: Any) -> bytes:
        """What the first party signs, in one thing otherwise where one is named."""
        inner = self.sigs[1] if self.sigs[1:] else b""
        return message_of(self.identity, self.lock, other.get("path", self.path), self.secret, other.get("inner", inner))


def signed_otherwise(key: Crafted, change: str) -> bool:
    """Signs a hashkey with another thing in what is signed, where the change is of that kind."""
    if change == "signed of another deal":
        key.sign(identity=deal_id(key.made | {"start": key.made["start"] + 1}, True))
    elif change == "signed as of the other version":
        key.sign(identity=deal_id(key.made | {"swap": 3 - key.made["swap"]}, True))
    elif change == "signed for another lock":
        key.sign(lock=1 - key.lock)
    elif change == "signed with another secret":
        key.sign(secret=OTHER_SECRET)
    elif change == "signed without the next signature":
        key.sign_first(key.over(inner=b""), key.path[0])
    elif change == "signed without the rest of the path":
        key.sign_first(key.over(path=key.path[:1]), key.path[0])
    elif change == "the first signed by the last party":
        key.sign_first(key.over(), key.path[-1])
    else:
        return False
    return True


def change_signatures(key: Crafted, change: str) -> None:
    """Changes the signatures, where the change is of that kind."""
    if found := re.fullmatch(r"a (bit|byte more|byte less|step) of the (first|last) signature", change):
        at = 0 if found[2] == "first" else len(key.sigs) - 1
        sig = key.sigs[at]
        stepped = digest(b"\2", sig[:32]) + sig[32:]
        key.sigs[at] = {"bit": changed_bit(sig), "byte more": sig + b"\0", "byte less": sig[:-1], "step": stepped}[found[1]]
    elif change in ("a byte more of the last signature, signed", "a bit of the last signature, signed"):
        key.sigs[-1] = changed_bit(key.sigs[-1]) if "bit" in change else key.sigs[-1] + b"\0"
        for at in reversed(range(len(key.path) - 1)):
            message = message_of(key.identity, key.lock, key.path[at:], key.secret, key.sigs[at + 1])
            key.sigs[at] = signature(seeds()[key.path[at]], key.path[at], key.lock, message)
    elif change == "without the last signature":
        key.sigs.pop()
    elif change == "one signature more":
        key.sigs.append(key.sigs[0])
    elif change == "the first two signatures exchanged":
        key.sigs[:2] = key.sigs[1::-1]
    elif found := re.fullmatch(r"(\d+) signatures", change):
        key.sigs = [key.sigs[0]] * int(found[1])


def change_rest(key: Crafted, change: str) -> None:
    """Changes what isn't a signature, where the change is of that kind."""
    if change == "another secret":
        key.secret = changed_bit(key.secret)
    elif change == "the secret alone":
        key.path, key.sigs = [], []
    elif change == "no path":
        key.path = []
    elif change == "no signatures":
        key.sigs = []
    elif found := re.fullmatch(r"lock (\d+)", change):
        key.lock = int(found[1])
    elif found := re.fullmatch(r"party (\d+)", change):
        key.path[0] = int(found[1])
    elif found := re.fullmatch(r"(\d+) parties", change):
        key.path = (key.path * 40)[: int(found[1])]


def crafted(name: str, lock: int, names: str, changes: list[str]) -> Crafted:
    """A hashkey along a path of a deal, with changes. The secret is that of the lock's leader,
    unless it is named."""
    made = headers()[name][1]
    path = numbers_of(made, names)
    leader = made["leaders"][lock]["party"]
    owner = next((it.removeprefix("secret of ") for it in changes if it.startswith("secret of ")), leader)
    key = Crafted(made, lock, path, secret_named(made, owner))
    key.sign()
    for change in changes:
        if not signed_otherwise(key, change):
            change_signatures(key, change)
            change_rest(key, change)
    return key


def secret_named(made: Header, name: str) -> bytes:
    return OTHER_SECRET if name == "other" else secret_of(seeds()[numbers_of(made, name)[0]])


# ---- calls


class Case:
    """The lines of a case with their answers; the accounts are followed by the replies."""

    def __init__(self, rule: str, deal: str, arc: int, accounts: list[int]) -> None:
        self.rule, self.deal, self.arc = rule, deal, arc
        self.made = headers()[deal][1]
        self.amount: int = self.made["arcs"][arc]["amount"]
        self.accounts = accounts or [self.amount, 0]
        self.first = list(self.accounts)
        self.held = 0
        self.lines: list[tuple[str, str]] = []
        self.names = [party["name"] for party in self.made["parties"]]
        self.ends = [self.names.index(self.made["arcs"][arc][it]) for it in ("from", "to")]

    def publish(self, words: list[str]) -> tuple[str, int]:
        """A publish, with the named terms in place of the correct ones, and its amount."""
        stated = {it: self.made.get(it, 0) for it in TERMS} | {"timelock": 0} | self.made["arcs"][self.arc]
        stated |= {"locks": ",".join(it["party"] for it in self.made["leaders"])} | dict(it.split("=") for it in words)
        locks = [digest(secret_named(self.made, it)).hex() for it in stated["locks"].split(",") if it != "none"]
        return " ".join(["publish", *(str(stated[it]) for it in TERMS), *locks]), int(stated["amount"])

    def unlock(self, words: str, signatures: dict[bytes, str]) -> str:
        along, *changes = (it.strip() for it in words.split(";"))
        lock, _, names = along.partition(":")
        key = crafted(self.deal, int(lock), names, changes)
        sigs = [signatures.setdefault(it, f"<s{len(signatures)}>") for it in key.sigs]
        return " ".join(["unlock", str(key.lock), key.secret.hex(), ",".join(map(str, key.path)) or "-", ",".join(sigs) or "-"])

    def add(self, words: str, signatures: dict[bytes, str]) -> None:
        """A height, or a call with its reply, and the balances behind it."""
        words, _, reply = words.partition(" => ")
        sender = ""
        if found := re.fullmatch(r"(.*) by (\w+)", words):
            words, sender = found.groups()
        kind, _, rest = words.strip().partition(" ")
        if kind == "at":
            self.lines.append((f"height {rest}", "ok"))
            return
        amount, call = 0, words
        if kind == "publish":
            call, amount = self.publish(rest.split())
        elif kind == "open":
            call = self.unlock(rest, signatures)
        usual = self.ends[kind in ("open", "claim")]
        self.lines.append((f"call {self.names.index(sender) if sender else usual} {call}", reply or "accepted"))
        if not reply:
            self.settle(kind, amount)
        self.lines.append(("balances", f"{self.accounts[0]} {self.accounts[1]} {self.held}"))

    def settle(self, kind: str, amount: int) -> None:
        """What an accepted call moves."""
        if kind == "publish":
            self.accounts[0], self.held = self.accounts[0] - amount, amount
        elif kind != "open":
            self.accounts[kind == "claim"] += self.held
            self.held = 0

    def line(self) -> str:
        told = {"rule": self.rule, "deal": self.deal, "arc": self.arc, "accounts": self.first}
        return line_of(told)[:-1] + ',"lines":[\n  ' + ",\n  ".join(map(line_of, self.lines)) + "]}"


def ascending(lines: list[str]) -> Iterator[list[str]]:
    """The lines of cases whose heights never fall: where one does, another case begins with the
    accepted calls before it."""
    height, own = 0, list[str]()
    for line in lines:
        if line.startswith("at ") and int(line[3:]) < height:
            yield own
            own = [it for it in own if " => " not in it and not it.startswith("at ")]
        height = int(line[3:]) if line.startswith("at ") else height
        own = [*own, line]
    yield own


def cases(signatures: dict[bytes, str]) -> Iterator[Case]:
    for text in re.split(r"(?m)^== ", CASES)[1:]:
        head, *lines = text.strip().split("\n")
        rule, _, where = head.rpartition(": ")
        deal, arc, *accounts = where.split()
        for own in ascending(lines):
            case = Case(rule, deal, int(arc), list(map(int, accounts)))
            for words in own:
                case.add(words, signatures)
            yield case


@cache
def calls_text() -> str:
    """The text of calls.json."""
    signatures: dict[bytes, str] = {}
    told = ",\n".join(it.line() for it in cases(signatures))
    rows = ",\n".join(f'"{name[1:-1]}":"{sig.hex()}"' for sig, name in signatures.items())
    return f'{{"cases":[\n{told}\n],"signatures":{{\n{rows}\n}}}}\n'
