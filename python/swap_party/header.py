"""The header of a job: its deal and its parties."""
from __future__ import annotations

import json
from collections.abc import Mapping
from dataclasses import dataclass
from functools import cached_property
from hashlib import sha256
from typing import Any

from .calls import Publish
from .lines import DIGEST, WordError, demand, name

TIMELOCKS, HASHKEYS = "timelocks", "hashkeys"
MOST_PARTIES, MOST_ARCS = {1: 24, 2: 32}, {1: 96, 2: 128}
DEAL_FIELDS = {"swap", "mode", "start", "delta", "bound", "parties", "arcs", "leaders"}


@dataclass(frozen=True)
class Member:
    """A party, and who plays it in a transcript: `conforming` or `manual`."""

    name: str
    actor: str = "conforming"


@dataclass(frozen=True)
class Arc:
    """A transfer that is proposed. The timelock is None with hashkeys."""

    party: str
    counterparty: str
    amount: int
    timelock: int | None = None


@dataclass(frozen=True)
class Leader:
    party: str
    hashlock: str


@dataclass(frozen=True)
class Header:
    """A header line as a transcript has it, without seeds. `line` is its spelling."""

    version: int
    mode: str
    start: int
    delta: int
    bound: int
    parties: tuple[Member, ...]
    arcs: tuple[Arc, ...]
    leaders: tuple[Leader, ...]
    keys: tuple[tuple[str, ...], ...]
    line: str

    @classmethod
    def of(cls, line: str) -> Header:
        """Reads a header line. Whether its deal is accepted is asked of `check`."""
        fields = json_object(line)
        version = number_in(fields, "swap", 1, 2)
        mode = fields.get("mode")
        demand(mode in (HASHKEYS,) + (TIMELOCKS,) * (version == 1), "mode is of another kind")
        keyed = mode == HASHKEYS
        only(fields, DEAL_FIELDS | ({"keys"} if keyed else set()), "the header")
        parties = tuple(map(member_of, list_in(fields, "parties", 2, MOST_PARTIES[version])))
        arcs = tuple(arc_of(it, keyed) for it in list_in(fields, "arcs", 2, MOST_ARCS[version]))
        leaders = tuple(map(leader_of, list_in(fields, "leaders", 1, 8)))
        names = [it.name for it in parties]
        demand(len(set(names)) == len(names), "a name stands twice")
        for named in [end for arc in arcs for end in (arc.party, arc.counterparty)] + [it.party for it in leaders]:
            demand(named in names, f"{named!r} is no party's name")
        return cls(
            version,
            str(mode),
            number_in(fields, "start", 1, 1000),
            number_in(fields, "delta", 1, 100),
            number_in(fields, "bound", 1, 64),
            parties,
            arcs,
            leaders,
            keys_in(fields, len(parties), len(leaders)) if keyed else (),
            line,
        )

    @classmethod
    def of_job(cls, line: str) -> tuple[Header, dict[str, bytes]]:
        """The header of a made job as a transcript has it, with every party conforming, and each
        party's seed."""
        fields = json_object(line)
        demand(isinstance(fields.get("parties"), list), "parties is of another kind")
        seeds = {str(it.get("name")): bytes.fromhex(str(it.get("seed", ""))) for it in fields["parties"]}
        fields["parties"] = [{"name": it.get("name"), "actor": "conforming"} for it in fields["parties"]]
        fields.pop("finish", None)
        return cls.of(compact(fields)), seeds

    @cached_property
    def names(self) -> tuple[str, ...]:
        return tuple(it.name for it in self.parties)

    @cached_property
    def ends(self) -> tuple[tuple[int, int], ...]:
        """The numbers of each arc's party and counterparty."""
        number = {name: at for at, name in enumerate(self.names)}
        return tuple((number[arc.party], number[arc.counterparty]) for arc in self.arcs)

    @property
    def horizon(self) -> int:
        return self.start + (2 * self.bound + 2) * self.delta

    def publish(self, arc: int) -> Publish:
        """The correct terms of an arc's contract."""
        locks = tuple(it.hashlock.lower() for it in self.leaders)
        return Publish(self.start, self.delta, self.bound, self.arcs[arc].timelock or 0, self.arcs[arc].amount, locks)

    def deal_bytes(self) -> bytes:
        """docs/FORMATS.md, 'The deal bytes'."""
        told = [bytes([self.version, self.mode == HASHKEYS, len(self.parties), len(self.arcs)])]
        for arc, ends in zip(self.arcs, self.ends):
            told.append(bytes(ends) + arc.amount.to_bytes(8, "big") + (arc.timelock or 0).to_bytes(4, "big"))
        told.append(bytes([len(self.leaders), *(self.names.index(it.party) for it in self.leaders)]))
        told += [it.to_bytes(4, "big") for it in (self.start, self.delta, self.bound)]
        told += [bytes.fromhex(it.hashlock) for it in self.leaders]
        return b"".join(told) + b"".join(bytes.fromhex(key) for row in self.keys for key in row)

    def deal_id(self) -> bytes:
        return sha256(b"\6" + self.deal_bytes()).digest()

    def __str__(self) -> str:
        return self.line


def compact(fields: Mapping[str, Any]) -> str:
    """Compact JSON, the fields of each object in the order of their bytes."""
    return json.dumps(fields, separators=(",", ":"), sort_keys=True)


def whole(text: str) -> int | float:
    """A number without sign; one with a sign is of another kind."""
    return float(text) if text.startswith("-") or len(text) > 20 else int(text)


def no_constant(text: str) -> None:
    raise WordError(f"{text} is no JSON")


def json_object(line: str) -> dict[str, Any]:
    try:
        fields = json.loads(line, parse_int=whole, parse_constant=no_constant)
    except (ValueError, RecursionError):
        raise WordError("the line is no JSON") from None
    demand(isinstance(fields, dict), "the line is no JSON object")
    return dict(fields)


def only(fields: Mapping[str, Any], allowed: set[str], where: str) -> None:
    unknown = sorted(set(fields) - allowed)
    demand(not unknown, f"{where} has a field {unknown[0]!r}" if unknown else "")


def number_in(fields: Mapping[str, Any], field: str, least: int, most: int) -> int:
    value = fields.get(field)
    demand(type(value) is int, f"{field} is of another kind")
    assert isinstance(value, int)
    demand(least <= value <= most, f"{field} is outside of {least}..{most}")
    return value


def list_in(fields: Mapping[str, Any], field: str, least: int, most: int) -> list[dict[str, Any]]:
    value = fields.get(field)
    demand(isinstance(value, list) and all(isinstance(it, dict) for it in value), f"{field} is of another kind")
    assert isinstance(value, list)
    demand(least <= len(value) <= most, f"{field} has fewer than {least} or more than {most} members")
    return value


def text_in(fields: Mapping[str, Any], field: str) -> str:
    value = fields.get(field)
    demand(isinstance(value, str), f"{field} is of another kind")
    return str(value)


def hexadecimal_in(value: object, field: str) -> str:
    """Digits of either case, as they stand."""
    demand(isinstance(value, str), f"{field} is of another kind")
    text = str(value)
    demand(len(text) == DIGEST and not set(text) - set("0123456789abcdefABCDEF"), f"{field} is no text of {DIGEST} hexadecimal digits")
    return text


def member_of(fields: dict[str, Any]) -> Member:
    only(fields, {"name", "actor"}, "a party")
    actor = fields.get("actor", "conforming")
    demand(actor in ("conforming", "manual"), "actor is of another kind")
    return Member(name(text_in(fields, "name")), str(actor))


def arc_of(fields: dict[str, Any], keyed: bool) -> Arc:
    only(fields, {"from", "to", "amount"} | (set() if keyed else {"timelock"}), "an arc")
    timelock = None if keyed else number_in(fields, "timelock", 0, 1_000_000)
    return Arc(text_in(fields, "from"), text_in(fields, "to"), number_in(fields, "amount", 1, 10**12), timelock)


def leader_of(fields: dict[str, Any]) -> Leader:
    only(fields, {"party", "hashlock"}, "a leader")
    return Leader(text_in(fields, "party"), hexadecimal_in(fields.get("hashlock"), "hashlock"))


def keys_in(fields: Mapping[str, Any], parties: int, locks: int) -> tuple[tuple[str, ...], ...]:
    rows = fields.get("keys")
    demand(isinstance(rows, list) and all(isinstance(row, list) for row in rows), "keys is of another kind")
    assert isinstance(rows, list)
    demand(len(rows) == parties and all(len(row) == locks for row in rows), "keys has another length")
    return tuple(tuple(hexadecimal_in(key, "keys") for key in row) for row in rows)
