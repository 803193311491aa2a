"""What workers are asked and what they answer. Asked twice, they answer the same."""
from __future__ import annotations

import os
import subprocess
import zlib
from collections.abc import Callable, Iterable, Mapping
from dataclasses import dataclass
from functools import lru_cache
from importlib import import_module
from typing import Any, TypeVar

from swap_party import Cleared, Plain
from swap_party import RefusedError as PartyRefusedError
from swap_party.header import json_object
from swap_party.many import Chain
from swap_party.report import Ledger, Report

from .limits import Fits

TRIES = 3
PAID, RETURNED, HELD = "paid", "returned", "held"
Asked = TypeVar("Asked")
Answer = TypeVar("Answer")


class FaultError(Exception):
    """A program, a worker or the state didn't do what it promises, or couldn't be had."""


class RefusedError(Exception):
    """The program refused its input, with this reason."""


@dataclass(frozen=True)
class Programs:
    """The paths of `swap` and `party`, and that of the library where `swap` is asked in it."""

    swap: str
    party: str
    library: str = ""


Task = Callable[[Programs, Asked], Answer]


@dataclass(frozen=True)
class Group:
    """A group to be made a swap: the line that `clear` reads, the asset of each arc, and who stays
    away."""

    number: int
    line: str
    assets: tuple[str, ...]
    away: tuple[str, ...]


@dataclass(frozen=True)
class Prepared:
    """A group's header, or the reason why it can't be a swap."""

    number: int
    leaders: int
    header: str
    refused: str = ""


@dataclass(frozen=True)
class Placed:
    """A swap of a batch: its header, the chain of each arc, and who stays away."""

    number: int
    header: str
    chains: tuple[int, ...]
    away: tuple[str, ...]


@dataclass(frozen=True)
class Batch:
    """Swaps that settle together, on chains with these accounts."""

    number: int
    chains: tuple[Chain, ...]
    swaps: tuple[Placed, ...]


@dataclass(frozen=True)
class Ended:
    """How a swap ended: each arc, how many parties with which outcome, what was found, and a text
    that the page draws, compressed."""

    arcs: tuple[str, ...]
    outcomes: Mapping[str, int]
    findings: tuple[str, ...]
    drawn: bytes


@dataclass(frozen=True)
class Settled:
    number: int
    swaps: tuple[Ended, ...]


@dataclass(frozen=True)
class Way:
    """A way to settle: which groups fit, how many swaps go into a batch, and what workers are asked
    for."""

    fits: Fits
    swaps_in_batch: int
    prepare: Task[Group, Prepared]
    settle: Task[Batch, Settled]


@dataclass(frozen=True)
class Done:
    """How a program ended: its status, what it wrote, and the last line that it told."""

    status: int
    output: str
    told: str


ENVIRONMENT = {**os.environ, "SWAP_PLAIN": "1", "SWAP_QUIET": "1"}


def run(words: list[str], text: str) -> Done:
    try:
        done = subprocess.run(words, input=text, capture_output=True, text=True, check=False, env=ENVIRONMENT)
    except OSError as why:
        raise FaultError(f"{words[0]}: {why.strerror}") from None
    return Done(done.returncode, done.stdout, last_line(done.stderr))


@lru_cache(maxsize=None)
def library_of(path: str) -> tuple[Any, Any]:
    """The module that asks the library as it does the program, and the library."""
    from swap_party import Library

    return import_module("swap_party.program"), Library(path)


def has_program(path: str) -> bool:
    """Whether a library answers as the program does."""
    try:
        module, library = library_of(path)
        return bool(module.answer(["clear"], "", library=library).status == 3)
    except (ImportError, OSError, AttributeError):
        return False


def run_swap(programs: Programs, words: list[str], text: str) -> Done:
    """Asks `swap`: in this process where there is the library, or else by a process."""
    if not programs.library:
        return run([programs.swap, *words], text)
    module, library = library_of(programs.library)
    ended = module.answer(words, text, library=library)
    output, told = (it.decode() if isinstance(it, bytes) else str(it) for it in (ended.output, ended.told))
    return Done(int(ended.status), output, last_line(told))


def last_line(told: str) -> str:
    return (told.strip().splitlines() or ["it told nothing"])[-1]


def ask_swap(programs: Programs, words: list[str], text: str) -> str:
    """What `swap` writes."""
    return wanted(" ".join(["swap", *words[:1]]), lambda: run_swap(programs, words, text))


def deal_of(programs: Programs, offer: str, rows: Iterable[str]) -> str:
    """The header line of the deal of everybody's rows, by `party deal`."""
    if not programs.library:
        return wanted("party deal", lambda: run([programs.party, "deal"], offer + "".join(rows))).strip()
    try:
        return str(library_of(programs.library)[1].deal(offer, rows)).strip()
    except PartyRefusedError as why:
        raise RefusedError(why.reason) from None


def wanted(what: str, asking: Callable[[], Done]) -> str:
    """What a program writes. Where it is killed it is asked again."""
    for _ in range(TRIES):
        done = asking()
        if done.status == 3:
            raise RefusedError(done.told.rpartition("refused: ")[2])
        if done.status in (0, 1):
            return done.output
        if done.status > 0:
            break
    raise FaultError(f"{what} ended with status {done.status}: {done.told}")


def cleared(programs: Programs, group: Group) -> Plain:
    """The plain offer that `clear` makes of a group, which it has to leave whole."""
    told = Cleared.parse(ask_swap(programs, ["clear"], group.line))
    line = json_object(group.line)
    if told.left_out or len(told.groups) != 1:
        raise FaultError(f"group {group.number} was cut, and `clear` cut it further")
    plain = told.groups[0].plain
    arcs = [{"from": it.party, "to": it.counterparty, "amount": it.amount} for it in plain.arcs]
    if list(plain.parties) != line["parties"] or arcs != line["arcs"]:
        raise FaultError(f"`clear` changed group {group.number}")
    return plain


def ended(report: Report, drawn: str) -> Ended:
    told = [it.outcome for it in report.parties]
    outcomes = {it: told.count(it) for it in sorted(set(told))}
    return Ended(tuple(map(end_of, report.ledgers)), outcomes, tuple(map(str, report.findings)), zlib.compress(drawn.encode()))


def end_of(ledger: Ledger) -> str:
    """Where an arc's units are: all of them are in one place."""
    places = {PAID: ledger.balances[1], RETURNED: ledger.balances[0], HELD: ledger.held}
    found = [place for place, units in places.items() if units == ledger.amount]
    if len(found) != 1 or sum(places.values()) != ledger.amount:
        raise FaultError(f"the units of {ledger.party} are in several places")
    return found[0]
