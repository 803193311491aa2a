"""A party's wallet, to embed: rules 1 to 6 of docs/using/wallet.md behind three callbacks."""
from __future__ import annotations

import os
import re
import sys
from collections.abc import Callable, Iterable, Mapping, Sequence
from dataclasses import dataclass
from typing import NamedTuple, Protocol, Union

from .answer import Answer, Asked, Bad, Done, Due, Keep, Landing, Ledger, Margin, Never, Now, Seen, Sent, Wait
from .answer import Warning as Warned
from .calls import MOST_NUMBER, Call, Publish
from .clocks import Clock, Slow, Stopwatch
from .header import Header
from .notes import Agreement, Notes
from .seeds import Seed
from .terms import Terms
from .wallet import Build, NoAnswerError, Party

WALKS = "walks away"
# What ends no line
NO_LINE = dict.fromkeys(range(32), "?")


@dataclass(frozen=True)
class Reading:
    """A chain as far as it is final: its entries from the first one on, in a transcript's words, and
    the height at which the chain stands, final or not, where that is known."""

    lines: Sequence[str]
    tip: int | None = None


class Chains(Protocol):
    """The three callbacks."""

    def read(self, arc: int) -> Reading:
        """That arc's ledger, as it is final now. Where it can't be read in time this raises: then
        nothing is signed, published, or presented there, and all else goes on."""

    def present(self, arc: int, call: Call, until: int | None) -> None:
        """Hands a call to the network. It may land later, and above the height `until` it is of no
        use. A publish is presented again until it stands there, and has to land once: it carries
        the same nonce each time. Where this raises, the call is presented again at the next step."""

    def sleep(self, until: int | None) -> None:
        """Returns once, since they were read, a call landed on a ledger of the party, or one of them
        rose to above the height; without a height once a call landed. Sooner is as well."""


class NotProvedError(RuntimeError):
    """What answers is the model, which is slow and proves nothing."""


@dataclass(frozen=True)
class Unreached:
    """A warning: that arc's chain couldn't be read, or took no call. What wasn't read counts as stale:
    the wallet goes by what it read before, as far as nobody can be hurt by that."""

    arc: int
    why: str

    def __str__(self) -> str:
        return f"unreached {self.arc} {self.why}"


Warning = Union[Warned, Unreached, Slow]


@dataclass(frozen=True)
class Step:
    """One asking, obeyed: the answer, the calls that were presented, what is wrong, and whether a
    hashkey was kept, so that it asks again at once. `useless` are publishes that were sent, may land,
    and are of no use any more: replace each by its nonce, and say so by `Wallet.replaced`."""

    answer: Answer
    presented: tuple[Due, ...]
    warnings: tuple[Warning, ...]
    has_kept: bool
    heights: Mapping[int, int]
    until: int | None
    useless: tuple[Landing, ...] = ()

    @property
    def is_done(self) -> bool:
        return isinstance(self.answer.rest, Done) and not any(isinstance(it, Unreached) for it in self.warnings)

    @property
    def rests(self) -> bool:
        """Whether nothing is left to do at these heights."""
        return self.answer.rest is not None or set(self.answer.due) == set(self.useless)


# A line of a ledger's rise. A longer number is no entry.
RISE = re.compile("t ([0-9]{1,20})")


class Quiet(NamedTuple):
    """An answer that nothing is due, which holds until a call lands, or a ledger stands above its
    height: the calls that were told, by arc, and the number of notes."""

    answer: Answer
    calls: Mapping[int, Sequence[str]]
    notes: int

    def holds(self, other: Quiet, heights: Mapping[int, int]) -> bool:
        """Whether nothing else is told than ticks up to the height."""
        until = self.answer.rest.until if isinstance(self.answer.rest, Wait) else None
        return (until is None or max(heights.values()) <= until) and (self.calls, self.notes) == (other.calls, other.notes)


def calls_in(lines: Iterable[str]) -> list[str]:
    return [line for line in lines if not line.startswith("t ")]


def risen(lines: Iterable[str]) -> int:
    """The height of a ledger with these lines."""
    return min(MOST_NUMBER, sum(int(found[1]) for found in map(RISE.fullmatch, lines) if found))


def one_line(entry: str) -> str:
    """An entry as one line of ASCII. Of one that isn't, nothing that counts is changed: no contract
    takes it."""
    return entry if entry.isascii() and entry.isprintable() else entry.encode("ascii", "replace").decode().translate(NO_LINE)


def on_standard_error(line: str) -> None:
    print(line, file=sys.stderr)


class Wallet:
    """The wallet of one party in one swap. Killed at any line and started again with the same notes
    it goes on from there. It keeps what it must before it shows it, and presents only what it was
    answered; a warning never stands in a call's place."""

    def __init__(
        self, party: Party, name: str, seed: Seed, notes: str | os.PathLike[str], chains: Chains, *, margins: Mapping[int, int] | None = None,
        clock: Clock | None = None, allow_unproved: bool = False, tell: Callable[[str], object] = on_standard_error,
    ) -> None:  # fmt: skip
        self.party, self.name, self._seed, self.chains, self.tell = party, name, seed, chains, tell
        self.margins, self.planned = dict(margins or {}), clock or Clock()
        if not all(0 <= it <= MOST_NUMBER for it in self.margins.values()):
            raise ValueError(f"a margin is 0 to {MOST_NUMBER} heights")
        self._examine(party.build(), allow_unproved)
        self._told: set[str] = set()
        self._tips: dict[tuple[int, str], int] = {}
        self._read: dict[int, Reading] = {}
        self._quiet: Quiet | None = None
        self._began = False
        self.notes = Notes(notes)
        try:
            if agreement := self.notes.agreement:
                self._take(agreement)
        except BaseException:
            self.notes.close()
            raise

    def _examine(self, build: Build, allow_unproved: bool) -> None:
        if allow_unproved or build is Build.PROVED:
            return
        if build is Build.MODEL:
            raise NotProvedError("a model answers, which proves nothing")
        self.tell(f"{self.name}: what answers is built without its proofs")

    # ---- before the swap
    def row(self, offer: str) -> str:
        """This party's row. Sync the seed before it leaves."""
        return self.party.keys(self.name, self._seed.bytes, offer)

    def terms(self, header: str, context: Iterable[str] = ()) -> Terms:
        """What the owner would agree to."""
        return Terms.parse(self.party.terms(self.name, "".join(f"{line}\n" for line in (header, *context))))

    def agree(self, header: str, context: Iterable[str] = ()) -> Terms:
        """Agrees, once. The digest that `terms` tells has to be everybody's."""
        context = tuple(context)
        terms = self.terms(header, context)
        self.notes.agree(Agreement(self.name, header, context))
        self._take(Agreement(self.name, header, context))
        return terms

    def _take(self, agreement: Agreement) -> None:
        if agreement.party != self.name:
            raise ValueError(f"these are the notes of {agreement.party}")
        self.agreement, self.deal = agreement, Header.of(agreement.header)
        self.me = self.deal.names.index(self.name)
        self.near = [arc for arc, ends in enumerate(self.deal.ends) if self.me in ends]
        self.watch = Stopwatch(self.planned, self.deal.delta)

    # ---- choices of its owner
    def walk_away(self) -> None:
        """Publishes nothing any more. What was published is asked back, and all else is obeyed."""
        self.notes.choose(WALKS)

    @property
    def walks(self) -> bool:
        return self.notes.has_chosen(WALKS)

    def replaced(self, arc: int) -> None:
        """The publish that was sent on that arc can't land any more: another call took its
        nonce, and is final."""
        self.notes.add(Never(arc))

    # ---- a step
    def step(self) -> Step:
        """Reads its chains, asks what is due, and obeys."""
        readings, unread = self._readings()
        heights = {arc: risen(it.lines) for arc, it in readings.items()}
        tips = {arc: min(MOST_NUMBER, max(heights[arc], it.tip or 0)) for arc, it in readings.items()}
        self._measure(readings, heights, tips)
        answer = self._answer(readings, heights, tips)
        self._see(answer, heights)
        useless = tuple(it for it in answer.due if isinstance(it, Landing) and tips[it.arc] + self.margins.get(it.arc, 0) > it.until)
        may = [it for it in answer.due if it not in useless and self._may_go(it, unread)]
        unreached: list[Unreached] = []
        presented = [it for it in may if self._obey(it, tips, unreached)]
        warnings = self._warnings((*unread, *unreached, *answer.warnings), useless)
        has_kept = any(isinstance(it, Keep) for it in may)
        until = answer.rest.until if isinstance(answer.rest, Wait) and not unread and not answer.warnings else min(heights.values())
        return Step(answer, tuple(it for it in presented if isinstance(it, Due)), warnings, has_kept, heights, until, useless)

    def _readings(self) -> tuple[dict[int, Reading], tuple[Unreached, ...]]:
        """Its chains as they are read and, of those that can't be, as they were read before."""
        unread = []
        for arc in self.near:
            try:
                self._read[arc] = self.chains.read(arc)
                self._told.discard(f"unreached {arc}")
            except Exception as why:
                unread.append(Unreached(arc, repr(why)))
        return {arc: self._read.get(arc, Reading(())) for arc in self.near}, tuple(unread)

    @staticmethod
    def _may_go(told: Due | Keep | Landing, unread: Iterable[Unreached]) -> bool:
        """Whether a line is obeyed though a ledger wasn't read: as where one is stale, no hashkey is
        signed, nothing published, and nothing presented on that ledger."""
        arcs = {it.arc for it in unread}
        return not arcs or isinstance(told, Due) and not isinstance(told.call, Publish) and told.arc not in arcs

    def run(self) -> None:
        """Steps, and sleeps in between, until the swap is over for its party. What has no answer, as
        where there is no memory, is asked again."""
        while True:
            try:
                step = self.step()
            except (MemoryError, NoAnswerError) as why:
                self.tell(f"{self.name}: {why!r}")
                self.chains.sleep(min(self.notes.seen.values(), default=0))
                continue
            if step.is_done:
                return
            if not step.has_kept:
                self.chains.sleep(step.until)

    def _measure(self, readings: Mapping[int, Reading], heights: Mapping[int, int], tips: Mapping[int, int]) -> None:
        if not self._began:
            self.watch.woke(self.notes.seen, tips)
            self._began = True
        self.watch.asks(heights, tips)
        for arc, call in self.watch.waiting:
            landed = next((at for at, line in enumerate(readings[arc].lines) if line.startswith(f"c {self.me} {call} = ")), None)
            if landed is not None:
                self.watch.lands(arc, call, risen(readings[arc].lines[:landed]))

    def _answer(self, readings: Mapping[int, Reading], heights: Mapping[int, int], tips: Mapping[int, int]) -> Answer:
        """What is due, which isn't asked where the last answer was that nothing is, and still holds."""
        quiet = self._quiet
        told = {arc: calls_in(it.lines) for arc, it in readings.items()}
        is_stale = any(height < self.notes.seen.get(arc, 0) for arc, height in heights.items())
        if quiet and not is_stale and quiet.holds(Quiet(quiet.answer, told, len(self.notes.notes)), heights):
            return quiet.answer
        answer = self._ask(readings, tips)
        self._quiet = Quiet(answer, told, len(self.notes.notes)) if answer.rest and not answer.warnings else None
        return answer

    def _ask(self, readings: Mapping[int, Reading], tips: Mapping[int, int]) -> Answer:
        ledgers = tuple(Ledger(arc, tuple(self._worth_telling(it.lines))) for arc, it in readings.items())
        said: list[Now | Margin] = [Now(arc, tip) for arc, tip in tips.items()]
        said += [Margin(arc, self.margins[arc]) for arc in readings if self.margins.get(arc)]
        it = self.agreement
        notes = (*self.notes.notes, *(Seen(arc, height) for arc, height in sorted(self.notes.seen.items())))
        asked = Asked(it.digest, notes, it.header, it.context, ledgers, heights=tuple(said))
        return Answer.parse(self.party.next(self.name, self._seed.bytes, str(asked)))

    def _worth_telling(self, lines: Iterable[str]) -> Iterable[str]:
        """Without what others were refused, and without what it was refused twice: the text stays
        short however it is flooded."""
        mine, refused = f"c {self.me} ", set()
        for line in map(one_line, lines):
            if line.startswith("c ") and not line.endswith(" = accepted"):
                if not line.startswith(mine) or line in refused:
                    continue
                refused.add(line)
            yield line

    def _see(self, answer: Answer, heights: Mapping[int, int]) -> None:
        """Notes how high it saw what was read to the end."""
        bad = {it.arc for it in answer.warnings if isinstance(it, Bad)}
        self.notes.see({arc: height for arc, height in heights.items() if arc not in bad})

    def _warnings(self, found: Iterable[Warning], useless: Iterable[Landing]) -> tuple[Warning, ...]:
        """What is wrong, each told once."""
        slow = self.watch.warning()
        warnings: tuple[Warning, ...] = (*found, *([slow] if slow else []))
        for it in warnings:
            self._tell_once("slow" if isinstance(it, Slow) else f"unreached {it.arc}" if isinstance(it, Unreached) else str(it), str(it))
        for landing in useless:
            self._tell_once(f"useless {landing.arc}", f"{landing} is of no use any more: replace it by its nonce")
        return warnings

    def _tell_once(self, key: str, line: str) -> None:
        if key not in self._told:
            self._told.add(key)
            self.tell(f"{self.name}: {line}")

    # ---- what it does
    def _obey(self, told: Due | Keep | Landing, tips: Mapping[int, int], unreached: list[Unreached]) -> bool:
        """Obeys a line, and says whether a call went out. A chain that takes none is named, and holds
        up no other."""
        if isinstance(told, Keep):
            self.notes.add(told)
            return False
        is_publish = isinstance(told, Landing) or isinstance(told.call, Publish)
        if is_publish and self.walks:
            return False
        if is_publish:
            self.notes.add(Sent(told.arc))
        call = self.deal.publish(told.arc) if isinstance(told, Landing) else told.call
        try:
            return self._present(told.arc, call, told.until, tips[told.arc])
        except Exception as why:
            unreached.append(Unreached(told.arc, repr(why)))
            return False

    def _present(self, arc: int, call: Call, until: int | None, tip: int) -> bool:
        """Presents a call, and again once it should have landed, or its chain stands lower."""
        key = arc, str(call)
        last = self._tips.get(key)
        if last is not None and last <= tip <= last + self.margins.get(arc, 0):
            return False
        self.chains.present(arc, call, until)
        self._tips[key] = tip
        self.watch.presents(*key, tip)
        return True

    def close(self) -> None:
        self.notes.close()

    def __enter__(self) -> Wallet:
        return self

    def __exit__(self, *_: object) -> None:
        self.close()

    def __repr__(self) -> str:
        return f"Wallet({self.name!r})"
