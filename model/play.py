"""Runs: events, scripts, strategies, fair finishes, and one order of a race. docs/DEFINITIONS.md,
'A run' and 'A race'."""
from __future__ import annotations

from typing import Any, Optional, Sequence, TYPE_CHECKING

from .deal import PATH_LIMIT
from .hashes import Hashkey, extended, secret_of
from .ledger import CLAIM, PUBLISH, REFUND, TICK, TRANSFER, UNLOCK, Call, Ledger
from .rules import View, first_due
from .strategies import STRATEGIES

if TYPE_CHECKING:
    from .ledger import Reply, Terms
    from .offer import Offer


class World:
    """The ledgers of a run, and of each party what it knows, the hashkeys that it noted, its place
    in its script and its turn number."""

    def __init__(self, offer: Offer, ledgers: Optional[Sequence[Ledger]] = None) -> None:
        self.offer, self.deal = offer, offer.deal
        self.ledgers = ledgers or [Ledger(self.deal, arc) for arc in self.deal.arcs]
        self.knowledge = [View(self.deal, self.ledgers, [0] * len(self.ledgers)) for _ in self.deal.parties]
        self.signed: list[dict[int, Hashkey]] = [{} for _ in self.deal.parties]
        self.places = [0] * len(offer.actors)
        self.turns = [0] * len(offer.actors)
        self.rests: list[Optional[tuple[int, list[tuple[int, int]]]]] = [None] * len(offer.actors)

    def book(self) -> View:
        return View(self.deal, self.ledgers, [len(ledger.entries) for ledger in self.ledgers])

    # ---- steps
    def tick(self, arc: int, heights: int) -> Reply:
        """A tick ticks one ledger."""
        return self.ledgers[arc].make(None, Call(TICK, heights))

    def look(self, party: int, arc: int) -> None:
        """A look lets a party know a ledger up to its end."""
        self.knowledge[party].ends[arc] = len(self.ledgers[arc].entries)

    def call(self, party: int, move: dict[str, Any]) -> None:
        """A call of a party that doesn't conform, as its move stands over all histories so far; it
        then knows that ledger up to its end."""
        resolved = self.resolved(self.book(), move)
        if resolved:
            self.ledgers[move["arc"]].make(party, resolved)
            self.look(party, move["arc"])

    def act(self, party: int) -> bool:
        """An act makes the call that a party makes over what it knows, if any, and it then knows
        that ledger up to its end."""
        made = self.next_call(party)
        if made:
            arc, call = made
            self.ledgers[arc].make(party, call)
            self.look(party, arc)
        return made is not None

    def next_call(self, party: int) -> Optional[tuple[int, Call]]:
        """The call of a party's act: by what is due, by its script, or by its strategy; a manual
        one makes none."""
        actor = self.offer.actors[party]
        if self.offer.conforming[party]:
            return self.conforming_call(party)
        if actor == "manual":
            return None
        if "script" in actor:
            return self.scripted_call(party, actor["script"])
        self.turns[party] += 1
        return STRATEGIES[actor["strategy"]](self.knowledge[party], party, self.turns[party] - 1)

    def conforming_call(self, party: int) -> Optional[tuple[int, Call]]:
        """The first call that is due over what the party knows; it notes the hashkey that it
        signed."""
        due = first_due(self.knowledge[party], party, self.offer.seed(party), self.signed[party])
        if due and due[1].kind == UNLOCK:
            self.signed[party][due[1].stated.lock] = due[1].stated
        return due

    def crash(self, party: int, after: int, image: int) -> None:
        """A conforming party is stopped in its act and restarts: it makes no call, has the hashkeys
        that its disk has, and knows each ledger it is next to.

        Of the four disk calls that record a hashkey the third writes its gate. Stopped within that
        one or the next, the gate isn't synced: it is open where what isn't synced holds its new
        bytes. Any other act makes no disk call.
        """
        due = first_due(self.knowledge[party], party, self.offer.seed(party), self.signed[party])
        if due and due[1].kind == UNLOCK and after >= 2 and image == 1:
            self.signed[party][due[1].stated.lock] = due[1].stated
        for arc in self.deal.touching[party]:
            self.look(party, arc)

    def scripted_call(self, party: int, script: list[dict[str, Any]]) -> Optional[tuple[int, Call]]:
        """A script passes over its waits whose height is reached, stops at one whose height isn't,
        and uses up one other move."""
        view = self.knowledge[party]
        while self.places[party] < len(script):
            move = script[self.places[party]]
            if move["do"] == "wait" and view.height(move["arc"]) < move["height"]:
                return None
            self.places[party] += 1
            if move["do"] != "wait":
                resolved = self.resolved(view, move)
                return (move["arc"], resolved) if resolved else None
        return None

    # ---- moves
    def resolved(self, view: View, move: dict[str, Any]) -> Optional[Call]:
        """The call that a move stands for over a view, or None."""
        kind, arc = move["do"], move["arc"]
        if kind == "publish":
            return Call(PUBLISH, stated_terms(self.ledgers[arc].correct_terms, move))
        if kind in ("claim", "refund"):
            return Call(CLAIM if kind == "claim" else REFUND)
        if kind == "transfer":
            return Call(TRANSFER, (self.offer.number_of(move["to"]), move["units"]))
        hashkey = getattr(self, kind + "_hashkey")(view, move)
        return Call(UNLOCK, hashkey) if hashkey else None

    def raw_hashkey(self, _view: View, move: dict[str, Any]) -> Optional[Hashkey]:
        """The stated hashkey."""
        path = tuple(self.offer.number_of(name) for name in move["path"])
        return Hashkey(move["lock"], bytes.fromhex(move["secret"]), path, tuple(bytes.fromhex(sig) for sig in move["sigs"]))

    def replay_hashkey(self, view: View, move: dict[str, Any]) -> Optional[Hashkey]:
        """The hashkey that opened the lock on another arc, as it is, where that is known."""
        opening = view.opened(move["onto"], move["lock"])
        return opening.hashkey if opening else None

    def craft_hashkey(self, view: View, move: dict[str, Any]) -> Optional[Hashkey]:
        """A hashkey made from the last named party to the first, each with a key made anew from its
        seed; with timelocks the secret alone."""
        via = [self.offer.number_of(name) for name in move["via"]]
        if "onto" in move:
            hashkey = self.replay_hashkey(view, move)
        else:
            hashkey = Hashkey(move["lock"], secret_of(self.offer.seed(via[-1])), (), ())
        if hashkey is None or len(hashkey.path) + len(via) > PATH_LIMIT[self.deal.version]:
            return None
        for party in reversed(via) if self.deal.is_keyed else []:
            hashkey = extended(self.deal.id, hashkey, party, self.offer.seed(party))
        return hashkey

    # ---- runs
    def step(self, event: dict[str, Any]) -> None:
        """An event of a job."""
        if "tick" in event:
            self.tick(event["tick"], event.get("by", 1))
        elif "look" in event:
            self.look(self.offer.number_of(event["look"]), event["arc"])
        elif "act" in event:
            self.act(self.offer.number_of(event["act"]))
        elif "crash" in event:
            self.crash(self.offer.number_of(event["crash"]), event["after"], event["image"])
        else:
            self.call(self.offer.number_of(event["call"]), event["move"])

    def turn(self, party: int) -> None:
        """A party's turn in a round: it looks at each arc that touches it, and then acts; a
        conforming one until nothing is due."""
        if self.offer.actors[party] == "manual":
            return
        for arc in self.deal.touching[party]:
            self.look(party, arc)
        if not self.offer.conforming[party]:
            self.act(party)
        elif not self.is_at_rest(party):
            while self.act(party):
                pass
            self.rests[party] = self.calls_beside(party), self.waits_of(party)

    # Where nothing is due for a party, ticks up to the least expiry that it waits for make nothing
    # due: it needn't be asked again.

    def is_at_rest(self, party: int) -> bool:
        """Whether nothing was due for a party, and since then nothing but ticks came beside it, up
        to the expiries that it waits for."""
        rest = self.rests[party]
        if rest is None:
            return False
        calls, waits = rest
        return calls == self.calls_beside(party) and all(self.ledgers[arc].height <= expiry for arc, expiry in waits)

    def calls_beside(self, party: int) -> int:
        """How many calls stand on the ledgers that a party is next to."""
        return sum(len(ledger.entries) - ledger.ticks for ledger in (self.ledgers[arc] for arc in self.deal.touching[party]))

    def waits_of(self, party: int) -> list[tuple[int, int]]:
        """The arcs on which a party waits for a refund, each with the least expiry of a closed
        lock."""
        view = self.knowledge[party]
        waiting = [arc for arc in self.deal.leaving[party] if view.published(arc) and not view.settled(arc) and not view.is_triggered(arc)]
        return [(arc, view.least_expiry(arc)) for arc in waiting if not view.calls(party, arc, REFUND)]

    def finish(self) -> None:
        """A fair finish repeats rounds until every ledger is above the horizon: each party's turn,
        then a tick of each that isn't."""
        while any(ledger.height <= self.deal.horizon for ledger in self.ledgers):
            for party in self.deal.parties:
                self.turn(party)
            for ledger in self.ledgers:
                if ledger.height <= self.deal.horizon:
                    self.tick(ledger.arc, 1)

    def race(self, heights: int) -> None:
        """One order of a race: in each of the fewest rounds that pass the horizon each party has
        its turn, and then every ledger ticks."""
        for _ in range(self.deal.horizon // heights + 1):
            for party in self.deal.parties:
                self.turn(party)
            for ledger in self.ledgers:
                self.tick(ledger.arc, heights)


def stated_terms(correct: Terms, move: dict[str, Any]) -> Terms:
    """The correct terms, with the stated ones in their place."""
    stated = {field: move[field] for field in ("start", "delta", "bound", "timelock", "amount") if field in move}
    if "locks" in move:
        stated["locks"] = tuple(bytes.fromhex(lock) for lock in move["locks"])
    return correct._replace(**stated)


def run(offer: Offer, events: list[dict[str, Any]]) -> View:
    """The histories of a job: those of the run of its events and, where the job asks for it, of the
    fair finish after it."""
    world = World(offer)
    for event in events:
        world.step(event)
    if offer.is_fair:
        world.finish()
    return world.book()


def race(offer: Offer, heights: int) -> View:
    world = World(offer)
    world.race(heights)
    return world.book()
