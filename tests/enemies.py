"""Random swaps among enemies: honest wallets that ask `party` alone, and a coalition of all others
that does what it likes, on chains without limits.

A coalition has the seeds of its parties, sees every call at once, withholds, floods, publishes what
can't be told, presents at the last height, by odd paths, with signatures of its own keys as it
likes, and what others presented. Honest wallets are late, crash, lose what they didn't sync, see
false ledgers, are asked to follow another deal's header, and some walk away. What they present lands
some heights later, more than once, and is refused; chains rise as they like, show what isn't final,
and take back what isn't as deep as was agreed on. One swap in twenty has a chain that takes back
more: of it nothing is promised but that each wallet is answered, and signs once for a lock.

Each answer has to be the model's. At the end each honest wallet has to be watchful, safe, and to
have its refunds: by the rule book (`model/rules.py`), and by an audit of what it needed to tell.
"""
from __future__ import annotations

import json
import random
import sys
import zlib
from functools import lru_cache
from typing import Any, Callable, Iterator, NamedTuple, Optional

sys.dont_write_bytecode = True
from program import TOP, Answer, Program, must

sys.path[1:1] = [TOP, f"{TOP}/python"]
import model.agreeing
import model.telling
from model.commands import party_answer
from model.deal import KEYED, TIMED, Deal, need
from model.hashes import Hashkey, extended, secret_of
from model.ledger import ACCEPTED, CLAIM, PUBLISH, REFUND, TICK, TRANSFER, UNLOCK, Call, Ledger, Reply, last_accepted
from model.offer import STATED, header_of
from model.rules import View, breaches, forgeries, has_refunds, is_watchful, lateness, outcome
from model.texts import call_words, report, transcript, words
from model.transcripts import call_of, entry_of

from swap_party import Answer as Answered
from swap_party import Asked, Bad, Due, Keep, Landing, Margin, Now, Publish, Row, Seen, Sent, Stale, Stopped, Unkept, agreed_digest
from swap_party import Ledger as Told
from swap_party import Terms as AgreedTerms
from swap_party.answer import Note, note_of

# The model reads each line of a swap once: an asking tells what the one before it told
setattr(model.agreeing, "header_of", lru_cache(maxsize=8)(header_of))
setattr(model.telling, "entry_of", lru_cache(maxsize=1 << 14)(entry_of))
LONG = "0" * 4288


# ---- deals


def random_offer(chance: random.Random) -> dict[str, Any]:
    """A plain offer without seeds: a ring of two to eight parties with further arcs that no cycle
    of followers takes, of either version and mode."""
    count, version = chance.choice([2, 3, 3, 4, 4, 5, 6, 8]), chance.choice([1, 2])
    keyed = version == 2 or chance.random() < 0.6
    names, leaders = [f"p{at}" for at in range(count)], list(range(chance.randint(1, min(3, count - 1)) if keyed else 1))
    ends = [(at, (at + 1) % count) for at in range(count)]
    more = [(a, b) for a in range(count) for b in range(count) if a != b and (version == 2 or (a, b) not in ends)]
    more = [(a, b) for a, b in more if a in leaders or b in leaders or a < b]
    ends += chance.sample(more, chance.randint(0, min(3, len(more))))
    chance.shuffle(ends)
    delta = chance.randint(3, 10)
    return {
        "swap": version, "mode": KEYED if keyed else TIMED, "start": delta + chance.randint(0, 5), "delta": delta,
        "bound": min(64, max(1, need(count, ends, leaders)) + chance.choice([0, 0, 1])),
        "parties": [{"name": name} for name in names],
        "arcs": [{"from": names[a], "to": names[b], "amount": chance.choice([1, chance.randint(1, 1000), 10**12])} for a, b in ends],
        "leaders": [{"party": names[at]} for at in leaders],
    }  # fmt: skip


class Programs(NamedTuple):
    """The two programs, which a process of the pool asks."""

    party: Program
    swap: Program

    def asked(self, asking: list[str], text: bytes) -> Answer:
        """What `party` answers, which is what the model does."""
        found = self.party.run(asking, text)
        wanted = party_answer(asking, text)
        must(tuple(found) == tuple(wanted), f"{asking}: {shown(found)}, the model {shown(Answer(*wanted))}\n{shown_text(text)}")
        return found

    def written(self, asking: list[str], text: str) -> str:
        found = self.asked(asking, text.encode())
        must(found.status == 0, f"{asking}: {found}")
        return str(found.out.decode())


def shown(found: Answer) -> str:
    return f"status {found.status} {found.err.decode()}{found.out.decode()[:2000]}"


def shown_text(text: bytes) -> str:
    return "\n".join(line[:200] for line in text.decode(errors="replace").split("\n"))


# ---- chains


class Unlimited(Ledger):
    """A ledger without limits on calls and ticks."""

    def reply(self, sender: Optional[int], call: Call) -> Reply:
        if call.kind == TICK:
            return ACCEPTED
        replying: Callable[[Optional[int], Call], Reply] = getattr(self, "reply_to_" + call.kind)
        return replying(sender, call)


class Lost(NamedTuple):
    """A call that a chain took back and, of one that an honest wallet presented, the last height at
    which it stands for good."""

    sender: int
    call: Call
    last: Optional[int]


class Chain:
    """The chain of an arc, with all that stands on it as lines. Whoever likes may call it, and of
    calls that no line can tell it refuses or accepts whatever it likes: then its contract is strange."""

    def __init__(self, deal: Deal, arc: int) -> None:
        self.arc, self.ledger = arc, Unlimited(deal, arc)
        self.lines: list[str] = []
        self.heights: list[int] = [0]
        self.is_strange = False
        # (the last heights at which the calls of honest wallets stand for good, by their entries)
        self.lasts: dict[int, int] = {}
        # (hashkeys that were presented, which all can read)
        self.shown: list[Hashkey] = []
        self.shown_by: dict[int, set[Hashkey]] = {}

    @property
    def height(self) -> int:
        return self.heights[-1]

    def write(self, line: str, by: int = 0) -> None:
        self.lines.append(line)
        self.heights.append(self.height + by)

    def final(self, depth: int) -> int:
        """How many lines lie as deep as that."""
        return max(at for at, height in enumerate(self.heights) if height <= max(0, self.height - depth))

    def take_back(self, depth: int, chance: random.Random) -> list[Lost]:
        """Stands as it did before the last heights, and then rises as high again. The calls that it
        takes back wait to land anew, but those whose time to land ends below its height: they stand on
        the other branch too, by then."""
        stays, height, is_strange = self.final(depth), self.height, self.is_strange
        entries, lines, lasts = list(self.ledger.entries), self.lines, self.lasts
        if is_strange or len(lines) != len(entries):
            return []
        lost = [Lost(it.sender, it.call, lasts.get(at)) for at, it in enumerate(entries) if at >= stays and it.sender is not None]
        self.ledger, self.lines, self.heights, self.lasts = Unlimited(self.ledger.deal, self.arc), [], [0], {}
        for at, entry in enumerate(entries[:stays]):
            if entry.sender is None:
                self.tick(entry.call.stated)
            else:
                self.call(entry.sender, entry.call, lasts.get(at))
        ending = [it for it in lost if it.last is not None and it.last < height]
        for it in sorted(ending, key=lambda it: it.last or 0):
            self.rise_to(chance.randint(self.height, it.last or 0))
            self.call(it.sender, it.call, it.last)
        self.rise_to(height)
        return [it for it in lost if it.last is None or it.last >= height]

    def rise_to(self, height: int) -> None:
        if height > self.height:
            self.tick(height - self.height)

    def tick(self, by: int) -> None:
        self.ledger.push(None, Call(TICK, by), ACCEPTED)
        self.write(f"t {by}", by)

    def call(self, sender: int, call: Call, last: Optional[int] = None) -> Reply:
        """A call of a party of the arc and, of one that an honest wallet presented, the last height at
        which it stands for good."""
        if last is not None:
            self.lasts[len(self.lines)] = last
        if self.is_strange and call.kind != TRANSFER:
            reply: Reply = ("Settled",)
        else:
            reply = self.ledger.reply(sender, call)
            self.ledger.push(sender, call, reply)
        if call.kind == UNLOCK:
            self.shown.append(call.stated)
            self.shown_by.setdefault(sender, set()).add(call.stated)
        self.write(f"c {sender} {call_words(call)} = {words(reply)}")
        return reply

    def publish_strangely(self, sender: int, said: str) -> None:
        """A publish of terms that can't be told, which the chain accepts."""
        if self.ledger.publish_entry is None:
            self.is_strange = True
            self.write(f"c {sender} {said} = accepted")

    def own(self, party: int) -> Iterator[Call]:
        """The calls of a party that stand here."""
        for at in self.ledger.calls.get(party, []):
            yield self.ledger.entries[at].call


# ---- an honest wallet


class Crashed(Exception):
    """The wallet's machine stops here."""


class Journal:
    """Lines that a wallet writes down, each with a checksum. A crash keeps any beginning of what
    wasn't synced, or other bytes in its place."""

    def __init__(self) -> None:
        self.synced, self.unsynced = b"", b""

    def write(self, line: str) -> None:
        self.unsynced += b"%08x %s\n" % (zlib.crc32(line.encode()), line.encode())

    def sync(self) -> None:
        self.synced, self.unsynced = self.synced + self.unsynced, b""

    def crash(self, chance: random.Random) -> None:
        left = self.unsynced[: chance.randint(0, len(self.unsynced))]
        if chance.random() < 0.2:
            left = bytes(chance.randrange(256) for _ in range(min(len(left), 100)))
        self.synced, self.unsynced = self.synced + left, b""

    def lines(self) -> list[str]:
        """The lines that are whole. The file goes on behind them."""
        found: list[str] = []
        whole = 0
        for line in self.synced.split(b"\n")[:-1]:
            check, _, told = line.partition(b" ")
            if check != b"%08x" % zlib.crc32(told):
                break
            found.append(told.decode())
            whole += len(line) + 1
        self.synced = self.synced[:whole]
        return found


class Agreed(NamedTuple):
    """What the parties made and agreed to."""

    deal: Deal
    header: str
    context: tuple[str, ...]
    digest: str


class Wallet:
    """An honest wallet, which does what `party` answers and nothing else."""

    def __init__(self, swap: Swap, me: int, seed: bytes) -> None:
        self.swap, self.me, self.seed, self.chance = swap, me, seed, swap.chance
        self.agreed = swap.agreed
        self.name = self.agreed.deal.names[me]
        self.near = self.agreed.deal.touching[me]
        self.journal = Journal()
        self.walks_at = self.chance.randint(0, 2 * self.agreed.deal.start) if self.chance.random() < 0.2 else None
        self.crashes = self.chance.choice([0, 0, 0.02, 0.1])
        # (in how many heights its calls land, at most; and how readily it presents a call again)
        self.margin = self.chance.randint(0, self.agreed.deal.delta // 3)
        self.repeats = self.chance.choice([0, 0, 0.1, 0.5])
        # (what the network has of its calls; a publish lands once, as it carries one nonce)
        self.pending: list[tuple[int, Call, int]] = []
        # (the least height, of its chains as it saw them when nothing was left to do)
        self.rested = self.asked_at = 0
        self.start()

    def start(self) -> None:
        """After a crash it has what it wrote down, and reads its chains again."""
        self.notes: list[Note] = [note_of(line) for line in self.journal.lines()]
        self.seen = dict.fromkeys(self.near, 0)
        self.presented: set[tuple[int, str]] = set()
        self.quiet: Optional[tuple[int, Optional[int]]] = None

    # ---- what it sees and tells
    def look(self, is_whole: bool) -> None:
        """Sees each chain up to some line."""
        for arc in self.near:
            last = self.swap.chains[arc].final(self.swap.depth)
            self.seen[arc] = min(self.seen[arc], last)
            self.seen[arc] = last if is_whole or self.chance.random() < 0.6 else self.chance.randint(self.seen[arc], last)

    def calls(self) -> int:
        return sum(line.startswith("c") for arc in self.near for line in self.swap.chains[arc].lines[: self.seen[arc]])

    def height(self, arc: int) -> int:
        """The height at which it sees a ledger: where all that is final was seen, it rises with the
        chain."""
        chain = self.swap.chains[arc]
        height = chain.heights[self.seen[arc]]
        return max(height, chain.height - self.swap.depth) if self.seen[arc] == chain.final(self.swap.depth) else height

    def told(self) -> dict[int, list[str]]:
        found = {}
        for arc in self.near:
            chain, last = self.swap.chains[arc], self.seen[arc]
            more = self.height(arc) - chain.heights[last]
            found[arc] = chain.lines[:last] + [f"t {more}"] * (more > 0)
        return found

    def falsified(self, told: dict[int, list[str]]) -> None:
        """A false ledger: a line that can't be read, or a call of its own that never was."""
        arc = self.chance.choice(self.near)
        at = self.chance.randint(0, len(told[arc]))
        mine = f"c {self.me}"
        lie = self.chance.choice(["no entry", "t 0", f"{mine} claim", f"{mine} transfer {self.me} 1000000000000 = NoFunds 7", f"{mine} refund = TooLate 1"])
        told[arc][at:at] = [lie]

    def merged(self, lines: list[str]) -> list[str]:
        """The same with ticks in other pieces."""
        found: list[str] = []
        for line in lines:
            if line.startswith("t ") and found and found[-1].startswith("t ") and self.chance.random() < 0.5:
                found[-1] = f"t {int(found[-1][2:]) + int(line[2:])}"
            else:
                found.append(line)
        return found

    def text(self, told: dict[int, list[str]], header: Optional[str] = None) -> bytes:
        ledgers = tuple(Told(arc, tuple(lines)) for arc, lines in told.items())
        heights: list[Now | Margin] = [Now(arc, min(1_000_000, self.swap.chains[arc].height)) for arc in self.near]
        heights += [Margin(arc, self.margin) for arc in self.near if self.margin]
        it = self.agreed
        return str(Asked(it.digest, tuple(self.notes), header or it.header, it.context, ledgers, self.seed.hex(), tuple(heights))).encode()

    def asks(self, text: bytes) -> Answer:
        return self.swap.programs.asked(["next", self.name], text)

    # ---- what it does
    def may_crash(self) -> None:
        if self.chance.random() < self.crashes:
            raise Crashed

    def keep(self, note: Note) -> None:
        """Writes a line down as it was answered, and syncs it."""
        self.journal.write(str(note))
        self.may_crash()
        self.journal.sync()
        self.notes.append(note)
        self.may_crash()

    def walks(self) -> bool:
        return self.walks_at is not None and max(self.swap.chains[arc].height for arc in self.near) >= self.walks_at

    def is_left(self, told: object) -> bool:
        """Whether it walks away from what a line tells."""
        return self.walks() and (isinstance(told, Landing) or isinstance(told, Due) and isinstance(told.call, Publish))

    def present(self, arc: int, said: str) -> None:
        """Hands a call to the network, once unless it crashes."""
        call = said_call(self.agreed.deal, arc, said)
        if (arc, said) not in self.presented or call.kind != PUBLISH and self.chance.random() < self.repeats:
            self.presented.add((arc, said))
            self.pending.append((arc, call, self.swap.chains[arc].height + self.margin))
            self.swap.overhear(call)
            self.may_crash()

    def publish(self, arc: int, said: str) -> None:
        """Written down before it goes out."""
        if Sent(arc) not in self.notes:
            self.keep(Sent(arc))
        self.present(arc, said)

    def obey(self, told: object) -> None:
        if self.is_left(told):
            return
        if isinstance(told, Keep):
            self.keep(told)
        elif isinstance(told, Landing):
            # (what was written down and never went out goes out as it would have, with its nonce)
            terms = self.swap.chains[told.arc].ledger.correct_terms
            self.present(told.arc, call_words(Call(PUBLISH, terms)))
        elif isinstance(told, Due):
            must(told.party == self.me and told.arc in self.near, f"{self.name} is told {told}")
            (self.publish if isinstance(told.call, Publish) else self.present)(told.arc, str(told.call))

    def may_rest(self) -> bool:
        """Whether the last answer was to wait, and still holds."""
        if self.quiet is None or self.walks():
            return False
        calls, until = self.quiet
        return calls == self.calls() and (until is None or max(self.height(arc) for arc in self.near) <= until)

    def heard(self, answer: Answered, told: dict[int, list[str]]) -> None:
        """What an answer says of how long it may rest, by what was read of its ledgers."""
        bad = {it.arc: it.entry for it in answer.warnings if isinstance(it, Bad)}
        is_doubted = any(isinstance(it, (Unkept, Stopped)) for it in answer.warnings)
        must(not is_doubted, f"{self.name} is told that its seed is another's: {answer.warnings}")
        rest = answer.rest
        self.asked_at = min(risen(told[arc][: bad.get(arc, len(told[arc]))]) for arc in self.near)
        self.see({arc: risen(lines) for arc, lines in told.items() if arc not in bad}, answer)
        if rest is not None and not answer.warnings:
            self.quiet = self.calls(), getattr(rest, "until", None)

    def see(self, heights: dict[int, int], answer: Answered) -> None:
        """Notes how high it saw its ledgers, now and then. A node may lag behind; a chain that took
        back too much is seen anew."""
        if self.swap.is_deep and any(isinstance(it, Stale) for it in answer.warnings):
            self.notes = [it for it in self.notes if not isinstance(it, Seen)]
        elif self.chance.random() < 0.1 and not self.crashes:
            self.notes += [Seen(arc, height) for arc, height in heights.items()]

    def ask(self) -> Answered:
        """Asks what is due over what it sees, or is shown."""
        told = self.told()
        if self.chance.random() < 0.05 and not any(isinstance(it, Seen) for it in self.notes):
            self.falsified(told)
        if self.chance.random() < 0.05:
            self.refuses_another_deal(told)
        told = {arc: self.merged(lines) for arc, lines in told.items()}
        found = self.asks(self.text(told))
        must(found.status in (0, 1), f"{self.name} isn't answered: {found.err.decode()}")
        answer = Answered.parse(found.out)
        self.heard(answer, told)
        return answer

    def refuses_another_deal(self, told: dict[int, list[str]]) -> None:
        """Another header than the one that was agreed on is refused, and nothing answered."""
        header = self.agreed.header
        change = self.chance.choice([('"amount":', '"amount": '), ('"delta":', '"delta":1'), ('"name":"p', '"name":"q'), ('"start":', '"start":1')])
        found = self.asks(self.text(told, header.replace(*change, 1)))
        must(found.status == 3 and not found.out, f"another deal: {shown(found)}")

    def wake(self, is_whole: bool = False) -> None:
        """Looks, asks and obeys. It may crash in between."""
        try:
            self.look(is_whole)
            if self.may_rest():
                self.rested = max(self.rested, min(self.height(arc) for arc in self.near))
                return
            self.may_crash()
            answer = self.ask()
            for told in answer.told:
                self.obey(told)
            # (what it presented lands in time: then it is done with what it saw)
            if not any(isinstance(it, (Keep, Stale)) for it in answer.told):
                self.rested = max(self.rested, self.asked_at)
        except Crashed:
            self.journal.crash(self.chance)
            self.start()

    def land(self, arc: Optional[int] = None, height: int = 0) -> None:
        """Some of what it presented lands; on an arc that rises to that height, all that was to land
        below it."""
        left = []
        for at, call, last in self.pending:
            if call.kind == PUBLISH and any(it.kind == PUBLISH for it in self.swap.chains[at].own(self.me)):
                continue
            if last >= height if at == arc else arc is not None or self.chance.random() < 0.3:
                left.append((at, call, last))
                continue
            reply = self.swap.chains[at].call(self.me, call, last)
            is_useful = reply[0] not in ("TooLate", "WrongPath", "WrongSignature", "WrongSecret", "NotCounterparty", "NotParty", "StillLocked")
            must(is_useful or self.swap.is_deep, f"{self.name} was answered {call_words(call)[:30]}, which is refused: {words(reply)}")
        self.pending = left


def risen(lines: list[str]) -> int:
    return sum(int(line[2:]) for line in lines if line.startswith("t ") and line[2:].isdigit())


def said_call(deal: Deal, arc: int, said: str) -> Call:
    kind, *stated = said.split(" ")
    return call_of(deal, arc, kind, stated)


# ---- the coalition


class Enemy:
    """A party of the coalition, with habits of its own."""

    def __init__(self, swap: Swap, me: int) -> None:
        self.swap, self.me, self.chance = swap, me, swap.chance
        self.deal = swap.agreed.deal
        draw = self.chance.choice
        # (how readily it does what helps, and what it does for no use)
        self.publishes, self.opens, self.claims = draw([0, 0.05, 0.3, 1, 1]), draw([0, 0.1, 0.5, 1, 1]), draw([0, 0.2, 1, 1])
        self.is_last, self.lies, self.floods = self.chance.random() < 0.4, draw([0, 0, 0.05, 0.3]), draw([0, 0, 0.05, 0.3])

    def call(self, arc: int, call: Call) -> None:
        self.swap.chains[arc].call(self.me, call)

    def turn(self) -> None:
        """Some of what it may do at this moment."""
        for arc in self.deal.leaving[self.me]:
            self.pay(arc)
        for arc in self.deal.entering[self.me]:
            self.take(arc)
        if self.chance.random() < self.floods:
            self.flood(self.chance.choice(self.deal.touching[self.me]))

    # ---- on arcs that leave it
    def pay(self, arc: int) -> None:
        chain = self.swap.chains[arc]
        if chain.ledger.publish_entry is not None:
            if self.chance.random() < self.claims / 4:
                self.call(arc, Call(REFUND))
        elif not chain.is_strange and self.chance.random() < self.publishes / 2 and (not self.is_last or self.is_last_moment(chain)):
            self.publish(chain)

    def is_last_moment(self, chain: Chain) -> bool:
        return chain.height in (self.deal.delta, self.deal.open_by, self.deal.open_by + 1)

    def publish(self, chain: Chain) -> None:
        """The correct terms, or others, of which some can't be told."""
        correct = chain.ledger.correct_terms
        if self.chance.random() >= self.lies:
            self.call(chain.arc, Call(PUBLISH, correct))
        elif self.chance.random() < 0.5:
            other = self.chance.choice([
                correct._replace(bound=correct.bound + 1), correct._replace(start=1), correct._replace(amount=correct.amount - 1),
                correct._replace(amount=10**12), correct._replace(timelock=9),
            ])  # fmt: skip
            self.call(chain.arc, Call(PUBLISH, other))
        else:
            said = call_words(Call(PUBLISH, correct)).split(" ")
            odd = [said[:-1], said + [said[-1]], [*said[:5], "1000000000001", *said[6:]], [*said[:1], "x" * 300], said[:3]]
            chain.publish_strangely(self.chance.choice([self.me, self.me, 77]), " ".join(self.chance.choice(odd)))

    # ---- on arcs that enter it
    def take(self, arc: int) -> None:
        chain = self.swap.chains[arc]
        ledger = chain.ledger
        if ledger.publish_entry is None or ledger.settle_entry is not None:
            return
        for lock in ledger.closed_locks(len(ledger.entries)):
            if self.chance.random() < self.opens:
                self.open(chain, lock)
        if not ledger.closed_locks(len(ledger.entries)) and self.chance.random() < self.claims / 2:
            self.call(arc, Call(CLAIM))

    def open(self, chain: Chain, lock: int) -> None:
        """With a hashkey that the coalition can make, at any height or at its last one."""
        hashkey = self.swap.coalition.hashkey(chain.ledger.counterparty, lock)
        if hashkey is None:
            return
        terms = chain.ledger.terms(len(chain.ledger.entries))
        last = last_accepted(self.deal, terms, hashkey) if terms else 0
        if not self.is_last or chain.height == last or self.chance.random() < 0.02:
            self.call(chain.arc, Call(UNLOCK, hashkey))

    # ---- for no use
    def flood(self, arc: int) -> None:
        """Calls that are refused, of parties and strangers, tellable or not; and transfers."""
        chain, other = self.swap.chains[arc], self.chance.choice([self.me, self.me, 77])
        if chain.is_strange:
            return
        key = self.swap.coalition.any_hashkey()
        if key is not None and self.chance.random() < 0.3:
            self.call(arc, Call(UNLOCK, key))
        elif self.chance.random() < 0.3:
            self.call(arc, Call(TRANSFER, (self.chance.choice(self.deal.ends[arc]), self.chance.choice([0, 1, 10**12]))))
        elif self.chance.random() < 0.3:
            self.call(arc, Call(self.chance.choice([CLAIM, REFUND])))
        else:
            said = ["claim = NotCounterparty", "publish 1 2 3 = NoFunds 0", "unlock 9 x = WrongPath", "transfer 9 1 = accepted", "refund now = Settled"]
            if self.chance.random() < 0.05:
                said = ["unlock 0 %s %s %s = WrongSecret" % (LONG[:64], ",".join("0" * 32), ",".join([LONG] * 32))]
            for _ in range(self.chance.choice([1, 1, 3, 40]) if len(said) > 1 else 3):
                chain.write(f"c {other} {self.chance.choice(said)}")


class Coalition:
    """What the enemies know together: their seeds, and every hashkey that anybody presented."""

    def __init__(self, swap: Swap, seeds: dict[int, bytes]) -> None:
        self.swap, self.seeds, self.deal, self.chance = swap, seeds, swap.agreed.deal, swap.chance
        self.overheard: list[Hashkey] = []

    def shown(self) -> list[Hashkey]:
        return [*self.overheard, *(key for chain in self.swap.chains for key in chain.shown)]

    def any_hashkey(self) -> Optional[Hashkey]:
        keys = self.shown()
        return self.chance.choice(keys) if keys else None

    def bases(self, lock: int) -> list[Hashkey]:
        """What hashkeys for a lock can begin with: the secret of a leader of the coalition, and the
        rest of what was presented, from any party on."""
        leader = self.deal.leaders[lock]
        found = [Hashkey(lock, secret_of(self.seeds[leader]), (), ())] if leader in self.seeds else []
        for key in self.shown():
            if key.lock == lock:
                found += [key._replace(path=key.path[at:], signatures=key.signatures[at:]) for at in range(len(key.path) or 1)]
        return found

    def hashkey(self, payee: int, lock: int) -> Optional[Hashkey]:
        """One that opens the lock for the payee, by any path over the coalition's parties."""
        bases = self.bases(lock)
        self.chance.shuffle(bases)
        for base in bases[:6]:
            if not self.deal.is_keyed or base.path[:1] == (payee,):
                return base
            way = self.way(payee, base)
            if way is not None:
                for party in reversed(way):
                    base = extended(self.deal.id, base, party, self.seeds[party])
                return base
        return None

    def way(self, payee: int, base: Hashkey) -> Optional[list[int]]:
        """A random path from the payee over the coalition, up to the arc to where the base
        begins."""
        way, leader = [payee], self.deal.leaders[base.lock]
        if payee in base.path:
            return None
        while True:
            if base.path and (way[-1], base.path[0]) in self.deal.ends and self.chance.random() < 0.7 or not base.path and way[-1] == leader:
                return way
            steps = [to for at, to in self.deal.ends if at == way[-1] and to in self.seeds and to not in way and to not in base.path]
            if not steps:
                is_there = bool(base.path) and (way[-1], base.path[0]) in self.deal.ends
                return way if is_there else None
            way.append(self.chance.choice(steps))


# ---- a swap


class Swap:
    """A swap: its chains, its honest wallets, and the coalition of all others."""

    def __init__(self, programs: Programs, chance: random.Random) -> None:
        self.programs, self.chance = programs, chance
        offer = random_offer(chance)
        seeds = [chance.randbytes(32) for _ in offer["parties"]]
        self.agreed = self.agree(offer, seeds)
        deal = self.agreed.deal
        self.chains = [Chain(deal, arc) for arc in deal.arcs]
        # (how deep a call has to lie, and whether a chain takes back more than that)
        self.depth, self.is_deep = chance.choice([0, 0, 1, deal.delta // 3]), chance.random() < 0.05
        bad = set(chance.sample(list(deal.parties), chance.randint(1, len(deal.parties) - 1)))
        self.coalition = Coalition(self, {party: seeds[party] for party in bad})
        self.enemies = [Enemy(self, party) for party in sorted(bad)]
        self.wallets = [Wallet(self, party, seeds[party]) for party in deal.parties if party not in bad]

    def agree(self, offer: dict[str, Any], seeds: list[bytes]) -> Agreed:
        """The parties make the deal with a row each, and compare the digest of their terms."""
        line = f"{json.dumps(offer)}\n"
        names = [it["name"] for it in offer["parties"]]
        rows = [self.programs.written(["keys", name], f"seed {seed.hex()}\n{line}") for name, seed in zip(names, seeds)]
        must([Row.parse(row).name for row in rows] == names, "a row has another name")
        self.chance.shuffle(rows)
        header = self.programs.written(["deal"], line + "".join(rows)).rstrip("\n")
        context = tuple(f"about {arc} chain {arc}" for arc in range(self.chance.randint(0, len(offer["arcs"]))))
        digests = set()
        for name in names:
            terms = AgreedTerms.parse(self.programs.written(["terms", name], "".join(f"{it}\n" for it in (header, *context))))
            digests.add(terms.agree)
        must(digests == {agreed_digest(header, context)}, "the parties don't agree")
        return Agreed(header_of(header.encode(), 1, STATED).deal, header, context, digests.pop())

    def overhear(self, call: Call) -> None:
        """What waits to land can be read."""
        if call.kind == UNLOCK:
            self.coalition.overheard.append(call.stated)

    # ---- time
    def room(self, arc: int) -> int:
        """By how much a chain may rise: each wallet next to it was at rest at most delta below."""
        near = [it.rested + self.agreed.deal.delta - it.margin for it in self.wallets if arc in it.near]
        return min(near, default=self.chains[arc].height + self.agreed.deal.delta) - self.chains[arc].height

    def tick(self) -> bool:
        """Lets a chain rise, often to a height that decides something. Whether one may."""
        deal = self.agreed.deal
        may = [arc for arc in deal.arcs if self.room(arc) > 0 and self.chains[arc].height <= deal.horizon + self.depth]
        if not may:
            return False
        arc = self.chance.choice(may)
        height, room = self.chains[arc].height, self.room(arc)
        steps = [deal.start + it * deal.delta for it in range(2 * deal.bound + 3)] + [deal.delta]
        marks = [it + more - height for it in steps for more in (0, 1) if 0 < it + more - height <= room]
        by = self.chance.choice(marks) if marks and self.chance.random() < 0.6 else self.chance.randint(1, room)
        for it in self.wallets:
            it.land(arc, height + by)
        self.chains[arc].tick(by)
        self.reorganise(arc)
        return True

    def reorganise(self, arc: int) -> None:
        """A chain takes back what isn't final, or more."""
        deepest = self.depth + self.chance.randint(1, self.agreed.deal.delta) if self.is_deep and self.chance.random() < 0.1 else self.depth
        if not deepest or self.chance.random() > 0.2:
            return
        for lost in self.chains[arc].take_back(deepest, self.chance):
            near = [it for it in self.wallets if it.me == lost.sender]
            if near and lost.last is not None:
                near[0].pending.append((arc, lost.call, lost.last))
            elif self.chance.random() < 0.7:
                self.chains[arc].call(lost.sender, lost.call)

    def run(self) -> None:
        """Until every chain is above the horizon, and every wallet at rest there."""
        deal = self.agreed.deal
        for turn in range(100_000):
            if all(chain.height > deal.horizon for chain in self.chains) and all(it.rested > deal.horizon for it in self.wallets):
                return
            if self.is_deep and turn > 3_000:
                return
            ticked = self.tick()
            for enemy in self.enemies:
                if self.chance.random() < 0.5:
                    enemy.turn()
            for it in self.wallets:
                it.land()
                if not ticked or self.chance.random() < 0.3:
                    it.wake(is_whole=not ticked)
        raise AssertionError(f"no end: {[chain.height for chain in self.chains]}, {[it.rested for it in self.wallets]}")

    # ---- the end
    def needed(self, me: int) -> View:
        """The book as far as a party needs it, each ledger replayed by the limits of one."""
        deal = self.agreed.deal
        ledgers = [Ledger(deal, arc) for arc in deal.arcs]
        for ledger, chain in zip(ledgers, self.chains):
            entries = chain.ledger.entries
            is_near = me in deal.ends[ledger.arc]
            is_useless = chain.is_strange or me == ledger.counterparty and chain.ledger.terms(len(entries)) != ledger.correct_terms
            for entry in entries:
                is_of_contract = entry.reply == ACCEPTED and entry.call.kind in (PUBLISH, UNLOCK, CLAIM, REFUND) and not is_useless
                is_own = entry.sender == me and (entry.reply == ACCEPTED or entry.call.kind == PUBLISH)
                if entry.call.kind == TICK or is_near and (is_own or is_of_contract):
                    reply = ledger.make(entry.sender, entry.call)
                    must(reply == entry.reply, f"what {me} needs of ledger {ledger.arc}: {reply} in place of {entry.reply}")
        return View(deal, ledgers, [len(ledger.entries) for ledger in ledgers])

    def is_withheld(self, it: Wallet, late: tuple[str, int, int]) -> bool:
        """Whether lateness is of a publish that the wallet walked away from, or that might land where
        contracts don't open any more.

        All else is on time. A call comes due where a ledger rises, or is called, above a height h: a
        refund above an expiry. Where the wallet last rested before it, one of its ledgers was told no
        higher than h, and so `rested` is at most h. From there each of its chains rises at most by
        delta - margin before the wallet presents the call, which then stands for good within margin:
        at h + delta. A publish isn't answered only if that is above the deadline."""
        rule, _, due = late
        return rule == PUBLISH and (it.walks_at is not None or due > self.agreed.deal.open_by)

    def judge(self, it: Wallet) -> None:
        """By the rule book, and by an audit."""
        keys = {key for chain in self.chains for key in chain.shown_by.get(it.me, ())}
        must(len({key.lock for key in keys}) == len(keys), f"{it.name} signed twice for a lock")
        if self.is_deep:
            return
        book, deal, me = self.needed(it.me), self.agreed.deal, it.me
        late = [said for said in lateness(book, me) if not self.is_withheld(it, said)]
        must(not any(breaches(book, me)), f"{it.name} broke its conduct: {list(breaches(book, me))}")
        must(not any(forgeries(book, me)), f"in the name of {it.name}: {list(forgeries(book, me))}")
        must(not late, f"{it.name} is late: {late}")
        must(is_watchful(book, me), f"{it.name} isn't watchful")
        must(outcome(book, me) != "Underwater" and has_refunds(book, me), f"{it.name} ends {outcome(book, me)}, refunds {has_refunds(book, me)}")
        conforming = [party == me for party in deal.parties]
        fields = json.loads(self.agreed.header)
        fields["parties"] = [{"name": name, "actor": "conforming" if conforms else "manual"} for name, conforms in zip(deal.names, conforming)]
        offer = header_of(json.dumps(fields).encode(), 1, STATED)
        wanted, found = report(book, conforming)
        audited = self.programs.swap.run(["audit"], transcript(book, offer))
        must(audited == (int(found > 0), wanted, b""), f"an audit: {shown(audited)}, and the model: {wanted.decode()}")


def chain_text(chain: Chain) -> str:
    lines = "".join(f"{line[:160]}\n" for line in chain.lines)
    return f"ledger {chain.arc} {chain.ledger.party} -> {chain.ledger.counterparty}\n{lines}"


def wrong_with(programs: Programs, number: int) -> Optional[str]:
    """What is wrong with the swap of that number, if anything."""
    swap = Swap(programs, random.Random(number))
    try:
        swap.run()
        for it in swap.wallets:
            swap.judge(it)
    except Exception as why:  # (told with all that stands on the chains)
        honest = ", ".join(it.name + " walks" * bool(it.walks_at is not None) for it in swap.wallets)
        told = "".join(map(chain_text, swap.chains))
        return f"{number}: {type(why).__name__}: {why}\nhonest: {honest}\n{swap.agreed.header[:300]}\n{told}"
    return None
