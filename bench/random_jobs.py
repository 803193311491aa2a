"""Random jobs with their events, from a generator of numbers, and random edits of the texts that
the program reads."""
from __future__ import annotations

import json
import re
import sys
from itertools import permutations
from pathlib import Path
from random import Random
from typing import Any, Iterable, Iterator, Mapping, Optional, Sequence

sys.dont_write_bytecode = True
sys.path.insert(1, str(Path(__file__).resolve().parent.parent / "tests"))
from signer import deal_id, digest, hashkey, public_key, secret_of

# A header or an event, as a line has it; and the arcs of a digraph, each with its two parties
Header = dict[str, Any]
Event = dict[str, Any]
Arcs = list[tuple[int, int]]

# (few, so that their keys are made once)
SEEDS = [digest(b"seed of a random job", bytes([it])) for it in range(8)]
STRATEGIES = ("silent", "greedy", "replayer", "spoiler")
REPLIES = (b"accepted", b"NoContract", b"Settled", b"NotCounterparty", b"NotParty", b"AlreadyPublished", b"NoFunds 0", b"AlreadyUnlocked",
           b"WrongSecret", b"WrongPath", b"WrongSignature", b"TooLate 40", b"StillLocked 0", b"NothingLocked", b"NotExpired 61", b"SenderFull")


def line_of(value: object, sort_keys: bool = False) -> bytes:
    """A value as a line of compact JSON."""
    return json.dumps(value, separators=(",", ":"), sort_keys=sort_keys).encode() + b"\n"


def digraph(rng: Random, parties: int, parallel: bool) -> Arcs:
    """A ring over the parties in random order, and some arcs more; where parallel, several may have
    the same ends."""
    order = rng.sample(range(parties), parties)
    arcs = [(order[at], order[(at + 1) % parties]) for at in range(parties)]
    for _ in range(rng.choice((0, 0, 1, 2, parties))):
        payer, paid = rng.sample(range(parties), 2)
        if parallel or (payer, paid) not in arcs:
            arcs.append((payer, paid))
    rng.shuffle(arcs)
    return arcs


def is_acyclic(arcs: Arcs, parties: Iterable[int]) -> bool:
    """Whether no cycle leads through these parties alone."""
    left = set(parties)
    while left:
        ends = {party for party in left if not any(a == party and b in left for a, b in arcs)}
        if not ends:
            return False
        left -= ends
    return True


def leaders_of(rng: Random, parties: int, arcs: Arcs, most: int) -> list[int]:
    """Parties without which no cycle is left, or none where more than most would be needed."""
    chosen: list[int] = []
    for party in rng.sample(range(parties), parties):
        if is_acyclic(arcs, set(range(parties)) - set(chosen)):
            break
        chosen.append(party)
    while len(chosen) < most and rng.random() < 0.1 and len(chosen) < parties:
        chosen.append(rng.choice([it for it in range(parties) if it not in chosen]))
    return chosen if len(chosen) <= most else []


def distance(arcs: Arcs, party: int, leader: int, seen: tuple[int, ...] = ()) -> Optional[int]:
    """The most arcs on a path from a party to the leader, if there is one."""
    if party == leader:
        return 0
    ways = [distance(arcs, b, leader, (*seen, party)) for a, b in arcs if a == party and b not in seen]
    return max((1 + way for way in ways if way is not None), default=None)


class Job:
    """A job of a few parties, and its events."""

    def __init__(self, rng: Random, parties: Sequence[int] = (2, 2, 3, 3, 3, 4, 5, 6), events: Sequence[int] = (0, 0, 5, 20, 60)) -> None:
        self.rng, self.parties = rng, rng.choice(parties)
        self.keyed = rng.random() < 0.6
        self.version = rng.choice((1, 1, 2)) if self.keyed else 1
        self.arcs: Arcs = []
        self.leaders: list[int] = []
        while not self.leaders:
            self.arcs = digraph(rng, self.parties, self.version == 2)
            self.leaders = leaders_of(rng, self.parties, self.arcs, min(8, self.parties) if self.keyed else 1)
        self.seeds = rng.sample(SEEDS, self.parties)
        self.conforming = [rng.random() < rng.choice((0.5, 0.9, 1)) for _ in range(self.parties)]
        self.names = rng.choice((["alice", "bob", "carol", "dave", "erin", "frank"], ["p%d" % it for it in range(6)]))[: self.parties]
        # (crafts need the seeds of all that they go through)
        self.seeded = [not it and rng.random() < 0.5 for it in self.conforming]
        self.header = self.made_header()
        self.identity = deal_id(self.header, self.keyed)
        for number, party in enumerate(self.header["parties"]):
            if not self.conforming[number]:
                party["actor"] = self.actor(number)
        self.events = [self.event() for _ in range(rng.choice(events))]
        self.text = b"".join(map(line_of, [self.header, *self.events]))

    def made_header(self) -> Header:
        rng = self.rng
        delta = rng.choice((1, 2, 5, 10))
        header: Header = {"swap": self.version, "mode": "hashkeys" if self.keyed else "timelocks", "start": delta + rng.choice((0, 1, 10)), "delta": delta,
                          "bound": self.parties - 1 + rng.choice((0, 0, 1)), "finish": rng.choice(("stop", "fair", "fair"))}
        header["parties"] = [self.party(it) for it in range(self.parties)]
        header["arcs"] = [self.arc(header, a, b) for a, b in self.arcs]
        header["leaders"] = [{"party": self.names[it], "hashlock": digest(secret_of(self.seeds[it])).hex()} for it in self.leaders]
        if self.keyed:
            locks = range(len(self.leaders))
            header["keys"] = [[public_key(self.seeds[party], party, lock).hex() for lock in locks] for party in range(self.parties)]
        return header

    def seeded_header(self) -> Header:
        """The header with the seed of each party."""
        parties = [{**party, "seed": seed.hex()} for party, seed in zip(self.header["parties"], self.seeds)]
        return {**self.header, "parties": parties}

    def plain_text(self) -> bytes:
        """The same job before it is made."""
        plain = {**self.seeded_header(), "leaders": [{"party": it["party"]} for it in self.header["leaders"]]}
        plain["arcs"] = [{field: arc[field] for field in ("from", "to", "amount")} for arc in self.header["arcs"]]
        plain.pop("keys", None)
        return b"".join(map(line_of, [plain, *self.events]))

    def party(self, number: int) -> dict[str, Any]:
        party: dict[str, Any] = {"name": self.names[number], "actor": "conforming" if self.conforming[number] else "manual"}
        if self.conforming[number] or self.seeded[number]:
            party["seed"] = self.seeds[number].hex()
        return party

    def actor(self, number: int) -> object:
        """What acts for a party that doesn't conform."""
        rng = self.rng
        kind = rng.choice(("manual", "script", "strategy"))
        if kind == "script":
            return {"script": [self.scripted(number) for _ in range(rng.choice((0, 1, 3, 8)))]}
        return {"strategy": rng.choice(STRATEGIES)} if kind == "strategy" else kind

    def scripted(self, number: int) -> Event:
        if self.rng.random() < 0.2:
            height = self.rng.choice((0, self.header["start"], self.header["start"] + self.header["delta"], 1000000))
            return {"do": "wait", "arc": self.rng.choice(self.beside(number)), "height": height}
        return self.move(number)

    def arc(self, header: Header, a: int, b: int) -> dict[str, Any]:
        arc = {"from": self.names[a], "to": self.names[b], "amount": self.rng.choice((1, 5, 100, 10**12))}
        if not self.keyed:
            far = distance(self.arcs, b, self.leaders[0])
            # (each party is on the ring)
            assert far is not None
            arc["timelock"] = header["start"] + (header["bound"] + 1 + far) * header["delta"]
        return arc

    # ---- events

    def beside(self, party: int) -> list[int]:
        """The arcs that touch a party."""
        return [at for at, ends in enumerate(self.arcs) if party in ends]

    def path_from(self, party: int, leader: int) -> Optional[list[int]]:
        """A random path from a party to a leader along arcs, or None."""
        path = [party]
        while path[-1] != leader:
            ways = [b for a, b in self.arcs if a == path[-1] and b not in path]
            if not ways:
                return None
            path.append(self.rng.choice(ways))
        return path

    def presented(self, arc: int) -> dict[str, Any]:
        """A hashkey for an arc, right or wrong in one place."""
        rng = self.rng
        lock = rng.randrange(len(self.leaders))
        if not self.keyed:
            secret = secret_of(self.seeds[self.leaders[lock]]) if rng.random() < 0.8 else rng.randbytes(32)
            return {"lock": lock, "secret": secret.hex(), "path": [], "sigs": []}
        path = self.path_from(self.arcs[arc][1], self.leaders[lock])
        if path is None:
            return {"lock": lock, "secret": rng.randbytes(32).hex(), "path": [], "sigs": []}
        secret, sigs = hashkey(self.identity, self.seeds, lock, path)
        if rng.random() < 0.2:
            at = rng.randrange(len(sigs))
            sigs[at] = sigs[at][:-1] + bytes([sigs[at][-1] ^ 1])
        return {"lock": lock, "secret": secret.hex(), "path": [self.names[it] for it in path], "sigs": [it.hex() for it in sigs]}

    def move(self, party: int) -> Event:
        rng = self.rng
        arc = rng.choice(self.beside(party))
        kind = rng.choice(("publish", "publish", "raw", "raw", "craft", "replay", "claim", "refund", "transfer"))
        crafters = [it for it in range(self.parties) if self.seeded[it]]
        if kind == "craft" and not crafters:
            kind = "replay"
        move: Event = {"do": kind, "arc": arc}
        if kind == "publish" and rng.random() < 0.2:
            move[rng.choice(("start", "delta", "bound", "amount"))] = rng.choice((0, 1, 7, 100))
        if kind == "raw":
            move |= self.presented(arc)
        if kind in ("craft", "replay"):
            move["lock"] = rng.randrange(len(self.leaders))
        if kind == "craft":
            move["via"] = [self.names[it] for it in rng.sample(crafters, rng.randint(1, len(crafters)))]
        if kind == "replay" or kind == "craft" and rng.random() < 0.5:
            move["onto"] = rng.randrange(len(self.arcs))
        if kind == "transfer":
            move |= {"to": self.names[rng.choice(self.arcs[arc])], "units": rng.choice((0, 1, 5, 100))}
        return move

    def event(self) -> Event:
        rng = self.rng
        party = rng.randrange(self.parties)
        roll = rng.random()
        if roll < 0.25:
            return {"tick": rng.randrange(len(self.arcs)), "by": rng.choice((1, 1, 2, self.header["delta"], 30))}
        if roll < 0.5:
            return {"look": self.names[party], "arc": rng.choice(self.beside(party))}
        if self.conforming[party] and rng.random() < 0.15:
            return {"crash": self.names[party], "after": rng.randrange(4), "image": rng.choice((0, 1, 1, 1, 7, 255))}
        if self.conforming[party] or self.header["parties"][party]["actor"] != "manual" and rng.random() < 0.8:
            return {"act": self.names[party]}
        return {"call": self.names[party], "move": self.move(party)}


# ---- many swaps


class Many:
    """A few swaps on a few chains. Most accounts have the units that are set aside of them; some
    have more, and a few have less or are missing."""

    def __init__(self, rng: Random, alone: Optional[Job] = None) -> None:
        """Of swaps and their events, or of one job alone without any."""
        self.rng = rng
        self.jobs = [alone] if alone else [Job(rng, (2, 2, 3, 3, 4, 5), (0,)) for _ in range(rng.choice((1, 2, 2, 3, 4)))]
        self.is_fair = alone.header["finish"] == "fair" if alone else rng.random() < 0.5
        count = rng.choice((1, 2, 3, 4, 5))
        self.places = [[rng.randrange(count) for _ in job.arcs] for job in self.jobs]
        self.chains = [self.accounts(chain) for chain in range(count)]
        # (low heights, or such that are soon above each horizon)
        self.by = rng.choice(((1, 1, 2, 10), (1, 10, 30), (10, 100, 200)))
        self.events = [self.event() for _ in range(0 if alone else rng.choice((0, 5, 20, 60, 60)))]
        if not alone and rng.random() < 0.4:
            self.events += [*self.ending(), *(self.event() for _ in range(rng.choice((5, 20, 60))))]

    def ending(self) -> Iterator[bytes]:
        """Events after which most slots are swept: every chain is above each horizon, and who
        conforms has looked around and acted."""
        yield from (b"tick %d 200" % chain for chain in range(len(self.chains)))
        for swap, job in enumerate(self.jobs):
            for number, name in enumerate(job.names):
                acts = [{"look": name, "arc": arc} for arc in job.beside(number)] + [{"act": name}] * self.rng.choice((1, 3))
                yield from (b"%d %s" % (swap, line_of(act).rstrip(b"\n")) for act in acts)
        yield from (b"sweep %d %d" % (swap, arc) for swap, job in enumerate(self.jobs) for arc in range(len(job.arcs)))

    def standing(self, chain: int) -> Iterator[tuple[str, str, int]]:
        """Each arc that stands on a chain: its two names, and its amount."""
        for job, places in zip(self.jobs, self.places):
            for arc, place in zip(job.header["arcs"], places):
                if place == chain:
                    yield arc["from"], arc["to"], arc["amount"]

    def accounts(self, chain: int) -> dict[str, int]:
        """The accounts of a chain, in random order, with their units."""
        rng = self.rng
        units: dict[str, int] = {}
        for party, counterparty, amount in self.standing(chain):
            units[party] = units.get(party, 0) + amount
            units.setdefault(counterparty, 0)
        for name in rng.sample(("alice", "p0", "p1", "yan", "zoe"), rng.choice((0, 1, 2)) if len(units) >= 2 else 4):
            units.setdefault(name, 0)
        for name in units:
            units[name] = max(0, units[name] + rng.choice((0, 0, 1, 7, 100)) - (rng.random() < 0.005))
        names = rng.sample(list(units), len(units))
        return {name: units[name] for name in names[1 if len(names) > 2 and rng.random() < 0.01 else 0 :]}

    def event(self) -> bytes:
        """An event line: of a chain, of two accounts, of a slot, or of a swap."""
        rng, swap, chain = self.rng, self.rng.randrange(len(self.jobs)), self.rng.randrange(len(self.chains))
        roll = rng.random()
        if roll < 0.2:
            return b"tick %d %d" % (chain, rng.choice(self.by))
        if roll < 0.3:
            names = [rng.choice(list(self.chains[chain])) for _ in range(2)]
            return b"pay %d %s %s %d" % (chain, names[0].encode(), names[1].encode(), rng.choice((0, 1, 1, 5, 50, 10**15)))
        if roll < 0.4:
            return b"sweep %d %d" % (swap, rng.randrange(len(self.jobs[swap].arcs)))
        return b"%d %s" % (swap, line_of(self.untimed(swap)).rstrip(b"\n"))

    def untimed(self, swap: int) -> Event:
        """An event of a swap, nearly always one that is neither a tick nor a crash."""
        while {"tick", "crash"} & (event := self.jobs[swap].event()).keys() and self.rng.random() < 0.999:
            pass
        return event

    def text(self) -> bytes:
        headers = [job.header for job in self.jobs]
        return swaps_text(self.chains, headers, self.places, "fair" if self.is_fair else "stop", self.events)


def swaps_text(
    chains: Iterable[Mapping[str, int]], headers: Iterable[Header], places: Iterable[Iterable[int]], finish: str, events: Iterable[bytes] = ()
) -> bytes:
    """The text of swaps on chains: the accounts of each chain, the header of each swap with the
    chain of each arc, and the event lines."""
    lines = [b"swap many 1"]
    for units in chains:
        lines.append(b"chain " + b" ".join(b"%s %d" % (name.encode(), count) for name, count in units.items()))
    for header, chains_of_arcs in zip(headers, places):
        rest = {field: value for field, value in header.items() if field != "finish"}
        lines += [b"swap " + b" ".join(b"%d" % chain for chain in chains_of_arcs), line_of(rest).rstrip(b"\n")]
    return b"\n".join([*lines, b"finish " + finish.encode(), *events]) + b"\n"


def respelled(rng: Random, text: bytes) -> bytes:
    """Many swaps with a fault, mostly: lines that are left out, repeated, moved or joined, and
    edits of those that are words."""
    lines = text.split(b"\n")[:-1]
    for _ in range(rng.choice((1, 1, 1, 2))):
        at, kind = rng.randrange(len(lines)), rng.randrange(7)
        if kind == 0:
            del lines[at]
        elif kind == 1:
            lines.insert(rng.randrange(len(lines) + 1), lines[at])
        elif kind == 2:
            lines.insert(at, rng.choice((b"", b" \t\r", b"x", b"finish fair", b"chain yan 1 zoe 2")))
        elif kind == 3:
            lines[at] = renumbered(rng, lines[at])
        else:
            at = rng.choice([number for number, line in enumerate(lines) if b"{" not in line[:3]] or [at])
            lines[at] = edited(rng, lines[at]) if lines[at] and kind < 6 else renumbered(rng, lines[at])
        if not lines:
            return b""
    return b"\n".join(lines) + rng.choice((b"", b"\n"))


def many_text(rng: Random) -> bytes:
    """The text of many swaps, some with a fault."""
    text = Many(rng).text()
    roll = rng.random()
    return respelled(rng, text) if roll < 0.25 else edited(rng, text) if roll < 0.3 else text


# ---- wishes

LETTERS = "abcdefghijklmnopqrstuvwxyzABCDEF"
# (values of another kind, out of their ranges, or of a name that is ill-formed or no party's)
BAD_NAMES = ("", "a b", "a\u0085", "\u00e4", "a-name_of-17chars", "a")
MISSTATED: tuple[object, ...] = (0, 0, 1, 100, 101, 1000, 1001, 10**12 + 1, 1 << 64, -1, 1.5, True, None, *BAD_NAMES, [], ["a"], ["a", "b", 1], {}, [{}])


def wished(rng: Random, names: Sequence[str], most: int) -> list[list[str]]:
    return [rng.sample(names, 2) for _ in range(rng.randint(1, most))]


def crowded(rng: Random, names: Sequence[str], most: int) -> list[list[str]]:
    """Nearly each of some parties wishes for a transfer to each other, which may take more leaders
    than are allowed; the others for some."""
    crowd, others = names[:most], names[most:]
    return [list(ends) for ends in permutations(crowd, 2) if rng.random() > 0.01] + wished(rng, rng.choice((names, others)), 10)


def wishes(rng: Random) -> dict[str, Any]:
    """Wishes, mostly of few parties; some have a fault."""
    names, roll = rng.sample(LETTERS, rng.choice((2, 3, 4, 4, 5, 6, 7, 8))), rng.random()
    pairs = wished(rng, names, 20)
    if roll < 0.04:
        names = rng.sample(LETTERS, rng.randint(13, 15))
        pairs = crowded(rng, names, rng.randint(8, 11))
    elif roll < 0.08:
        names = rng.sample(LETTERS, rng.randint(9, 32))
        pairs = wished(rng, names, rng.choice((60, 129)))
    names, delta = sorted(names, key=lambda _: rng.random()), rng.choice((1, 2, 10, 100))
    line: dict[str, Any] = {"clear": 1, "start": delta + rng.choice((0, 1, 10, 900)), "delta": delta, "parties": names}
    line["arcs"] = [{"from": a, "to": b, "amount": rng.choice((1, 5, 100, 10**12))} for a, b in rng.sample(pairs, len(pairs))]
    return misstated(rng, line) if rng.random() < 0.2 else line


def misstated(rng: Random, line: dict[str, Any]) -> dict[str, Any]:
    """The wishes with some fields, of the line or of an arc, that are left out, added, or have a
    value that may be wrong."""
    pieces, names = [line, line, *line["arcs"]], line["parties"]
    for _ in range(rng.choice((1, 1, 2, 3))):
        piece = rng.choice(pieces)
        field = rng.choice((*piece, *piece, *piece, "seed", "bound", "from"))
        values = [*MISSTATED, *piece.values(), *piece.values(), [*names, rng.choice((*BAD_NAMES, *names))]]
        kind = type(piece.get(field))
        alike = [it for it in values if type(it) is kind] or values
        if rng.random() < 0.1:
            piece.pop(field, None)
        else:
            piece[field] = rng.choice(alike if rng.random() < 0.8 else values)
    return line


def wishes_text(rng: Random) -> bytes:
    """The text of wishes, some with lines before or behind them, or with edited bytes."""
    text = line_of(wishes(rng))
    if rng.random() < 0.1:
        text = rng.choice((b"", b"\n", b" \t\r\n")) + text + rng.choice((b"", b"\n \r\n", b"\nx\n", text))
    return edited(rng, text) if rng.random() < 0.15 else text


# ---- edits


def edited(rng: Random, given: bytes) -> bytes:
    """The text with some bytes changed, left out or repeated."""
    text = bytearray(given)
    for _ in range(rng.choice((1, 1, 2, 5))):
        at = rng.randrange(len(text))
        kind = rng.randrange(5)
        if kind == 0:
            text[at] = rng.randrange(256)
        elif kind == 1:
            text[at] = rng.choice(b'0123456789{}[]",:\n abcdef')
        elif kind == 2:
            del text[at : at + rng.choice((1, 1, 10, 1000))]
        elif kind == 3:
            text[at:at] = text[max(0, at - rng.randrange(50)) : at]
        else:
            del text[at:]
        if not text:
            break
    return bytes(text)


def renumbered(rng: Random, line: bytes) -> bytes:
    """The line with one of its numbers changed, if it has one."""
    numbers = list(re.finditer(rb"(?<= )\d{1,7}(?= |$)", line))
    if not numbers:
        return line
    found = rng.choice(numbers)
    number = rng.choice((0, 1, int(found[0]) + 1, max(0, int(found[0]) - 1), 10**6))
    return line[: found.start()] + b"%d" % number + line[found.end() :]


def restated(rng: Random, text: bytes) -> bytes:
    """The transcript with some lines that state something else, and the numbers of entries as they
    then are."""
    lines = text.split(b"\n")[:-1]
    for _ in range(rng.choice((1, 1, 2, 4))):
        at = rng.randrange(2, len(lines))
        kind = rng.randrange(5)
        if kind == 0 and b" = " in lines[at]:
            lines[at] = lines[at].split(b" = ")[0] + b" = " + rng.choice(REPLIES)
        elif kind == 1:
            lines[at] = renumbered(rng, lines[at])
        elif kind == 2 and lines[at][:2] in (b"c ", b"t "):
            del lines[at]
        elif kind == 3 and lines[at][:2] in (b"c ", b"t "):
            lines.insert(at, lines[at])
        elif kind == 4:
            other = rng.randrange(2, len(lines))
            lines[at], lines[other] = lines[other], lines[at]
    return b"\n".join(counted(lines)) + b"\n"


def counted(lines: list[bytes]) -> list[bytes]:
    """The lines with the number of entries that each ledger has."""
    heads = [at for at, line in enumerate(lines) if line.startswith((b"ledger ", b"end"))]
    for head, after in zip(heads, heads[1:]):
        if lines[head].startswith(b"ledger "):
            lines[head] = b" ".join(lines[head].split(b" ")[:2]) + b" %d" % (after - head - 1)
    return lines
