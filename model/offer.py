"""Reading an offer: a job, a plain job, or the header of a transcript, or the first reason against
it.

docs/FORMATS.md, 'A job', 'Why a job is refused' and 'A plain job'. The header is examined step by
step, then each event line by the first five steps; within a step the fields go in the order of the
tables, and lists by place.
"""
from __future__ import annotations

import json
import re
from typing import Any, Callable, Dict, Iterable, NoReturn

from .deal import KEYED, MOST_ARCS, MOST_PARTIES, PATH_LIMIT, TIMED, Deal, closed_set, follower_cycle
from .hashes import hashlock_of, public_key, secret_of
from .strategies import STRATEGIES

JOB, PLAIN, STATED = "job", "plain", "stated"
MOST_EVENTS = 200_000
MOST_UNITS = 10**12
MOST_NUMBER = 1_000_000
MOST_NESTING = 127
NAME = re.compile(r"[A-Za-z0-9_-]{1,16}")
STRING = re.compile(r'"(?:[^"\\]|\\.)*"')
DIGEST, SIGNATURE = 64, 4288


class Refused(Exception):
    """The first reason against an input, as words."""


# A kind looks at a value, on a line, of a field, and refuses those of another kind
Kind = Callable[[Any, int, str], None]
Table = Dict[str, Kind]
Json = Dict[str, Any]


def refuse(*words: object) -> NoReturn:
    raise Refused(*words)


# ---- lines and JSON

def lines_of(text: bytes) -> list[tuple[int, bytes]]:
    """The lines that aren't blank, with their numbers from 1."""
    lines = text.split(b"\n")
    if not lines[-1]:
        lines.pop()
    return [(number, line) for number, line in enumerate(lines, 1) if line.strip(b" \t\r")]


def integer(text: str) -> float:
    """A number without sign, fraction and exponent; of others it matters alone that they are
    JSON."""
    if len(text) > 20:
        return real(text)
    return -1.0 if text.startswith("-") else int(text)


def real(text: str) -> float:
    value = float(text)
    if value in (float("inf"), float("-inf")):
        raise ValueError("a number that no double is near")
    return value


# (NaN and Infinity are no JSON: `int` takes neither)
DECODER = json.JSONDecoder(parse_int=integer, parse_float=real, parse_constant=int)


def parsed(line: bytes, number: int) -> Json:
    """The JSON object of a line; of two members of one name the last counts."""
    try:
        text = line.decode()
        value = DECODER.decode(text)
        if "\\u" in text:
            # (a half of a surrogate pair alone is no character, nor in a name)
            "".join(json.loads(found) for found in STRING.findall(text)).encode()
        if nesting(text) > MOST_NESTING or not isinstance(value, dict):
            raise ValueError("no object")
    except (ValueError, RecursionError):
        refuse("NotJson", number)
    return value


def nesting(text: str) -> int:
    """How deep the lists and objects of a JSON text stand in each other."""
    if text.count("[") + text.count("{") <= MOST_NESTING:
        return 0
    depth = most = 0
    for sign in STRING.sub("", text):
        depth += (sign in "[{") - (sign in "]}")
        most = max(most, depth)
    return most


# ---- the step on fields: kinds of values, each a function that refuses what isn't of it

def number(value: Any, line: int, field: str) -> None:
    if type(value) is not int or not 0 <= value < 1 << 64:
        refuse("WrongKind", line, field)


def text(value: Any, line: int, field: str) -> None:
    if not isinstance(value, str):
        refuse("WrongKind", line, field)


def one_of(*allowed: Any) -> Kind:
    def kind(value: Any, line: int, field: str) -> None:
        if type(value) not in (str, int) or value not in allowed:
            refuse("WrongKind", line, field)
    return kind


def list_of(member: Kind) -> Kind:
    def kind(value: Any, line: int, field: str) -> None:
        if not isinstance(value, list):
            refuse("WrongKind", line, field)
        for each in value:
            member(each, line, field)
    return kind


def object_of(table: Table) -> Kind:
    def kind(value: Any, line: int, field: str) -> None:
        if not isinstance(value, dict):
            refuse("WrongKind", line, field)
        examine_fields(value, line, table)
    return kind


def examine_fields(value: Json, line: int, table: Table) -> None:
    """The fields in the order of their table, where `?` marks one that may be absent; then the
    least, by its bytes, that isn't allowed there."""
    for name, kind in table.items():
        if name.rstrip("?") in value:
            kind(value[name.rstrip("?")], line, name.rstrip("?"))
        elif not name.endswith("?"):
            refuse("Missing", line, name)
    unknown = set(value) - {name.rstrip("?") for name in table}
    if unknown:
        refuse("UnknownField", line, min(unknown, key=str.encode))


MOVES: dict[str, Table] = {
    "publish": {"start?": number, "delta?": number, "bound?": number, "timelock?": number, "amount?": number, "locks?": list_of(text)},
    "craft": {"lock": number, "via": list_of(text), "onto?": number},
    "replay": {"lock": number, "onto": number},
    "raw": {"lock": number, "secret": text, "path": list_of(text), "sigs": list_of(text)},
    "claim": {},
    "refund": {},
    "transfer": {"to": text, "units": number},
    "wait": {"height": number},
}


def move_kind(is_scripted: bool) -> Kind:
    """A move; `wait` stands in a script alone."""
    allowed = [it for it in MOVES if is_scripted or it != "wait"]

    def kind(value: Any, line: int, field: str) -> None:
        if not isinstance(value, dict):
            refuse("WrongKind", line, field)
        if "do" not in value:
            refuse("Missing", line, "do")
        one_of(*allowed)(value["do"], line, "do")
        examine_fields(value, line, {"do": text, "arc": number, **MOVES[value["do"]]})
    return kind


def actor_kind(value: Any, line: int, field: str) -> None:
    """An object that holds `script` is read as a script, any other as a strategy."""
    if not isinstance(value, dict):
        one_of("manual", "conforming")(value, line, field)
    elif "script" in value:
        examine_fields(value, line, {"script": list_of(move_kind(True))})
    else:
        examine_fields(value, line, {"strategy": text})


def header_table(header: Json, form: str) -> Table:
    """The fields of a header: what they are goes by its version, its mode, and whether it is a
    job's, a plain one or a transcript's."""
    is_timed = header.get("mode") == TIMED
    modes = one_of(KEYED) if header.get("swap") == 2 else one_of(KEYED, TIMED)
    actor: Kind = one_of("manual", "conforming") if form == STATED else actor_kind
    table: Table = {"swap": one_of(1, 2), "mode": modes, "start": number, "delta": number, "bound": number}
    party: Table = {"name": text, "actor?": actor}
    arc: Table = {"from": text, "to": text, "amount": number}
    leader: Table = {"party": text}
    if form != STATED:
        party["seed?"] = text
    if form != PLAIN:
        leader["hashlock"] = text
    if form != PLAIN and is_timed:
        arc["timelock"] = number
    table |= {"parties": list_of(object_of(party)), "arcs": list_of(object_of(arc)), "leaders": list_of(object_of(leader))}
    if form != PLAIN and not is_timed:
        table["keys"] = list_of(list_of(text))
    if form != STATED:
        table["finish?"] = one_of("stop", "fair")
    return table


EVENTS: dict[str, Table] = {
    "tick": {"tick": number, "by?": number},
    "look": {"look": text, "arc": number},
    "act": {"act": text},
    "call": {"call": text, "move": move_kind(False)},
    "crash": {"crash": text, "after": number, "image": number},
}


# ---- the steps on names and limits

def examine_known(name: str, line: int, known: Any) -> None:
    if name not in known:
        refuse("Unknown", line, name)


def script_of(party: Json) -> list[Json]:
    """The moves of a party's script, none where it follows none."""
    actor = party.get("actor")
    return actor.get("script", []) if isinstance(actor, dict) else []


def examine_names(header: Json, line: int, strategies: Iterable[str]) -> None:
    known, before, leading = {party["name"] for party in header["parties"]}, set(), set()
    for party in header["parties"]:
        if not NAME.fullmatch(party["name"]):
            refuse("BadName", line, party["name"])
        if party["name"] in before:
            refuse("Duplicate", line, party["name"])
        before.add(party["name"])
        actor = party.get("actor")
        if isinstance(actor, dict) and "strategy" in actor:
            examine_known(actor["strategy"], line, strategies)
        for move in script_of(party):
            examine_move_names(move, line, known)
    for arc in header["arcs"]:
        examine_known(arc["from"], line, known)
        examine_known(arc["to"], line, known)
    for leader in header["leaders"]:
        examine_known(leader["party"], line, known)
        if leader["party"] in leading:
            refuse("Duplicate", line, leader["party"])
        leading.add(leader["party"])


def examine_move_names(move: Json, line: int, known: Any) -> None:
    named = {"craft": "via", "raw": "path"}.get(move["do"])
    for name in move[named] if named else [move["to"]] if move["do"] == "transfer" else []:
        examine_known(name, line, known)


def examine_range(value: int, line: int, field: str, least: int, most: int) -> None:
    if not least <= value <= most:
        refuse("OverLimit", line, field, value)


def examine_hex(value: str, line: int, field: str, length: int) -> None:
    if not re.fullmatch("[0-9a-fA-F]{%d}" % length, value):
        refuse("WrongHex", line, field)


def examine_limits(header: Json, line: int) -> None:
    version = header["swap"]
    parties, arcs, leaders = header["parties"], header["arcs"], header["leaders"]
    for field, least, most in (("start", 1, 1000), ("delta", 1, 100), ("bound", 1, 64)):
        examine_range(header[field], line, field, least, most)
    examine_range(len(parties), line, "parties", 2, MOST_PARTIES[version])
    for party in parties:
        examine_range(len(script_of(party)), line, "script", 0, 1000)
        for move in script_of(party):
            examine_move_limits(move, line, header)
        if "seed" in party:
            examine_hex(party["seed"], line, "seed", DIGEST)
    examine_range(len(arcs), line, "arcs", 2, MOST_ARCS[version])
    for arc in arcs:
        examine_range(arc["amount"], line, "amount", 1, MOST_UNITS)
        examine_range(arc.get("timelock", 0), line, "timelock", 0, MOST_NUMBER)
    examine_range(len(leaders), line, "leaders", 1, 8)
    for leader in leaders:
        examine_hex(leader.get("hashlock", "0" * DIGEST), line, "hashlock", DIGEST)
    if "keys" in header:
        examine_keys(header, line)


def examine_keys(header: Json, line: int) -> None:
    """The outer length, then row by row its length and its digits."""
    examine_range(len(header["keys"]), line, "keys", len(header["parties"]), len(header["parties"]))
    for row in header["keys"]:
        examine_range(len(row), line, "keys", len(header["leaders"]), len(header["leaders"]))
        for key in row:
            examine_hex(key, line, "keys", DIGEST)


def examine_move_limits(move: Json, line: int, header: Json) -> None:
    """The numbers, lengths and digits of a move, in the order of its table."""
    limit, locks, last_arc = PATH_LIMIT[header["swap"]], len(header["leaders"]), len(header["arcs"]) - 1
    most = {"arc": last_arc, "onto": last_arc, "lock": locks - 1, "amount": MOST_UNITS, "units": MOST_UNITS}
    for field in ["arc", *[it.rstrip("?") for it in MOVES[move["do"]] if it != "to"]]:
        if field not in move:
            continue
        value = move[field]
        if field == "secret":
            examine_hex(value, line, field, DIGEST)
        elif field == "locks":
            examine_range(len(value), line, field, locks, locks)
        elif field == "via":
            examine_range(len(value), line, field, 1, limit)
        elif field in ("path", "sigs"):
            examine_range(len(value), line, field, 0, limit)
        else:
            examine_range(value, line, field, 0, most.get(field, MOST_NUMBER))
        for each in value if field in ("locks", "sigs") else []:
            examine_hex(each, line, field, DIGEST if field == "locks" else SIGNATURE)


# ---- the step on adjacency

def is_conforming(party: Json) -> bool:
    """`actor` is conforming where absent."""
    return bool(party.get("actor", "conforming") == "conforming")


class Places:
    """What the step on adjacency needs of a header: by names, who conforms, who has a seed, which
    arcs touch whom."""

    def __init__(self, header: Json) -> None:
        self.ends = [(arc["from"], arc["to"]) for arc in header["arcs"]]
        self.conforming = {party["name"]: is_conforming(party) for party in header["parties"]}
        self.seeded = {party["name"] for party in header["parties"] if "seed" in party}
        self.touching = {name: {arc for arc, ends in enumerate(self.ends) if name in ends} for name in self.conforming}

    def examine(self, name: str, move: Json, line: int) -> None:
        """A move stands on an arc that touches its party; who crafts doesn't conform; a transfer
        goes to a party of the arc."""
        if move["arc"] not in self.touching[name]:
            refuse("NotAdjacent", line)
        if any(self.conforming[each] for each in move.get("via", [])):
            refuse("ConformingCall", line)
        if move["do"] == "transfer" and move["to"] not in self.ends[move["arc"]]:
            refuse("NotAdjacent", line)


# ---- the header

class Offer:
    """A header that was read: the deal, and who acts how with which seed."""

    def __init__(self, header: Json, form: str) -> None:
        self.header, self.form, self.places = header, form, Places(header)
        self.deal = deal_of(header, form)
        parties = header["parties"]
        self.actors = [party.get("actor", "conforming") for party in parties]
        self.conforming = [is_conforming(party) for party in parties]
        self.seeds = [bytes.fromhex(party["seed"]) if "seed" in party else None for party in parties]
        self.is_fair = header.get("finish", "stop") == "fair"

    def number_of(self, name: str) -> int:
        return self.deal.names.index(name)

    def seed(self, party: int) -> bytes:
        """The seed of a party that acts: one of those that state a seed."""
        seed = self.seeds[party]
        assert seed is not None
        return seed


def deal_of(header: Json, form: str) -> Deal:
    names = [party["name"] for party in header["parties"]]
    ends = [(names.index(arc["from"]), names.index(arc["to"])) for arc in header["arcs"]]
    leaders = [names.index(leader["party"]) for leader in header["leaders"]]
    times = header["start"], header["delta"], header["bound"]
    deal = Deal(header["swap"], header["mode"], names, ends, [arc["amount"] for arc in header["arcs"]], leaders, times)
    if form != PLAIN:
        deal.timelocks = [arc.get("timelock", 0) for arc in header["arcs"]]
        deal.hashlocks = [bytes.fromhex(leader["hashlock"]) for leader in header["leaders"]]
        deal.keys = [[bytes.fromhex(key) for key in row] for row in header.get("keys", [])]
    return deal


def header_of(line: bytes, number: int, form: str, strategies: Iterable[str] = STRATEGIES) -> Offer:
    """The offer of a header line whose strategies are among these, or the first reason against it
    up to the timelocks."""
    header = parsed(line, number)
    examine_fields(header, number, header_table(header, form))
    examine_names(header, number, strategies)
    examine_limits(header, number)
    offer = Offer(header, form)
    for party in header["parties"]:
        for move in script_of(party):
            offer.places.examine(party["name"], move, number)
    examine_digraph(offer.deal)
    examine_times(offer.deal, form)
    return offer


def examine_digraph(deal: Deal) -> None:
    """The steps on arcs, connected, leaders."""
    for arc, ends in enumerate(deal.ends):
        if ends[0] == ends[1]:
            refuse("SelfArc", arc)
        if deal.version == 1 and ends in deal.ends[:arc]:
            refuse("Parallel", deal.ends.index(ends), arc)
    parties = len(deal.names)
    closed = closed_set(parties, deal.ends)
    if closed is not None:
        refuse("NotStrong", ",".join(deal.names[it] for it in closed))
    if not deal.is_keyed and len(deal.leaders) > 1:
        refuse("ManyLeaders", len(deal.leaders))
    cycle = follower_cycle(parties, deal.ends, deal.leaders)
    if cycle is not None:
        refuse("NotFeedback", ",".join(deal.names[it] for it in cycle))


def examine_times(deal: Deal, form: str) -> None:
    """The steps on bound, start, timelocks."""
    if deal.bound < deal.need:
        refuse("BoundTooSmall", deal.bound, deal.need)
    if deal.start < deal.delta:
        refuse("StartTooSoon", deal.start, deal.delta)
    if not deal.is_keyed and form != PLAIN:
        for arc in deal.arcs:
            if deal.timelocks[arc] != deal.timelock_of(arc):
                refuse("WrongTimelock", arc, deal.timelocks[arc], deal.timelock_of(arc))


def examine_seeds(offer: Offer, needs_seeds: bool) -> None:
    """The step on seeds: who conforms, or crafts in a script, has one (for a run or a race), and it
    gives what the deal states."""
    crafters = {name for party in offer.header["parties"] for move in script_of(party) for name in move.get("via", [])}
    for name, conforms, seed in zip(offer.deal.names, offer.conforming, offer.seeds):
        if needs_seeds and seed is None and (conforms or name in crafters):
            refuse("NoSeed", name)
    for party, seed in enumerate(offer.seeds):
        if offer.conforming[party] and seed is not None:
            for lock in offer.deal.locks:
                if not is_given(offer.deal, party, lock, seed):
                    refuse("WrongWallet", offer.deal.names[party], lock)


def is_given(deal: Deal, party: int, lock: int, seed: bytes) -> bool:
    """Whether a seed gives the public key that the deal states for a lock, and the hashlock where
    the party leads it."""
    if deal.is_keyed and public_key(seed, party, lock) != deal.keys[party][lock]:
        return False
    return deal.leaders[lock] != party or hashlock_of(secret_of(seed)) == deal.hashlocks[lock]


# ---- events and jobs

def event_of(line: bytes, number: int, offer: Offer, needs_seeds: bool) -> Json:
    """The event of a line, or the first reason against it, by the first five steps."""
    event = parsed(line, number)
    form = next((it for it in EVENTS if it in event), "tick")
    examine_fields(event, number, EVENTS[form])
    places, last_arc = offer.places, len(offer.deal.ends) - 1
    if form == "tick":
        examine_range(event["tick"], number, "tick", 0, last_arc)
        examine_range(event.get("by", 1), number, "by", 1, MOST_NUMBER)
        return event
    examine_known(event[form], number, places.touching)
    if form == "look":
        examine_range(event["arc"], number, "arc", 0, last_arc)
        if event["arc"] not in places.touching[event["look"]]:
            refuse("NotAdjacent", number)
    if form == "call":
        examine_call(event, number, offer, needs_seeds)
    if form == "crash":
        examine_range(event["after"], number, "after", 0, 3)
        examine_range(event["image"], number, "image", 0, 255)
    return event


def examine_crash(event: Json, line: int, offer: Offer) -> None:
    """A crash is of a conforming party."""
    if "crash" in event and not offer.places.conforming[event["crash"]]:
        refuse("NotConforming", line)


def examine_call(event: Json, line: int, offer: Offer, needs_seeds: bool) -> None:
    """A call is of a party that doesn't conform, and who crafts has a seed."""
    places, move = offer.places, event["move"]
    examine_move_names(move, line, places.touching)
    examine_move_limits(move, line, offer.header)
    if places.conforming[event["call"]]:
        refuse("ConformingCall", line)
    places.examine(event["call"], move, line)
    for name in move.get("via", []):
        if needs_seeds and name not in places.seeded:
            refuse("NoSeed", name)


def job_of(text: bytes, task: str) -> tuple[Offer, list[Json]]:
    """The offer and the events of a job, for the task `check`, `run` or `race`."""
    lines = lines_of(text)
    if not lines:
        refuse("NotJson", 1)
    offer = header_of(lines[0][1], lines[0][0], JOB)
    examine_seeds(offer, task != "check")
    events = []
    for count, (number, line) in enumerate(lines[1:], 1):
        if count > MOST_EVENTS:
            refuse("OverLimit", number, "events", count)
        events.append(event_of(line, number, offer, task != "check"))
        if task == "race":
            refuse("EventInRace", number)
        examine_crash(events[-1], number, offer)
    return offer, events
