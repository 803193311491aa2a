"""Schedules in words, and what an audit finds of the books that they make where some parties are
taken as conforming.

The parties are alice, bob and carol, with seeds of 32 bytes 1, 2 and 3, and make their calls by hand, so that a job may have any of
them break a rule. Its transcript's header is changed before the audit: those who are taken as conforming are said to conform.
A schedule's steps end with `;`:
  tick ARC [by K]
  publish on ARC [of UNITS] [until TIMELOCK] [from START] [within DELTA] [over BOUND] [under another hashlock] by NAME
  unlock [LOCK] via NAME,NAME on ARC by NAME      the hashkey along that path; LOCK is 0 if left out
  unlock [as if alice | with another secret] on ARC by NAME
  claim on ARC by NAME; refund on ARC by NAME; pay UNITS to NAME on ARC by NAME
"""
from __future__ import annotations

import json
import re
import sys
from typing import Any, Dict

sys.dont_write_bytecode = True
from program import Failed, Program, must
from signer import deal_id, hashkey
from texts import asked

Move = Dict[str, Any]

NAMES = ["alice", "bob", "carol"]
SEEDS = [bytes([number]) * 32 for number in (1, 2, 3)]
ANOTHER = "72cd6e8422c407fb6d098690f1130b7ded7ec2f7f5e1d30bd9d521f015363793"
TERMS = {"of": "amount", "until": "timelock", "from": "start", "within": "delta", "over": "bound"}


def publish_move(words: str) -> Move:
    move = {"do": "publish"} | {TERMS[word]: int(number) for word, number in re.findall(r"(\w+) (\d+)", words)}
    return move | ({"locks": [ANOTHER]} if "under another hashlock" in words else {})


def raw_move(lock: int, secret: bytes, path: list[str], sigs: list[bytes]) -> Move:
    return {"do": "raw", "lock": lock, "secret": secret.hex(), "path": path, "sigs": [sig.hex() for sig in sigs]}


def keyed_move(header: dict[str, Any], lock: int, names: list[str]) -> Move:
    secret, sigs = hashkey(deal_id(header, True), SEEDS, lock, [NAMES.index(name) for name in names])
    return raw_move(lock, secret, names, sigs)


def unlock_move(header: dict[str, Any], words: str) -> Move:
    along = re.fullmatch(r"(?:(\d) )?via (\S+)", words)
    if along:
        return keyed_move(header, int(along[1] or 0), along[2].split(","))
    if words == "as if alice":
        move = keyed_move(header, 0, ["carol", "alice"])
        return move | {"path": ["alice"], "sigs": move["sigs"][:1]}
    must(words in ("", "with another secret"), f"no unlock: {words}")
    return raw_move(0, bytes([1 if words else 0]) * 32, [], [])


def move_of(header: dict[str, Any], words: str) -> Move:
    """The move of a call's words, without who makes it."""
    found = re.fullmatch(r"(\w+) ?(.*?) ?on (\d+)(.*)", words)
    if found is None:
        raise Failed(f"no move: {words}")
    word, before, arc, terms = found.groups()
    if word == "publish":
        move = publish_move(terms)
    elif word == "unlock":
        move = unlock_move(header, before)
    elif word == "pay":
        units, _, name = before.partition(" to ")
        move = {"do": "transfer", "to": name, "units": int(units)}
    else:
        move = {"do": word}
    return move | {"arc": int(arc)}


def event_of(header: dict[str, Any], step: str) -> dict[str, Any]:
    tick = re.fullmatch(r"tick (\d+)(?: by (\d+))?", step)
    if tick:
        return {"tick": int(tick[1])} | ({"by": int(tick[2])} if tick[2] else {})
    words, _, name = step.rpartition(" by ")
    return {"call": name, "move": move_of(header, words)}


def job_of(deal: str, schedule: str) -> str:
    header = json.loads(deal)
    steps = [step.strip() for step in schedule.split(";") if step.strip()]
    return deal + "".join(json.dumps(event_of(header, step)) + "\n" for step in steps)


def report_of(program: Program, deal: str, schedule: str, taken: list[str]) -> str:
    """The report of a schedule's book, where those parties are taken as conforming."""
    status, _, transcript = asked(program, ["run", "--transcript"], job_of(deal, schedule)).partition("\n")
    must(status in ("done", "named"), f"a run: {status}")
    for name in taken:
        before, after = (f'{{"actor":"{actor}","name":"{name}"}}' for actor in ("manual", "conforming"))
        must(transcript.count(before) == 1, f"no party {name}")
        transcript = transcript.replace(before, after)
    status, _, report = asked(program, ["audit"], transcript).partition("\n")
    must(status == ("done" if report.endswith("\nfindings 0\n") else "named"), f"an audit: {status}")
    return report
