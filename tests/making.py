"""Tests of jobs that are made from plain ones and from numbers, against independent programs, and
of rings of version 2."""
from __future__ import annotations

import json
import sys
from functools import partial
from hashlib import sha256
from typing import Any

sys.dont_write_bytecode = True
from program import Program, Tests, must
from races import raced_ends
from signer import deal_id
from tables import generated, summary
from texts import asked, deal, is_wanted, stored

# further lines, whatever they are, and as they are copied
LINES = ('{"any" :thing\n \t\r\n\nx', '{"any" :thing\nx\n')

# the job of number 7 with six parties and 500 events, as an independent program gives it: the
# digest that names its deal, that of the events' lines, and the seed of party 5
SEVEN = generated("7", "6", "500")
ID = "4ba283522be31861ca392e46f8f445b441879c4a370313465399c7a6914ebf49"
EVENTS = "d5b69433741d0f9d2b9cd5a78acf318416b4f3e4b8539d5332a6970ced7a79b2"
SEED = "351ebc95cc67531dbafeab20498cb7c94eae6a8ee3f5d20cfa175eb7b52fed4c"
CHECKED = "done\nswap accepted\nneed 31\nopen by 64\nexpiry 128\nhorizon 130\n"


def done(program: Program, words: list[str], text: str) -> str:
    """What the program writes where it is done."""
    word, _, written = asked(program, words, text).partition("\n")
    must(word == "done", f"{words}: {word}")
    return written


def is_made(name: str, program: Program) -> None:
    is_wanted(done(program, ["make"], deal(name)), stored(name + ".made"))


def copies_lines(program: Program) -> None:
    lines, copied = LINES
    is_wanted(done(program, ["make"], deal("plain") + lines), stored("plain.made") + copied)


def is_refused(text: str, reason: str, program: Program) -> None:
    is_wanted(asked(program, ["make"], text), f"swap: refused: {reason}\n")


# ---- numbers


def plain_of(header: dict[str, Any]) -> str:
    """The plain job of a made one."""
    plain = {name: value for name, value in header.items() if name != "keys"}
    plain["leaders"] = [{"party": it["party"]} for it in header["leaders"]]
    return json.dumps(plain)


def is_sevens_job(program: Program) -> None:
    header, _, events = done(program, SEVEN, "").partition("\n")
    said = json.loads(header)
    must(said["parties"][5]["seed"] == SEED, "the seed of party 5")
    must(sha256(events.encode()).hexdigest() == EVENTS, "the events' lines")
    must(deal_id(said, True).hex() == ID, "the digest that names the deal")
    is_wanted(done(program, ["make"], plain_of(said)), header + "\n")


def is_given_twice(program: Program) -> None:
    is_wanted(done(program, SEVEN, ""), done(program, SEVEN, ""))


def is_summed_up(program: Program) -> None:
    """A number may stand behind its option, with zeros before it, and options come in any order."""
    words = ["gen", "--events=500", "--summary", "--parties=6", "--seed=0000000007"]
    is_wanted(asked(program, words, ""), summary("6", "500", "9", "3", "2394"))


# ---- rings


def ring(version: int, count: int, times: int) -> str:
    """A plain job of a ring of so many parties, each of whose arcs is there so many times."""
    names = [f"p{10 + place}" for place in range(count)]
    arcs = [{"from": names[place], "to": names[(place + 1) % count], "amount": 1} for place in range(count) for _ in range(times)]
    parties = [{"name": name, "seed": 32 * name[1:]} for name in names]
    job = {"swap": version, "mode": "hashkeys", "start": 2, "delta": 2, "bound": 31, "parties": parties, "arcs": arcs}
    return json.dumps(job | {"leaders": [{"party": "p10"}], "finish": "fair"}) + "\n"


def runs_the_largest_ring(program: Program) -> None:
    """32 parties in a ring, each of whose arcs is there four times: the last hashkeys have paths of
    32 vertices."""
    job = done(program, ["make"], ring(2, 32, 4))
    is_wanted(asked(program, ["check"], job), CHECKED)
    report = done(program, ["run"], job)
    must(report.count(" conforming: Deal\n") == 32 and report.count(" claim: accepted\n") == 128, "not every deal")
    must(report.endswith("\nfindings 0\n"), "findings")
    is_wanted(done(program, ["audit"], done(program, ["run", "--transcript"], job)), report)


def races_the_largest_ring(program: Program) -> None:
    job = done(program, ["make"], ring(2, 32, 4))
    is_wanted(raced_ends(program, job), " ".join(32 * ["Deal"]))


REFUSED_RINGS = {
    "OverLimit 1 parties 25": (1, 25, 1), "OverLimit 1 arcs 120": (1, 24, 5), "Parallel 0 1": (1, 24, 4),
    "OverLimit 1 parties 33": (2, 33, 1), "OverLimit 1 arcs 160": (2, 32, 5), "OverLimit 1 parties 1": (2, 1, 1),
}  # fmt: skip


def tests() -> Tests:
    for name in ("plain", "plain_timelocks"):
        yield f"{name} is made byte for byte", partial(is_made, name)
    yield "further lines are copied, and blank ones left out", copies_lines
    over = deal("plain") + 200_001 * "x\n"
    yield "too many further lines", partial(is_refused, over, "OverLimit 200002 events 200001")
    yield "the job of number 7", is_sevens_job
    yield "the job of number 7, twice", is_given_twice
    yield "the summary of number 7, by other words", is_summed_up
    for reason, (version, count, times) in REFUSED_RINGS.items():
        yield f"a ring that is refused: {reason}", partial(is_refused, ring(version, count, times), reason)
    yield "a ring of 32 parties with 128 arcs", runs_the_largest_ring
    yield "a race of that ring", races_the_largest_ring
