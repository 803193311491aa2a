"""Tests of transcripts: what is written of a run, and what an audit tells of texts that are
changed, cut or full."""
from __future__ import annotations

import sys
from functools import partial
from typing import Callable

sys.dont_write_bytecode = True
from program import Program, Tests, must
from texts import asked, deal, edited, is_wanted, signed, stored

TRANSFER = '{"call":"bob","move":{"do":"transfer","arc":1,"to":"carol","units":2}}\n'
CAROL = '"carol", => "carol","actor":"manual",'
CUT_SHORT = "swap: refused: CutShort\n"


def transcript(name: str) -> str:
    return signed(stored(name + ".transcript"))


def is_written(job: str, name: str, program: Program) -> None:
    is_wanted(asked(program, ["run", "--transcript"], job), "done\n" + transcript(name))


def has_calls(calls: int, line: str, program: Program) -> None:
    """An audit of so many calls of one party, each of which a ledger without a contract refuses,
    tells that line."""
    lines = f"ledger 1 {calls + 2}\n" + calls * "c 2 claim = NoContract\n"
    answered = asked(program, ["audit"], edited(stored("by_hand.transcript"), f"ledger 1 2\n => {lines}"))
    must(line in answered.splitlines(), f"it answered:\n{answered}")


# ---- changed bits and cuts


def notices(name: str, bit: int, first: int, step: int, program: Program) -> None:
    """With one bit of the byte at a place changed, the transcript has another answer: a refusal, or
    the report of another book."""
    text = transcript(name).encode()
    before = asked(program, ["audit"], text)
    for place in range(first, len(text), step):
        changed = bytearray(text)
        changed[place] ^= bit
        answered = asked(program, ["audit"], bytes(changed))
        must(answered != before, f"bit {bit} at {place} isn't noticed")
        must(answered.startswith("swap: refused: ") or "\nswap report 1\n" in answered, f"bit {bit} at {place}: {answered}")


def is_cut_short(name: str, first: int, step: int, program: Program) -> None:
    text = transcript(name).encode()
    for cut in range(first, len(text), step):
        answered = asked(program, ["audit"], text[:cut])
        must(answered == CUT_SHORT, f"cut at {cut}: {answered}")


def shares(name: str, test: Callable[..., None], step: int, of: int) -> Tests:
    """The places of a test whose number is a multiple of the step, in so many shares."""
    for share in range(of):
        yield f"{name}, share {share + 1} of {of}", partial(test, share * step, of * step)


def tests() -> Tests:
    yield "a run's transcript with timelocks", partial(is_written, deal("by_hand") + TRANSFER, "by_hand")
    keyed = edited(deal("hashkeys"), CAROL) + stored("carol_by_hand.events")
    yield "a run's transcript with hashkeys", partial(is_written, keyed, "carol_by_hand")
    yield "a transcript of 32 calls of one party", partial(has_calls, 32, "0 carol claim: NoContract")
    yield "a transcript of 33 calls", partial(has_calls, 33, "swap: refused: BadReply 1 32 NoContract SenderFull")
    for name, bit, step in (("by_hand", 1, 1), ("by_hand", 4, 4), ("by_hand", 16, 4), ("carol_by_hand", 1, 128)):
        yield from shares(f"bit {bit} of {name} is changed", partial(notices, name, bit), step, 2)
    for name, step in (("by_hand", 1), ("carol_by_hand", 32)):
        yield from shares(f"{name} is cut short", partial(is_cut_short, name), step, 2)
